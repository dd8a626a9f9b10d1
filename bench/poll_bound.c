/* What bounds a server over vmemd's lines that polls: poll_bound THREADS
 *
 * Each thread waits by epoll for its share of the connections, and answers each line from nothing: no
 * book, no arena, no lock. So no server of as many threads answers more requests a second on the same
 * machine. It listens on a port of 127.0.0.1 that it tells, and ends at a signal.
 */
#define _GNU_SOURCE
#include <arpa/inet.h>
#include <netinet/tcp.h>
#include <pthread.h>
#include <stdio.h>
#include <stdlib.h>
#include <string.h>
#include <sys/epoll.h>
#include <sys/resource.h>
#include <sys/socket.h>
#include <unistd.h>

#define EVENTS 256
#define UNITS 4096
#define LONGEST 256
#define MOST_THREADS 64

static int polls[MOST_THREADS];
static unsigned long next_unit;

static void stop(const char *why) {
  fprintf(stderr, "bench/poll_bound: %s\n", why);
  exit(1);
}

/* Answers one line; returns the answer's length. */
static int answer(const char *line, char *to) {
  unsigned long client, incarnation, request;
  char arena[32];
  if (sscanf(line, "lease %lu %lu %lu %30s", &client, &incarnation, &request, arena) == 4) {
    unsigned long unit = __atomic_fetch_add(&next_unit, 1, __ATOMIC_RELAXED) % UNITS;
    return sprintf(to, "granted %lu %lu %lu %s %lu 1\n", client, incarnation, request, arena, unit);
  }
  if (sscanf(line, "release %lu %lu %lu", &client, &incarnation, &request) == 3)
    return sprintf(to, "released %lu %lu %lu\n", client, incarnation, request);
  if (!strncmp(line, "hello ", 6)) return sprintf(to, "welcome %s\n", line + 6);
  return sprintf(to, "error word\n");
}

/* Answers what came over a connection: whole lines, since clients wait for each answer. */
static void serve(int link) {
  char in[16 * LONGEST + 1], out[64 * LONGEST];
  ssize_t got = recv(link, in, sizeof in - 1, 0);
  if (got <= 0) {
    close(link);
    return;
  }
  in[got] = 0;
  int length = 0;
  char *line = in;
  for (char *end; (end = strchr(line, '\n')) && length < (int)sizeof out - LONGEST; line = end + 1) {
    *end = 0;
    length += answer(line, out + length);
  }
  send(link, out, (size_t)length, MSG_NOSIGNAL);
}

static void *work(void *given) {
  struct epoll_event events[EVENTS];
  for (;;) {
    int count = epoll_wait(*(int *)given, events, EVENTS, -1);
    for (int i = 0; i < count; i++) serve(events[i].data.fd);
  }
  return NULL;
}

static int listen_somewhere(void) {
  struct sockaddr_in at = {.sin_family = AF_INET, .sin_addr.s_addr = htonl(INADDR_LOOPBACK)};
  socklen_t size = sizeof at;
  int listener = socket(AF_INET, SOCK_STREAM, 0);
  if (listener < 0 || bind(listener, (void *)&at, size) || listen(listener, 4096)) stop("it can't listen");
  getsockname(listener, (void *)&at, &size);
  printf("listening 127.0.0.1:%d\n", ntohs(at.sin_port));
  fflush(stdout);
  return listener;
}

int main(int count, char **words) {
  int threads = count == 2 ? atoi(words[1]) : 0, yes = 1;
  struct rlimit most;
  if (threads < 1 || threads > MOST_THREADS) stop("THREADS, 1 to 64");
  getrlimit(RLIMIT_NOFILE, &most);
  most.rlim_cur = most.rlim_max;
  setrlimit(RLIMIT_NOFILE, &most);
  for (int i = 0; i < threads; i++) {
    pthread_t thread;
    polls[i] = epoll_create1(0);
    if (polls[i] < 0 || pthread_create(&thread, NULL, work, &polls[i])) stop("no thread");
  }
  int listener = listen_somewhere();
  for (unsigned next = 0;; next++) {
    struct epoll_event event = {.events = EPOLLIN};
    int link = event.data.fd = accept(listener, NULL, NULL);
    if (link < 0) continue;
    setsockopt(link, IPPROTO_TCP, TCP_NODELAY, &yes, sizeof yes);
    epoll_ctl(polls[next % (unsigned)threads], EPOLL_CTL_ADD, link, &event);
  }
}
