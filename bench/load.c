/* The clients of bench/serve, over TCP: each connection is one that leases a unit and releases it, in
 * turn, so many times at once as WINDOW says, and sends a request for each that is answered. With a
 * window above 1 the client says hello by the second protocol.
 *
 *   load PORT CONNECTIONS THREADS SECONDS WINDOW                  of a server with the lines of vmemd
 *   load PORT CONNECTIONS THREADS SECONDS WINDOW LEASE RELEASE    of Redis, by the sums of two scripts
 *
 * It prints that all are connected, and at the end the requests answered a second, and in microseconds
 * how long half of them took at most, and 99 of 100. The first third of a second isn't counted.
 */
#define _GNU_SOURCE
#include <arpa/inet.h>
#include <netinet/tcp.h>
#include <pthread.h>
#include <stdint.h>
#include <stdio.h>
#include <stdlib.h>
#include <string.h>
#include <sys/epoll.h>
#include <sys/resource.h>
#include <sys/socket.h>
#include <time.h>
#include <unistd.h>

#define EVENTS 256
#define MOST_WINDOW 8
#define LONGEST 512
#define SECOND 1000000000ull
#define WARM (SECOND / 3)

/* What leases a unit and releases it in turn; it has a request under way. */
struct slot {
  uint64_t sent;
  char base[24];  /* of its lease, or empty */
};

struct client {
  int link, number;
  uint64_t request;
  struct slot slots[MOST_WINDOW];
  int oldest;  /* the slot whose request was sent first of those under way: it is answered next */
  char replies[MOST_WINDOW * LONGEST];
  size_t length;
};

struct worker {
  pthread_t thread;
  int first, poll;
  uint32_t *times;
  size_t count, room;
};

static int port, connections, threads, window;
static uint64_t span;
static const char *lease_sum, *release_sum;
static pthread_barrier_t all_connected;

static void stop(const char *why) {
  fprintf(stderr, "bench/load: %s\n", why);
  exit(1);
}

static uint64_t now(void) {
  struct timespec at;
  clock_gettime(CLOCK_MONOTONIC, &at);
  return (uint64_t)at.tv_sec * SECOND + (uint64_t)at.tv_nsec;
}

static size_t add_word(char *to, const char *word) {
  return (size_t)sprintf(to, "$%zu\r\n%s\r\n", strlen(word), word);
}

static size_t redis_request(char *to, const struct client *it, const struct slot *slot) {
  char key[24], request[24];
  int is_lease = !slot->base[0];
  sprintf(key, "client%d", it->number);
  sprintf(request, "%llu", (unsigned long long)it->request);
  const char *words[] = {"EVALSHA", is_lease ? lease_sum : release_sum, "2", "free", key, request, slot->base};
  int count = is_lease ? 6 : 7;
  size_t length = (size_t)sprintf(to, "*%d\r\n", count);
  for (int i = 0; i < count; i++) length += add_word(to + length, words[i]);
  return length;
}

static size_t vmemd_request(char *to, const struct client *it, const struct slot *slot) {
  unsigned long long request = it->request;
  if (!slot->base[0]) return (size_t)sprintf(to, "lease %d 1 %llu m 1\n", it->number, request);
  return (size_t)sprintf(to, "release %d 1 %llu m %s\n", it->number, request, slot->base);
}

static void send_all(const struct client *it, const char *text, size_t length) {
  if (send(it->link, text, length, MSG_NOSIGNAL) != (ssize_t)length) stop("a request can't be sent");
}

static size_t add_request(char *to, struct client *it, struct slot *slot) {
  it->request++;
  slot->sent = now();
  return lease_sum ? redis_request(to, it, slot) : vmemd_request(to, it, slot);
}

/* The end of the first reply, or NULL before it is whole. */
static char *end_of_reply(char *text) {
  char *end = strchr(text, '\n');
  if (end && text[0] == '$') end = strchr(end + 1, '\n');
  return end ? end + 1 : NULL;
}

static void receive(struct client *it) {
  ssize_t got = recv(it->link, it->replies + it->length, sizeof it->replies - 1 - it->length, 0);
  if (got <= 0) stop("a connection was cut");
  it->length += (size_t)got;
  it->replies[it->length] = 0;
}

/* Takes a whole reply: a lease's base, or that it was released. */
static void take_reply(char *text, struct slot *slot) {
  char *word = NULL, *rest = NULL;
  int is_lease = !slot->base[0], at = 0, wanted = lease_sum ? 1 : is_lease ? 5 : 0;
  for (char *found = strtok_r(text, " \r\n", &rest); found; found = strtok_r(NULL, " \r\n", &rest))
    if (at++ == wanted) word = found;
  if (is_lease ? !word || !strspn(word, "0123456789") : !word || strcmp(word, "released"))
    stop("a request is answered wrongly");
  snprintf(slot->base, sizeof slot->base, "%s", is_lease ? word : "");
}

static void note(struct worker *it, uint64_t time) {
  if (it->count == it->room) {
    it->room = it->room ? 2 * it->room : 1 << 16;
    it->times = realloc(it->times, it->room * sizeof *it->times);
    if (!it->times) stop("out of memory");
  }
  it->times[it->count++] = time < UINT32_MAX ? (uint32_t)time : UINT32_MAX;
}

/* Connects a client, and has its hello answered. */
static void begin(struct client *it, int poll) {
  struct sockaddr_in to = {.sin_family = AF_INET, .sin_port = htons((uint16_t)port)};
  struct epoll_event event = {.events = EPOLLIN, .data.ptr = it};
  char text[64];
  int yes = 1;
  to.sin_addr.s_addr = htonl(INADDR_LOOPBACK);
  it->link = socket(AF_INET, SOCK_STREAM, 0);
  if (it->link < 0 || connect(it->link, (void *)&to, sizeof to)) stop("a client can't connect");
  setsockopt(it->link, IPPROTO_TCP, TCP_NODELAY, &yes, sizeof yes);
  const char *protocol = window > 1 ? " 2" : "";
  int length = lease_sum ? sprintf(text, "PING\r\n") : sprintf(text, "hello %d 1%s\n", it->number, protocol);
  send_all(it, text, (size_t)length);
  while (!end_of_reply(it->replies)) receive(it);
  if (strncmp(it->replies, lease_sum ? "+PONG" : "welcome", 5)) stop("a client isn't served");
  it->length = 0;
  if (epoll_ctl(poll, EPOLL_CTL_ADD, it->link, &event)) stop("a connection can't be watched");
}

/* Sends the first requests. */
static void send_first(struct client *it) {
  char text[MOST_WINDOW * LONGEST];
  size_t length = 0;
  for (int i = 0; i < window; i++) length += add_request(text + length, it, &it->slots[i]);
  send_all(it, text, length);
}

/* Takes the replies that are whole, and sends a request for each; notes their times from a moment on. */
static void go_on(struct client *it, struct worker *worker, uint64_t from) {
  char text[MOST_WINDOW * LONGEST], *reply = it->replies;
  size_t length = 0;
  uint64_t at = now();
  for (char *end; it->length && (end = end_of_reply(reply)); reply = end) {
    struct slot *slot = &it->slots[it->oldest];
    char kept = *end;
    *end = 0;
    if (at >= from) note(worker, at - slot->sent);
    take_reply(reply, slot);
    *end = kept;
    it->length -= (size_t)(end - reply);
    it->oldest = (it->oldest + 1) % window;
    length += add_request(text + length, it, slot);
  }
  memmove(it->replies, reply, it->length + 1);
  if (length) send_all(it, text, length);
}

static void *talk(void *given) {
  struct worker *it = given;
  struct client *clients = calloc((size_t)connections, sizeof *clients);
  struct epoll_event events[EVENTS];
  if (!clients) stop("out of memory");
  it->poll = epoll_create1(0);
  for (int i = it->first; i < connections; i += threads) {
    clients[i].number = i + 1;
    begin(&clients[i], it->poll);
  }
  if (pthread_barrier_wait(&all_connected)) {
    puts("connected");
    fflush(stdout);
  }
  for (int i = it->first; i < connections; i += threads) send_first(&clients[i]);
  uint64_t begun = now(), at = begun;
  while (at - begun < WARM + span) {
    int count = epoll_wait(it->poll, events, EVENTS, 1000);
    at = now();
    for (int i = 0; i < count; i++) {
      struct client *client = events[i].data.ptr;
      receive(client);
      go_on(client, it, begun + WARM);
    }
  }
  return NULL;
}

static int compare(const void *one, const void *other) {
  uint32_t a = *(const uint32_t *)one, b = *(const uint32_t *)other;
  return (a > b) - (a < b);
}

static void tell(struct worker *workers) {
  struct worker all = {0};
  for (int i = 0; i < threads; i++)
    for (size_t k = 0; k < workers[i].count; k++) note(&all, workers[i].times[k]);
  if (!all.count) stop("no request was answered");
  qsort(all.times, all.count, sizeof *all.times, compare);
  printf("%.1f %.2f %.2f\n", (double)all.count * SECOND / (double)span,
         all.times[all.count / 2] / 1e3, all.times[all.count * 99 / 100] / 1e3);
}

int main(int count, char **words) {
  struct rlimit most;
  if (count != 6 && count != 8) stop("PORT CONNECTIONS THREADS SECONDS WINDOW [LEASE RELEASE]");
  port = atoi(words[1]), connections = atoi(words[2]), threads = atoi(words[3]);
  span = (uint64_t)(atof(words[4]) * SECOND), window = atoi(words[5]);
  if (count == 8) lease_sum = words[6], release_sum = words[7];
  if (connections < 1 || threads < 1 || !span) stop("a number isn't one");
  if (window < 1 || window > MOST_WINDOW) stop("no such window");
  if (threads > connections) threads = connections;
  getrlimit(RLIMIT_NOFILE, &most);
  most.rlim_cur = most.rlim_max;
  setrlimit(RLIMIT_NOFILE, &most);
  struct worker *workers = calloc((size_t)threads, sizeof *workers);
  pthread_barrier_init(&all_connected, NULL, (unsigned)threads);
  for (int i = 0; i < threads; i++) {
    workers[i].first = i;
    if (pthread_create(&workers[i].thread, NULL, talk, &workers[i])) stop("no thread");
  }
  for (int i = 0; i < threads; i++) pthread_join(workers[i].thread, NULL);
  tell(workers);
  return 0;
}
