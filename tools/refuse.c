/* Refuses a call of a program to the system, from outside: loaded before the program by LD_PRELOAD.
 *
 * REFUSE is "CALL N" or "CALL N on": the Nth call, or each from the Nth on, fails as the system would
 * fail it. CALL is one of memory (malloc, realloc), read, write, recv, send, thread, listen, accept,
 * open.
 * Only calls that the program's own code makes are counted. The file REFUSED is made when a call is
 * refused; once there is the file REFUSE_UNTIL, none is refused any more.
 */
#define _GNU_SOURCE
#include <dlfcn.h>
#include <errno.h>
#include <fcntl.h>
#include <link.h>
#include <pthread.h>
#include <stdarg.h>
#include <stdatomic.h>
#include <stdint.h>
#include <stdio.h>
#include <stdlib.h>
#include <string.h>
#include <sys/socket.h>
#include <sys/syscall.h>
#include <unistd.h>

static char refused_call[16], go_on[4];
static unsigned long wanted;
static atomic_ulong counted;
static uintptr_t first, last;

static int find_program(struct dl_phdr_info *info, size_t size, void *unused) {
  (void)size, (void)unused;
  first = UINTPTR_MAX;
  for (int i = 0; i < info->dlpi_phnum; i++) {
    const ElfW(Phdr) *part = &info->dlpi_phdr[i];
    if (part->p_type != PT_LOAD) continue;
    uintptr_t start = info->dlpi_addr + part->p_vaddr;
    if (start < first) first = start;
    if (start + part->p_memsz > last) last = start + part->p_memsz;
  }
  return 1;  /* the first one told is the program */
}

__attribute__((constructor)) static void begin(void) {
  const char *given = getenv("REFUSE");
  dl_iterate_phdr(find_program, NULL);
  if (given) sscanf(given, "%15s %lu %3s", refused_call, &wanted, go_on);
}

static int is_over(void) {
  const char *until = getenv("REFUSE_UNTIL");
  return until && syscall(SYS_access, until, F_OK) == 0;
}

static int is_refused(const char *call, void *caller) {
  uintptr_t at = (uintptr_t)caller;
  if (!wanted || at < first || at >= last || strcmp(call, refused_call)) return 0;
  unsigned long number = atomic_fetch_add(&counted, 1) + 1;
  if (number != wanted && !(go_on[0] && number > wanted && !is_over())) return 0;
  const char *told = getenv("REFUSED");
  if (told) syscall(SYS_close, syscall(SYS_open, told, O_CREAT | O_WRONLY, 0600));
  return 1;
}

#define REAL(name) ((__typeof__(&name))dlsym(RTLD_NEXT, #name))
#define REFUSE(call, number, answer) \
  if (is_refused(call, __builtin_return_address(0))) { errno = number; return answer; }

void *malloc(size_t size) {
  static void *(*real)(size_t);
  if (!real) real = REAL(malloc);
  REFUSE("memory", ENOMEM, NULL)
  return real(size);
}

void *realloc(void *old, size_t size) {
  static void *(*real)(void *, size_t);
  if (!real) real = REAL(realloc);
  REFUSE("memory", ENOMEM, NULL)
  return real(old, size);
}

ssize_t read(int file, void *to, size_t size) {
  REFUSE("read", EIO, -1)
  return REAL(read)(file, to, size);
}

ssize_t recv(int file, void *to, size_t size, int flags) {
  REFUSE("recv", ECONNRESET, -1)
  return REAL(recv)(file, to, size, flags);
}

ssize_t write(int file, const void *from, size_t size) {
  REFUSE("write", EIO, -1)
  return REAL(write)(file, from, size);
}

ssize_t send(int file, const void *from, size_t size, int flags) {
  REFUSE("send", EPIPE, -1)
  return REAL(send)(file, from, size, flags);
}

int pthread_create(pthread_t *thread, const pthread_attr_t *how, void *(*start)(void *), void *given) {
  if (is_refused("thread", __builtin_return_address(0))) return EAGAIN;
  return REAL(pthread_create)(thread, how, start, given);
}

int listen(int file, int waiting) {
  REFUSE("listen", EADDRINUSE, -1)
  return REAL(listen)(file, waiting);
}

int accept4(int file, struct sockaddr *peer, socklen_t *size, int flags) {
  REFUSE("accept", EMFILE, -1)
  return REAL(accept4)(file, peer, size, flags);
}

int open(const char *path, int flags, ...) {
  va_list more;
  va_start(more, flags);
  mode_t mode = flags & O_CREAT ? va_arg(more, mode_t) : 0;
  va_end(more);
  REFUSE("open", EACCES, -1)
  return REAL(open)(path, flags, mode);
}
