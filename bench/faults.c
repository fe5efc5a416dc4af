// Stands before the C library's calls, and has one of them fail: LD_PRELOAD of the program in faults.py.
//
// FAULT_CALL   the call: memory, read, write, tell, accept, recv, send, thread, socket, bind, listen, option, shutdown,
//              poll (epoll_create1), watch (epoll_ctl), rest (epoll_wait)
// FAULT_FIRST  the number, from 1, of the first call that fails; with FAULT_LAST the last one
// FAULT_HOW    the error's number, or 0: the call moves a single byte
// FAULT_COUNTS a file that gets, at the end, how often each call was made
//
// Reads count of standard input alone, writes of standard output, and what is told of standard error. What a recv that
// was cut short leaves has not come yet, as when a peer sends it later: the next epoll_wait tells that it has.
#define _GNU_SOURCE
#include <dlfcn.h>
#include <errno.h>
#include <fcntl.h>
#include <pthread.h>
#include <stdatomic.h>
#include <stdio.h>
#include <stdlib.h>
#include <string.h>
#include <sys/epoll.h>
#include <sys/socket.h>
#include <sys/syscall.h>
#include <unistd.h>

void *__libc_malloc(size_t);
void *__libc_realloc(void *, size_t);

enum call { MEMORY, READ, WRITE, TELL, ACCEPT, RECV, SEND, THREAD, SOCKET, BIND, LISTEN, OPTION, SHUTDOWN, POLL, WATCH, REST, CALLS };
static const char *const names[CALLS] = {"memory", "read",   "write", "tell",   "accept", "recv",    "send",
                                         "thread", "socket", "bind",  "listen", "option", "shutdown", "poll", "watch", "rest"};
static atomic_long made[CALLS];
static int ready, chosen = -1, how;
static long first, last;

__attribute__((constructor)) static void begin(void) {
  const char *word = getenv("FAULT_CALL");
  for (int call = 0; word && call < CALLS; call++)
    if (!strcmp(word, names[call])) chosen = call;
  if (chosen >= 0) {
    first = atol(getenv("FAULT_FIRST"));
    last = atol(getenv("FAULT_LAST"));
    how = atoi(getenv("FAULT_HOW"));
  }
  ready = 1;
}

static void tell_counts(void) {
  const char *file = getenv("FAULT_COUNTS");
  if (!file || !ready) return;
  ready = 0;
  char text[512];
  int size = 0;
  for (int call = 0; call < CALLS; call++)
    size += snprintf(text + size, sizeof text - size, "%s %ld\n", names[call], atomic_load(&made[call]));
  int out = open(file, O_WRONLY | O_CREAT | O_TRUNC, 0600);
  if (out >= 0) {
    syscall(SYS_write, out, text, size);
    close(out);
  }
}

__attribute__((destructor)) static void end(void) { tell_counts(); }

void _exit(int status) {
  tell_counts();
  for (;;) syscall(SYS_exit_group, status);
}

// Whether this call is one that fails.
static int fails(enum call call) {
  if (!ready) return 0;
  long number = atomic_fetch_add(&made[call], 1) + 1;
  return (int)call == chosen && number >= first && number <= last;
}

// Whether this call fails with an error, or else how many bytes it is to move.
static int breaks(enum call call, size_t *size) {
  if (!fails(call)) return 0;
  if (how) {
    errno = how;
    return 1;
  }
  if (*size > 1) *size = 1;
  return 0;
}

#define REAL(name) ((__typeof__(&name))dlsym(RTLD_NEXT, #name))

void *malloc(size_t size) {
  if (fails(MEMORY)) {
    errno = ENOMEM;
    return NULL;
  }
  return __libc_malloc(size);
}

void *realloc(void *old, size_t size) {
  if (fails(MEMORY)) {
    errno = ENOMEM;
    return NULL;
  }
  return __libc_realloc(old, size);
}

ssize_t read(int file, void *into, size_t size) {
  if (file == 0 && breaks(READ, &size)) return -1;
  return syscall(SYS_read, file, into, size);
}

ssize_t write(int file, const void *from, size_t size) {
  if (file == 1 && breaks(WRITE, &size)) return -1;
  if (file == 2 && breaks(TELL, &size)) return -1;
  return syscall(SYS_write, file, from, size);
}

enum { MOST_FILES = 1024 };

// What is told of a file that is watched, and whether a recv has left some of what came there.
static struct {
  epoll_data_t data;
  int is_left;
} watched[MOST_FILES];
static int left;

ssize_t recv(int file, void *into, size_t size, int flags) {
  size_t asked = size;
  if (breaks(RECV, &size)) return -1;
  ssize_t moved = syscall(SYS_recvfrom, file, into, size, flags, NULL, NULL);
  if (size < asked && moved > 0 && file < MOST_FILES && !watched[file].is_left) {
    watched[file].is_left = 1;
    left++;
  }
  return moved;
}

int epoll_create1(int flags) {
  size_t none = 0;
  if (breaks(POLL, &none)) return -1;
  return syscall(SYS_epoll_create1, flags);
}

int epoll_ctl(int poll, int op, int file, struct epoll_event *event) {
  size_t none = 0;
  if (breaks(WATCH, &none)) return -1;
  if (event && file < MOST_FILES) watched[file].data = event->data;
  return syscall(SYS_epoll_ctl, poll, op, file, event);
}

int epoll_wait(int poll, struct epoll_event *events, int most, int timeout) {
  size_t none = 0;
  if (breaks(REST, &none)) return -1;
  int count = syscall(SYS_epoll_wait, poll, events, most, left ? 0 : timeout);
  for (int file = 0; left && count >= 0 && count < most && file < MOST_FILES; file++)
    if (watched[file].is_left) {
      watched[file].is_left = 0;
      left--;
      events[count++] = (struct epoll_event){.events = EPOLLIN, .data = watched[file].data};
    }
  return count;
}

ssize_t send(int file, const void *from, size_t size, int flags) {
  if (breaks(SEND, &size)) return -1;
  return syscall(SYS_sendto, file, from, size, flags, NULL, 0);
}

int accept4(int file, struct sockaddr *address, socklen_t *length, int flags) {
  size_t none = 0;
  if (breaks(ACCEPT, &none)) return -1;
  return syscall(SYS_accept4, file, address, length, flags);
}

int socket(int domain, int type, int protocol) {
  size_t none = 0;
  if (breaks(SOCKET, &none)) return -1;
  return syscall(SYS_socket, domain, type, protocol);
}

int bind(int file, const struct sockaddr *address, socklen_t length) {
  size_t none = 0;
  if (breaks(BIND, &none)) return -1;
  return syscall(SYS_bind, file, address, length);
}

int listen(int file, int backlog) {
  size_t none = 0;
  if (breaks(LISTEN, &none)) return -1;
  return syscall(SYS_listen, file, backlog);
}

int setsockopt(int file, int level, int name, const void *value, socklen_t length) {
  size_t none = 0;
  if (breaks(OPTION, &none)) return -1;
  return syscall(SYS_setsockopt, file, level, name, value, length);
}

int shutdown(int file, int side) {
  size_t none = 0;
  if (breaks(SHUTDOWN, &none)) return -1;
  return syscall(SYS_shutdown, file, side);
}

int pthread_create(pthread_t *thread, const pthread_attr_t *attributes, void *(*start)(void *), void *argument) {
  if (fails(THREAD)) return how;
  return REAL(pthread_create)(thread, attributes, start, argument);
}
