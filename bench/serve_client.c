// The work of serve.sh at a server on 127.0.0.1: each client is a thread with a connection of its own, and makes
// blocking calls.
//
//   serve_client SERVER PORT PID WORK CLIENTS PIECE ROUNDS [TRACE]
//
// SERVER is `tucson` or `redis`, and PID its process. PIECE is how many requests are sent in one piece. WORK is
//   pair      each client puts a tuple of its own and takes it
//   own       the same, at a centre of its own: c0 for the first client
//   counter   each client counts, by a reaction or a script
//   pingpong  clients by two: one puts a ping and takes a pong, the other takes and puts
//   waiting   the same, but `in` and `wait` are sent in one piece
//   queue     every other client puts jobs, the others take them
//   hold      each client makes one call and stays
// Each client makes ROUNDS rounds, behind a tenth of them that don't count. Written are, of the rounds of all
// clients: their number, the server's processor time and the whole time in nanoseconds, and the median and the 99th
// percentile of a round's time. Of `hold` it is the server's resident memory in kB, before and after, and its
// processor time in ten seconds in which nobody calls. With TRACE the server's system calls are counted meanwhile, in
// the file of this name.
#include <arpa/inet.h>
#include <dirent.h>
#include <errno.h>
#include <netinet/tcp.h>
#include <pthread.h>
#include <signal.h>
#include <stdarg.h>
#include <stdio.h>
#include <stdlib.h>
#include <string.h>
#include <sys/socket.h>
#include <sys/wait.h>
#include <time.h>
#include <unistd.h>

enum { ROOM = 65536, MOST_TRIES = 500 };

typedef struct {
  int number;
  int socket;
  long pieces;          // of each client, without those that don't count
  double *took;         // what each took, in nanoseconds
  size_t to_send;       // bytes in `out`
  size_t from, to;      // those of `in` that aren't used yet
  char out[ROOM], in[ROOM];
} client;

static int is_redis, port, clients, piece;
static const char *pid, *work;
static long rounds;
static char script[64];
static pthread_barrier_t barrier;

static void fail(const char *format, ...) {
  va_list args;
  va_start(args, format);
  fprintf(stderr, "serve_client: ");
  vfprintf(stderr, format, args);
  fprintf(stderr, "\n");
  exit(1);
}

static int is(const char *name) { return !strcmp(work, name); }

static double nanoseconds(void) {
  struct timespec t;
  clock_gettime(CLOCK_MONOTONIC, &t);
  return t.tv_sec * 1e9 + t.tv_nsec;
}

// The processor time that all threads of the server have taken, in nanoseconds.
static double server_time(void) {
  char path[300];
  snprintf(path, sizeof path, "/proc/%s/task", pid);
  DIR *tasks = opendir(path);
  if (!tasks) fail("no process %s", pid);
  double total = 0;
  for (struct dirent *task; (task = readdir(tasks));) {
    if (task->d_name[0] == '.') continue;
    snprintf(path, sizeof path, "/proc/%s/task/%s/schedstat", pid, task->d_name);
    FILE *file = fopen(path, "r");
    double ns = 0;
    if (!file || fscanf(file, "%lf", &ns) != 1) fail("no processor time is told");
    fclose(file);
    total += ns;
  }
  closedir(tasks);
  return total;
}

// The server's resident memory in kB.
static long resident(void) {
  char path[64], line[256];
  long kb = 0;
  snprintf(path, sizeof path, "/proc/%s/status", pid);
  FILE *file = fopen(path, "r");
  if (!file) fail("no process %s", pid);
  while (fgets(line, sizeof line, file)) sscanf(line, "VmRSS: %ld", &kb);
  fclose(file);
  return kb;
}

// Connects, once the server listens. A socket that was connected to itself is none.
static int dial(void) {
  struct sockaddr_in there = {.sin_family = AF_INET, .sin_port = htons(port)};
  there.sin_addr.s_addr = htonl(INADDR_LOOPBACK);
  for (int i = 0; i < MOST_TRIES; i++) {
    struct sockaddr_in here = {0};
    socklen_t size = sizeof here;
    int one = 1, s = socket(AF_INET, SOCK_STREAM, 0);
    if (s < 0) fail("no socket");
    if (!connect(s, (struct sockaddr *)&there, sizeof there)) {
      getsockname(s, (struct sockaddr *)&here, &size);
      setsockopt(s, IPPROTO_TCP, TCP_NODELAY, &one, sizeof one);
      if (here.sin_port != there.sin_port) return s;
    }
    close(s);
    usleep(20000);
  }
  fail("nobody listens at %d", port);
  return -1;
}

static void send_all(client *c) {
  for (size_t at = 0; at < c->to_send;) {
    ssize_t n = send(c->socket, c->out + at, c->to_send - at, MSG_NOSIGNAL);
    if (n <= 0) fail("client %d can't send", c->number);
    at += n;
  }
  c->to_send = 0;
}

// The next line of replies, without its end.
static char *next_line(client *c) {
  for (;;) {
    char *end = memchr(c->in + c->from, '\n', c->to - c->from);
    if (end) {
      char *line = c->in + c->from;
      c->from = end + 1 - c->in;
      if (end > line && end[-1] == '\r') end--;
      *end = 0;
      return line;
    }
    memmove(c->in, c->in + c->from, c->to - c->from);
    c->to -= c->from;
    c->from = 0;
    ssize_t n = recv(c->socket, c->in + c->to, ROOM - c->to, 0);
    if (n <= 0) fail("client %d got no reply", c->number);
    c->to += n;
  }
}

__attribute__((format(printf, 2, 3))) static void add(client *c, const char *format, ...) {
  va_list args;
  va_start(args, format);
  c->to_send += vsnprintf(c->out + c->to_send, ROOM - c->to_send, format, args);
  va_end(args);
  if (c->to_send >= ROOM) fail("the piece is too long");
}

// Adds a call of two words, ours and that of Redis, with the last word of the latter.
static void add_call(client *c, const char *ours, const char *theirs, char last, const char *name, int key) {
  char list[32];
  int length = snprintf(list, sizeof list, "%s%d", name, key);
  if (is_redis) add(c, "*3\r\n$5\r\n%s\r\n$%d\r\n%s\r\n$1\r\n%c\r\n", theirs, length, list, last);
  else if (is("own")) add(c, "c%d ? %s(%s(%d))\n", c->number, ours, name, key);
  else add(c, "c ? %s(%s(%d))\n", ours, name, key);
}

static void add_put(client *c, const char *name, int key) { add_call(c, "out", "LPUSH", '1', name, key); }

static void add_take(client *c, const char *name, int key) { add_call(c, "in", "BRPOP", '0', name, key); }

static void add_count(client *c) {
  if (is_redis) add(c, "*4\r\n$7\r\nEVALSHA\r\n$40\r\n%s\r\n$1\r\n1\r\n$5\r\ncount\r\n", script);
  else add(c, "c ? out(inc)\n");
}

// Reads a reply of Redis to its end.
static void redis_reply(client *c) {
  char *line = next_line(c);
  if (line[0] == '-') fail("%s", line);
  int parts = line[0] == '*' ? atoi(line + 1) : 0;
  if (line[0] == '$' && line[1] != '-') next_line(c);
  while (parts-- > 0) redis_reply(c);
}

// Reads a reply. Whether the call is pending.
static int reply(client *c) {
  if (is_redis) {
    redis_reply(c);
    return 0;
  }
  char *line = next_line(c);
  if (!strncmp(line, "error", 5)) fail("%s", line);
  return !strcmp(line, "pending");
}

// Puts, in a piece of its own.
static void put(client *c, const char *name, int key) {
  add_put(c, name, key);
  send_all(c);
  reply(c);
}

// Takes, and waits where it has to.
static void take(client *c, const char *name, int key) {
  add_take(c, name, key);
  send_all(c);
  if (!reply(c)) return;
  add(c, "wait\n");
  send_all(c);
  reply(c);
}

// Asks to take and to wait.
static void add_take_and_wait(client *c, const char *name, int key) {
  add_take(c, name, key);
  if (!is_redis) add(c, "wait\n");
}

// Reads the reply, or `pending` and the reply, or the reply and that nothing is waited for.
static void taken(client *c) {
  if (is_redis || reply(c)) reply(c);
  else if (strcmp(next_line(c), "error idle")) fail("a wait has a reply of its own");
}

static void pair(client *c) {
  if (piece == 1) {
    put(c, "p", c->number);
    take(c, "p", c->number);
    return;
  }
  for (int i = 0; i < piece; i += 2) {
    add_put(c, "p", c->number);
    add_take(c, "p", c->number);
  }
  send_all(c);
  for (int i = 0; i < piece; i++) reply(c);
}

static void counter(client *c) {
  for (int i = 0; i < piece; i++) add_count(c);
  send_all(c);
  for (int i = 0; i < piece; i++) reply(c);
}

static void take_at_once(client *c, const char *name, int key) {
  if (is("pingpong")) {
    take(c, name, key);
    return;
  }
  add_take_and_wait(c, name, key);
  send_all(c);
  taken(c);
}

static void pingpong(client *c) {
  int key = c->number / 2;
  if (c->number % 2 == 0) put(c, "ping", key);
  take_at_once(c, c->number % 2 ? "ping" : "pong", key);
  if (c->number % 2 == 1) put(c, "pong", key);
}

static void queue(client *c) {
  int takes = c->number % 2;
  if (takes && piece == 1) {
    take(c, "job", 1);
    return;
  }
  for (int i = 0; i < piece; i++) takes ? add_take_and_wait(c, "job", 1) : add_put(c, "job", 1);
  send_all(c);
  for (int i = 0; i < piece; i++) takes ? taken(c) : (void)reply(c);
}

static void one_piece(client *c) {
  if (is("pair") || is("own")) pair(c);
  else if (is("counter")) counter(c);
  else if (is("pingpong") || is("waiting")) pingpong(c);
  else if (is("queue")) queue(c);
  else fail("no such work");
}

// How many rounds a piece of a client has.
static double rounds_a_piece(void) {
  if (is("pair") || is("own")) return piece == 1 ? 1 : piece / 2;
  if (is("counter")) return piece;
  return is("queue") ? piece * 0.5 : 0.5;
}

static void *make_rounds(void *of) {
  client *c = of;
  for (long i = 0; i < c->pieces / 10 + 1; i++) one_piece(c);
  pthread_barrier_wait(&barrier);
  pthread_barrier_wait(&barrier);
  for (long i = 0; i < c->pieces; i++) {
    double start = nanoseconds();
    one_piece(c);
    c->took[i] = nanoseconds() - start;
  }
  pthread_barrier_wait(&barrier);
  return NULL;
}

static client *new_client(int number, long pieces) {
  client *c = calloc(1, sizeof *c);
  if (!c || !(c->took = calloc(pieces + 1, sizeof *c->took))) fail("no memory");
  c->number = number;
  c->socket = dial();
  c->pieces = pieces;
  return c;
}

// Empties the Redis server, and loads the script that counts.
static void prepare_redis(void) {
  client *c = new_client(-1, 0);
  add(c, "*1\r\n$8\r\nFLUSHALL\r\n");
  send_all(c);
  redis_reply(c);
  const char *body = "return redis.call('INCR', KEYS[1])";
  add(c, "*3\r\n$6\r\nSCRIPT\r\n$4\r\nLOAD\r\n$%zu\r\n%s\r\n", strlen(body), body);
  send_all(c);
  next_line(c);
  snprintf(script, sizeof script, "%s", next_line(c));
  close(c->socket);
}

static void goodbye(client *c) {
  if (!is_redis) {
    add(c, "quit\n");
    send_all(c);
    next_line(c);
  }
  close(c->socket);
}

// Counts the server's system calls from now on.
static pid_t start_trace(const char *file) {
  pid_t tracer = fork();
  if (!tracer) {
    execlp("strace", "strace", "-q", "-f", "-c", "-o", file, "-p", pid, NULL);
    fail("no strace");
  }
  usleep(1500000);
  return tracer;
}

static void stop_trace(pid_t tracer) {
  kill(tracer, SIGINT);
  waitpid(tracer, NULL, 0);
}

static int by_size(const void *a, const void *b) {
  double x = *(const double *)a, y = *(const double *)b;
  return (x > y) - (x < y);
}

// The times of all pieces, in order. In ping-pong those of the clients count that begin.
static long all_times(client **all, double *times) {
  long n = 0;
  for (int k = 0; k < clients; k++) {
    if ((is("pingpong") || is("waiting")) && k % 2) continue;
    for (long i = 0; i < all[k]->pieces; i++) times[n++] = all[k]->took[i];
  }
  qsort(times, n, sizeof *times, by_size);
  return n;
}

static void measure(client **all, const char *trace) {
  pthread_t *threads = calloc(clients, sizeof *threads);
  pthread_attr_t small;
  pthread_attr_init(&small);
  pthread_attr_setstacksize(&small, 256 * 1024);
  pthread_barrier_init(&barrier, NULL, clients + 1);
  for (int k = 0; k < clients; k++)
    if (pthread_create(&threads[k], &small, make_rounds, all[k])) fail("no thread");
  pthread_barrier_wait(&barrier);
  pid_t tracer = trace ? start_trace(trace) : 0;
  usleep(5000);
  double before = server_time(), start = nanoseconds();
  pthread_barrier_wait(&barrier);
  pthread_barrier_wait(&barrier);
  double end = nanoseconds();
  usleep(5000);
  double after = server_time();
  if (trace) stop_trace(tracer);
  for (int k = 0; k < clients; k++) pthread_join(threads[k], NULL);
  double *times = calloc(clients * (all[0]->pieces + 1), sizeof *times);
  long n = all_times(all, times);
  printf("%.0f %.0f %.0f %.0f %.0f\n", clients * all[0]->pieces * rounds_a_piece(), after - before, end - start,
    times[n / 2], times[n - 1 - n / 100]);
}

static void hold(client **all, long before) {
  for (int k = 0; k < clients; k++) put(all[k], "p", k);
  usleep(500000);
  double start = server_time();
  sleep(10);
  printf("%ld %ld %.0f\n", before, resident(), server_time() - start);
}

int main(int argc, char **argv) {
  if (argc < 8) fail("SERVER PORT PID WORK CLIENTS PIECE ROUNDS [TRACE]");
  is_redis = !strcmp(argv[1], "redis");
  port = atoi(argv[2]);
  pid = argv[3];
  work = argv[4];
  clients = atoi(argv[5]);
  piece = atoi(argv[6]);
  rounds = atol(argv[7]);
  if (is_redis) prepare_redis();

  long pieces = is("hold") ? 0 : rounds / (piece == 1 ? 1 : is("pair") || is("own") ? piece / 2 : piece);
  client **all = calloc(clients, sizeof *all);
  long before = 0;
  for (int k = 0; k < clients; k++) {
    all[k] = new_client(k, pieces);
    if (k == 0) before = resident();
  }
  if (is("hold")) hold(all, before);
  else measure(all, argc > 8 ? argv[8] : NULL);
  for (int k = 0; k < clients; k++) goodbye(all[k]);
  return 0;
}
