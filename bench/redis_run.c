// The work of run.sh at a Redis server behind a Unix socket: each client is a thread with a connection of its own,
// and makes blocking calls.
//
//   redis_run SOCKET CASE CLIENTS ROUNDS
//
// Writes the calls that were made, the nanoseconds that they took, and the microseconds of processor time that the
// server took for them.
#include <hiredis/hiredis.h>
#include <pthread.h>
#include <stdarg.h>
#include <stdio.h>
#include <stdlib.h>
#include <string.h>
#include <time.h>

static const char *path;
static const char *name;
static int rounds;
static char script[64];
static pthread_barrier_t ready;

static void fail(const char *what) {
  fprintf(stderr, "redis_run: %s\n", what);
  exit(1);
}

static redisContext *connect_unix(void) {
  redisContext *c = redisConnectUnix(path);
  if (!c || c->err) fail(c ? c->errstr : "no memory");
  return c;
}

static redisReply *command(redisContext *c, const char *format, ...) {
  va_list args;
  va_start(args, format);
  redisReply *reply = redisvCommand(c, format, args);
  va_end(args);
  if (!reply) fail(c->errstr);
  if (reply->type == REDIS_REPLY_ERROR) fail(reply->str);
  return reply;
}

static void put(redisContext *c, const char *list, int number) {
  freeReplyObject(command(c, "LPUSH %s %d", list, number));
}

static void take(redisContext *c, const char *list) {
  redisReply *reply = command(c, "BRPOP %s 0", list);
  if (reply->type != REDIS_REPLY_ARRAY) fail("nothing came");
  freeReplyObject(reply);
}

static void count(redisContext *c) { freeReplyObject(command(c, "EVALSHA %s 1 count", script)); }

// Two calls a round, but for the counter's one, and for producers and consumers, who have one each.
static void round_of(redisContext *c, int client, int number) {
  char list[32];
  if (!strcmp(name, "pair")) {
    snprintf(list, sizeof list, "list%d", client);
    put(c, list, number);
    take(c, list);
  } else if (!strcmp(name, "counter")) {
    count(c);
  } else if (!strcmp(name, "pingpong")) {
    if (client == 0) {
      put(c, "ping", number);
      take(c, "pong");
    } else {
      take(c, "ping");
      put(c, "pong", number);
    }
  } else if (!strcmp(name, "queue")) {
    if (client % 2 == 0) put(c, "jobs", number);
    else take(c, "jobs");
  } else {
    fail("no such case");
  }
}

static int calls_a_round(void) { return !strcmp(name, "counter") || !strcmp(name, "queue") ? 1 : 2; }

static void *client_of(void *number) {
  redisContext *c = connect_unix();
  pthread_barrier_wait(&ready);
  for (int round = 0; round < rounds; round++) round_of(c, (int)(long)number, round);
  redisFree(c);
  return NULL;
}

// The server's processor time so far, in microseconds.
static double server_time(redisContext *c) {
  redisReply *reply = command(c, "INFO cpu");
  double total = 0;
  const char *fields[] = {"used_cpu_sys:", "used_cpu_user:"};
  for (int i = 0; i < 2; i++) {
    const char *at = strstr(reply->str, fields[i]);
    if (!at) fail("no processor time is told");
    total += atof(at + strlen(fields[i])) * 1e6;
  }
  freeReplyObject(reply);
  return total;
}

static double nanoseconds(void) {
  struct timespec t;
  clock_gettime(CLOCK_MONOTONIC, &t);
  return t.tv_sec * 1e9 + t.tv_nsec;
}

int main(int argc, char **argv) {
  if (argc != 5) fail("SOCKET CASE CLIENTS ROUNDS");
  path = argv[1];
  name = argv[2];
  int clients = atoi(argv[3]);
  rounds = atoi(argv[4]);

  redisContext *c = connect_unix();
  freeReplyObject(command(c, "FLUSHALL"));
  redisReply *reply = command(c, "SCRIPT LOAD %s", "return redis.call('INCR', KEYS[1])");
  snprintf(script, sizeof script, "%s", reply->str);
  freeReplyObject(reply);

  pthread_t *threads = calloc(clients, sizeof *threads);
  pthread_barrier_init(&ready, NULL, clients + 1);
  for (long i = 0; i < clients; i++)
    if (pthread_create(&threads[i], NULL, client_of, (void *)i)) fail("no thread");
  double before = server_time(c);
  pthread_barrier_wait(&ready);
  double start = nanoseconds();
  for (int i = 0; i < clients; i++) pthread_join(threads[i], NULL);
  double end = nanoseconds();
  double after = server_time(c);
  printf("%ld %.0f %.0f\n", (long)clients * rounds * calls_a_round(), end - start, after - before);
  return 0;
}
