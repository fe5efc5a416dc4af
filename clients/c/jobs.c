/* jobs PORT   a boss and a worker at ./tucson serve PORT < examples/net/jobs.conf
 *
 * The boss is the first agent, anna, and the worker the second, ben, in a process of its own. The
 * boss puts three jobs, and waits until a reaction has counted three results.
 */
#include "tucson.h"

#include <stdio.h>
#include <stdlib.h>
#include <sys/wait.h>

enum { JOBS = 3 };

/* Ends the program where a call has failed, or has another reply than is due. */
static void need(int error, const tc_reply *reply, tc_reply_kind due) {
  if (!error && reply->kind == due) return;
  fprintf(stderr, "jobs: %s\n", error ? tc_error_text(error) : "another reply than is due");
  exit(1);
}

static void work(uint16_t port) {
  char buffer[4096], result[512], what[128];
  tc_session ben;
  tc_reply reply = {TC_DONE, {NULL, 0}};
  need(tc_connect(&ben, "127.0.0.1", port, buffer, sizeof buffer), &reply, TC_DONE);
  for (int i = 0; i < JOBS; i++) {
    tc_term job, number, name;
    need(tc_in(&ben, "jobs", "job(N,What)", &reply), &reply, TC_TUPLE);
    if (tc_read_term(reply.text, &job) || tc_next(&job, &number) <= 0 ||
        tc_next(&job, &name) <= 0 || tc_copy_name(&name, what, sizeof what))
      exit(1);
    printf("ben does job %lld, %s\n", (long long)number.number, what);
    tc_writer writer = tc_writer_into(result, sizeof result);
    tc_write_text(&writer, "result(");
    tc_write_number(&writer, number.number);
    tc_write_text(&writer, ",");
    tc_write_atom(&writer, what);
    tc_write_text(&writer, ")");
    need(writer.error, &reply, reply.kind);
    need(tc_out(&ben, "jobs", result, &reply), &reply, TC_DONE);
  }
  need(tc_quit(&ben, &reply), &reply, TC_BYE);
}

int main(int words, char **word) {
  static const char *jobs[JOBS] = {"job(1,sort)", "job(2,'print it')", "job(3,rest)"};
  char buffer[4096];
  tc_session anna;
  tc_reply reply = {TC_DONE, {NULL, 0}};
  uint16_t port = (uint16_t)(words == 2 ? atoi(word[1]) : 7000);
  need(tc_connect(&anna, "127.0.0.1", port, buffer, sizeof buffer), &reply, TC_DONE);
  for (int i = 0; i < JOBS; i++) need(tc_out(&anna, "jobs", jobs[i], &reply), &reply, TC_DONE);
  pid_t worker = fork();
  if (worker == 0) {
    work(port);
    return 0;
  }
  need(tc_rd(&anna, "jobs", "finished(3)", &reply), &reply, TC_TUPLE);
  printf("anna reads %.*s\n", (int)reply.text.length, reply.text.bytes);
  need(tc_quit(&anna, &reply), &reply, TC_BYE);
  return waitpid(worker, NULL, 0) == worker ? 0 : 1;
}
