/* tests PORT   tests of tucson.h at ./tucson serve PORT < clients/c/tests.conf
 *
 * Texts that are read lie in memory of their own size, so that a sanitizer tells each byte that is
 * read beside them.
 */
#include "tucson.h"

#include <stdio.h>
#include <stdlib.h>

#define CHECK(holds)                                                 \
  do {                                                               \
    if (!(holds)) {                                                  \
      fprintf(stderr, "%s:%d: not so: %s\n", __FILE__, __LINE__, #holds); \
      exit(1);                                                       \
    }                                                                \
  } while (0)

enum { MOST_LINE = 131072, ROOM = 200000 };

/* ---- Writing ---- */

static const struct {
  const char *name, *text;
} names[] = {
    {"a", "a"}, {"red_Door9", "red_Door9"}, {"is", "is"}, {"two words", "'two words'"},
    {"Capital", "'Capital'"}, {"_", "'_'"}, {"9x", "'9x'"}, {"-1", "'-1'"}, {"", "''"},
    {"it's", "'it\\'s'"}, {"back\\slash", "'back\\\\slash'"}, {"\\n", "'\\\\n'"},
    {"line\nend", "'line\\nend'"}, {"a\ttab", "'a\\ttab'"}, {"Z\303\274rich", "'Z\303\274rich'"},
    {"\377\200\177", "'\377\200\177'"}, {"+", "'+'"}, {",", "','"}, {".", "'.'"}, {"'", "'\\''"},
};

static const int64_t numbers[] = {0, 1, -1, 42, -1000, INT64_MAX, INT64_MIN, INT64_MIN + 1};

enum {
  NAMES = sizeof names / sizeof names[0],
  NUMBERS = sizeof numbers / sizeof numbers[0]
};

static void names_are_written(void) {
  char room[64];
  for (int i = 0; i < NAMES; i++) {
    tc_writer writer = tc_writer_into(room, sizeof room);
    tc_write_atom(&writer, names[i].name);
    CHECK(!writer.error && !strcmp(room, names[i].text));
  }
  tc_writer writer = tc_writer_into(room, sizeof room);
  tc_write_atom(&writer, "[]");
  tc_write_name(&writer, "[]", 2);
  tc_write_quoted(&writer, "a", 1);
  CHECK(!writer.error && !strcmp(room, "[]'[]''a'"));
}

static void numbers_are_written(void) {
  static const char *texts[] = {"0", "1", "-1", "42", "-1000", "9223372036854775807",
                                "-9223372036854775808", "-9223372036854775807"};
  char room[32];
  for (int i = 0; i < NUMBERS; i++) {
    tc_writer writer = tc_writer_into(room, sizeof room);
    tc_write_number(&writer, numbers[i]);
    CHECK(!writer.error && !strcmp(room, texts[i]));
  }
}

static void what_cannot_be_written_is_told(void) {
  char room[4];
  tc_writer writer = tc_writer_into(room, sizeof room);
  tc_write_text(&writer, "abc");
  CHECK(!writer.error && !strcmp(room, "abc"));
  tc_write_text(&writer, "d");
  CHECK(writer.error == TC_NO_ROOM && !strcmp(room, "abc"));
  writer = tc_writer_into(room, 0);
  tc_write_text(&writer, "");
  CHECK(writer.error == TC_NO_ROOM);
  for (int byte = 0; byte < 256; byte++) {
    char large[16], name = (char)byte;
    writer = tc_writer_into(large, sizeof large);
    tc_write_name(&writer, &name, 1);
    CHECK(writer.error == (byte < 32 && byte != '\n' && byte != '\t' ? TC_BAD_TEXT : TC_OK));
  }
}

/* ---- Reading ---- */

/* A copy of the text, without a zero behind it. */
static tc_text own(const char *bytes, size_t length) {
  char *copy = malloc(length ? length : 1);
  CHECK(copy);
  memcpy(copy, bytes, length);
  tc_text text = {copy, length};
  return text;
}

static void disown(tc_text text) { free((void *)(uintptr_t)text.bytes); }

static tc_text own_string(const char *string) { return own(string, strlen(string)); }

/* Walks a term to its leaves: how many nodes it has, or an error. */
static int walk(tc_text text) {
  tc_term term, part;
  char name[ROOM];
  int nodes = 1, found, error = tc_read_term(text, &term);
  if (error) return error;
  if (term.name.bytes) CHECK(!tc_copy_name(&term, name, sizeof name) && tc_name_is(&term, name));
  while ((found = tc_next(&term, &part)) > 0) {
    int below = walk(part.text);
    if (below < 0) return below;
    nodes += below;
  }
  return found < 0 ? found : nodes;
}

static void terms_are_walked(void) {
  tc_text text = own_string("p('a b',-7,[1,[]|T],q('\\'(','\\\\'),[],_0)");
  tc_term term, part, inner;
  char name[8];
  CHECK(walk(text) == 12);
  CHECK(!tc_read_term(text, &term) && term.kind == TC_COMPOUND && tc_name_is(&term, "p"));
  CHECK(tc_count(term) == 6);
  CHECK(tc_next(&term, &part) == TC_PART && part.kind == TC_ATOM && tc_name_is(&part, "a b"));
  CHECK(tc_copy_name(&part, name, 4) == TC_OK && !strcmp(name, "a b"));
  CHECK(tc_copy_name(&part, name, 3) == TC_NO_ROOM && tc_copy_name(&part, name, 0) == TC_NO_ROOM);
  CHECK(!tc_name_is(&part, "a ") && !tc_name_is(&part, "a bc") && !tc_name_is(&part, "'a b'"));
  CHECK(tc_next(&term, &part) == TC_PART && part.kind == TC_NUMBER && part.number == -7);
  CHECK(tc_next(&term, &part) == TC_PART && part.kind == TC_LIST && tc_count(part) == 3);
  CHECK(tc_next(&part, &inner) == TC_PART && inner.number == 1);
  CHECK(tc_next(&part, &inner) == TC_PART && inner.kind == TC_LIST && tc_count(inner) == 0);
  CHECK(tc_next(&part, &inner) == TC_TAIL && inner.kind == TC_VARIABLE && tc_name_is(&inner, "T"));
  CHECK(tc_next(&part, &inner) == 0);
  CHECK(tc_next(&term, &part) == TC_PART && part.kind == TC_COMPOUND && tc_count(part) == 2);
  CHECK(tc_next(&part, &inner) == TC_PART && tc_name_is(&inner, "'("));
  CHECK(tc_next(&term, &part) == TC_PART && part.kind == TC_LIST && tc_next(&part, &inner) == 0);
  CHECK(tc_next(&term, &part) == TC_PART && part.kind == TC_VARIABLE);
  CHECK(tc_next(&term, &part) == 0 && tc_next(&term, &part) == 0);
  disown(text);
}

static void numbers_are_read(void) {
  char room[32];
  tc_term term;
  for (int i = 0; i < NUMBERS; i++) {
    tc_writer writer = tc_writer_into(room, sizeof room);
    tc_write_number(&writer, numbers[i]);
    tc_text text = own_string(room);
    CHECK(!tc_read_term(text, &term) && term.kind == TC_NUMBER && term.number == numbers[i]);
    disown(text);
  }
}

static void what_is_no_term_is_told(void) {
  static const char *texts[] = {
      "", " ", "a ", "a b", "a(", "a()", "a(b", "a(b,)", "a(,b)", "a(b))", "a(b]", "a)b(", "[a",
      "[", "[a)", "[,]", "[a,]", "[|a]", "[a|]", "[a|b,c]", "[a|b|c]", "a(b|c)", "'a", "'a\\",
      "'\\x'", "'a''", "'a'b", "9223372036854775808", "-9223372036854775809", "1a", "-", "--1",
      "+1", "1.5", "\303\251", "a.", "a|b", "a,b", "X Y", "]", ")", "f(a)b(c)", "[a]b[c]"};
  for (size_t i = 0; i < sizeof texts / sizeof texts[0]; i++) {
    tc_text text = own_string(texts[i]);
    CHECK(walk(text) == TC_BAD_REPLY);
    disown(text);
  }
}

/* Texts that are damaged by chance: nothing beside them is read. */
static void damaged_texts_are_walked(void) {
  static const char good[] = "p('a\\' b',-7,[1,[]|T],q('(',','),[],_0,9223372036854775807)";
  static const char bytes[] = "'\\(),|[]aX_9- \0n";
  unsigned draw = 1;
  for (int i = 0; i < 100000; i++) {
    char damaged[sizeof good];
    memcpy(damaged, good, sizeof good);
    for (int k = 0; k < 3; k++) {
      draw = draw * 1103515245u + 12345u;
      damaged[(draw >> 16) % (sizeof good - 1)] = bytes[(draw >> 8) % (sizeof bytes - 1)];
    }
    tc_text text = own(damaged, (draw >> 16) % sizeof good);
    int nodes = walk(text);
    CHECK(nodes > 0 || nodes == TC_BAD_REPLY);
    disown(text);
  }
}

static int value(const char *variable, const char *pattern, const char *tuple, tc_term *found) {
  return tc_value_of(variable, tc_text_of(pattern), tc_text_of(tuple), found);
}

static void variables_have_values(void) {
  tc_term found, part;
  CHECK(value("N", "job(N,What)", "job(1,sort)", &found) == 1 && found.number == 1);
  CHECK(value("What", "job(N,What)", "job(1,sort)", &found) == 1 && tc_name_is(&found, "sort"));
  CHECK(value("X", "job(N,What)", "job(1,sort)", &found) == 0);
  CHECK(value("X", "X", "p(1)", &found) == 1 && tc_text_is(found.text, "p(1)"));
  CHECK(value("X", "p([a,q(X)],X)", "p([a,q([7])],[7])", &found) == 1);
  CHECK(tc_text_is(found.text, "[7]"));
  CHECK(value("T", "[H|T]", "[1,2,3]", &found) == 1 && found.kind == TC_LIST);
  CHECK(tc_count(found) == 2 && tc_next(&found, &part) == TC_PART && part.number == 2);
  CHECK(value("T", "[H|T]", "[1]", &found) == 1 && tc_count(found) == 0);
  CHECK(value("T", "[H|T]", "[1|a]", &found) == 1 && tc_name_is(&found, "a"));
  CHECK(value("X", "p(X)", "p", &found) == TC_BAD_REPLY);
  CHECK(value("X", "p(X)", "p(", &found) == TC_BAD_REPLY);
  CHECK(value("X", "p(", "p(1)", &found) == TC_BAD_REPLY);
}

static void replies_are_read(void) {
  static const struct {
    const char *line;
    int error;
    tc_reply_kind kind;
    const char *text;
  } rows[] = {
      {"done", 0, TC_DONE, ""}, {"none", 0, TC_NONE, ""}, {"pending", 0, TC_PENDING, ""},
      {"bye", 0, TC_BYE, ""}, {"tuple p(1)", 0, TC_TUPLE, "p(1)"}, {"spec ''", 0, TC_SPEC, "''"},
      {"over pre", 0, TC_OVER, "pre"}, {"error line syntax", 0, TC_REFUSED, "line syntax"},
      {"", TC_BAD_REPLY, TC_DONE, ""}, {"done ", TC_BAD_REPLY, TC_DONE, ""},
      {"tuple", TC_BAD_REPLY, TC_DONE, ""}, {"tuple ", TC_BAD_REPLY, TC_DONE, ""},
      {"Done", TC_BAD_REPLY, TC_DONE, ""}, {"+OK", TC_BAD_REPLY, TC_DONE, ""}};
  tc_reply reply;
  for (size_t i = 0; i < sizeof rows / sizeof rows[0]; i++) {
    tc_text line = own_string(rows[i].line);
    CHECK(tc_read_reply(line, &reply) == rows[i].error);
    if (!rows[i].error) CHECK(reply.kind == rows[i].kind && tc_text_is(reply.text, rows[i].text));
    disown(line);
  }
}

/* ---- At a server ---- */

static uint16_t port;

/* A session with a buffer of its own. */
static tc_session *dial(size_t size) {
  tc_session *session = malloc(sizeof *session + size);
  CHECK(session);
  CHECK(!tc_connect(session, "127.0.0.1", port, (char *)(session + 1), size));
  return session;
}

static void hang_up(tc_session *session) {
  tc_reply reply;
  CHECK(!tc_quit(session, &reply) && reply.kind == TC_BYE && session->socket == -1);
  free(session);
}

#define REPLIES(call, of_kind, of_text)                                               \
  do {                                                                                \
    tc_reply reply;                                                                   \
    CHECK(!(call) && reply.kind == (of_kind) && tc_text_is(reply.text, (of_text)));   \
  } while (0)

static void each_call_has_its_reply(tc_session *s) {
  REPLIES(tc_out(s, "c", "p(1)", &reply), TC_DONE, "");
  REPLIES(tc_rd(s, "c", "p(X)", &reply), TC_TUPLE, "p(1)");
  REPLIES(tc_rdp(s, "c", "p(X)", &reply), TC_TUPLE, "p(1)");
  REPLIES(tc_in(s, "c", "p(X)", &reply), TC_TUPLE, "p(1)");
  REPLIES(tc_inp(s, "c", "p(X)", &reply), TC_NONE, "");
  REPLIES(tc_no(s, "c", "p(X)", &reply), TC_ABSENT, "");
  REPLIES(tc_nop(s, "c", "p(X)", &reply), TC_ABSENT, "");
  REPLIES(tc_out(s, "c", "p(2)", &reply), TC_DONE, "");
  REPLIES(tc_nop(s, "c", "p(X)", &reply), TC_FOUND, "p(2)");
  REPLIES(tc_inp(s, "c", "p(X)", &reply), TC_TUPLE, "p(2)");
  REPLIES(tc_out(s, "'two words'", "a", &reply), TC_OVER, "post");
  REPLIES(tc_in(s, "'two words'", "a", &reply), TC_REFUSED, "denied");
  REPLIES(tc_poll(s, &reply), TC_REFUSED, "idle");
  REPLIES(tc_wait(s, &reply), TC_REFUSED, "idle");
  REPLIES(tc_ask(s, "c ? rdp( X ) % any", &reply), TC_NONE, "");
  REPLIES(tc_ask(s, "", &reply), TC_REFUSED, "line syntax");
  REPLIES(tc_ask(s, "c ? foo", &reply), TC_REFUSED, "line shape");
  REPLIES(tc_out(s, "c", "9223372036854775808", &reply), TC_REFUSED, "line size");
  REPLIES(tc_out(s, "d", "1", &reply), TC_REFUSED, "unknown centre");
  REPLIES(tc_set_spec(s, "c", "'no text'", &reply), TC_REFUSED, "bad spec 1 syntax");
}

static void lines_are_kept_apart(tc_session *s) {
  tc_reply reply;
  CHECK(tc_ask(s, "poll\nquit", &reply) == TC_BAD_TEXT);
  CHECK(tc_out(s, "c", "1)\nquit\n", &reply) == TC_BAD_TEXT);
  CHECK(tc_out(s, "c\n", "1", &reply) == TC_BAD_TEXT);
  CHECK(tc_get_spec(s, "c\n", &reply) == TC_BAD_TEXT);
}

static void reactions_are_set_and_told(tc_session *s) {
  static const char text[] = "reaction(out(p),out_r('it\\'s')).\n";
  char room[128];
  tc_writer writer = tc_writer_into(room, sizeof room);
  tc_reply reply;
  tc_term term;
  tc_write_quoted(&writer, text, strlen(text));
  CHECK(!writer.error && !tc_set_spec(s, "c", room, &reply) && reply.kind == TC_DONE);
  CHECK(!tc_get_spec(s, "c", &reply) && reply.kind == TC_SPEC && tc_text_is(reply.text, room));
  CHECK(!tc_read_term(reply.text, &term) && !tc_copy_name(&term, room, sizeof room));
  CHECK(!strcmp(room, text));
  CHECK(!tc_set_spec(s, "c", "''", &reply) && reply.kind == TC_DONE);
}

static void names_come_back(tc_session *s) {
  char room[256];
  for (int i = 0; i < NAMES; i++) {
    tc_writer writer = tc_writer_into(room, sizeof room);
    tc_write_name(&writer, names[i].name, strlen(names[i].name));
    tc_write_text(&writer, "(1,[");
    tc_write_atom(&writer, names[i].name);
    tc_write_text(&writer, "],2)");
    CHECK(!writer.error);
    REPLIES(tc_out(s, "c", room, &reply), TC_DONE, "");
    REPLIES(tc_in(s, "c", "X", &reply), TC_TUPLE, room);
  }
}

static void numbers_and_lists_come_back(tc_session *s) {
  char room[32];
  for (int i = 0; i < NUMBERS; i++) {
    tc_writer writer = tc_writer_into(room, sizeof room);
    tc_write_number(&writer, numbers[i]);
    REPLIES(tc_out(s, "c", room, &reply), TC_DONE, "");
    REPLIES(tc_in(s, "c", "X", &reply), TC_TUPLE, room);
  }
  REPLIES(tc_out(s, "c", "[1,[2,[]],[[3]|4]]", &reply), TC_DONE, "");
  REPLIES(tc_in(s, "c", "[X|Y]", &reply), TC_TUPLE, "[1,[2,[]],[[3]|4]]");
}

static void several_lines_in_one_piece(tc_session *s) {
  char room[1024];
  tc_writer piece = tc_writer_into(room, sizeof room);
  for (int i = 0; i < 8; i++) {
    tc_write_text(&piece, "c ? out(p(");
    tc_write_number(&piece, i);
    tc_write_text(&piece, "))\n");
  }
  for (int i = 0; i < 8; i++) tc_write_text(&piece, "c ? inp(p(X))\n");
  CHECK(!piece.error && !tc_send(s, room, piece.length));
  for (int i = 0; i < 8; i++) REPLIES(tc_receive(s, &reply), TC_DONE, "");
  for (int i = 0; i < 8; i++) {
    tc_reply reply;
    tc_term number;
    CHECK(!tc_receive(s, &reply) && reply.kind == TC_TUPLE);
    CHECK(tc_value_of("X", tc_text_of("p(X)"), reply.text, &number) == 1 && number.number == i);
  }
}

static void a_pending_in_is_answered_by_another(tc_session *first, tc_session *second) {
  REPLIES(tc_in_no_wait(first, "c", "p(X)", &reply), TC_PENDING, "");
  REPLIES(tc_poll(first, &reply), TC_PENDING, "");
  REPLIES(tc_out(first, "c", "p(1)", &reply), TC_REFUSED, "waiting");
  REPLIES(tc_out(second, "c", "p(1)", &reply), TC_DONE, "");
  REPLIES(tc_poll(first, &reply), TC_TUPLE, "p(1)");
  REPLIES(tc_rd_no_wait(first, "c", "p(X)", &reply), TC_PENDING, "");
  CHECK(!tc_send_line(first, "wait"));
  REPLIES(tc_out(second, "c", "p(2)", &reply), TC_DONE, "");
  REPLIES(tc_receive(first, &reply), TC_TUPLE, "p(2)");
  REPLIES(tc_inp(first, "c", "p(2)", &reply), TC_TUPLE, "p(2)");
}

/* "poll" with so many bytes in all. */
static const char *long_poll(size_t length) {
  static char line[MOST_LINE + 2];
  memset(line, ' ', length);
  memcpy(line, "poll", 4);
  line[length] = 0;
  return line;
}

static void lines_of_the_most_bytes(void) {
  tc_session *s = dial(ROOM);
  static char quotes[65001], room[ROOM];
  tc_writer writer = tc_writer_into(room, sizeof room);
  memset(quotes, '\'', 65000);
  tc_write_atom(&writer, quotes);
  CHECK(!writer.error && writer.length == 130002);
  REPLIES(tc_out(s, "c", room, &reply), TC_DONE, "");
  REPLIES(tc_in(s, "c", "X", &reply), TC_TUPLE, room);
  REPLIES(tc_ask(s, long_poll(MOST_LINE), &reply), TC_REFUSED, "idle");
  REPLIES(tc_ask(s, long_poll(MOST_LINE + 1), &reply), TC_REFUSED, "line too long");
  tc_reply reply;
  CHECK(tc_poll(s, &reply) == TC_ENDED);
  tc_close(s);
  free(s);
}

static void a_reply_without_room_is_told(void) {
  tc_session *s = dial(12);
  tc_reply told;
  REPLIES(tc_out(s, "c", "x(12)", &reply), TC_DONE, "");
  REPLIES(tc_rdp(s, "c", "X", &reply), TC_TUPLE, "x(12)");
  REPLIES(tc_out(s, "c", "x(1)", &reply), TC_DONE, "");
  REPLIES(tc_inp(s, "c", "x(12)", &reply), TC_TUPLE, "x(12)");
  REPLIES(tc_out(s, "c", "x(1234)", &reply), TC_DONE, "");
  CHECK(tc_rdp(s, "c", "x(1234)", &told) == TC_NO_ROOM);
  tc_close(s);
  free(s);
}

static void nobody_listens(void) {
  tc_session session;
  char buffer[8];
  CHECK(tc_connect(&session, "no address", port, buffer, sizeof buffer) == TC_BAD_TEXT);
  CHECK(tc_connect(&session, "127.0.0.1", 1, buffer, sizeof buffer) == TC_SYSTEM);
  CHECK(errno == ECONNREFUSED && session.socket == -1);
}

int main(int words, char **word) {
  CHECK(words == 2);
  port = (uint16_t)atoi(word[1]);
  names_are_written();
  numbers_are_written();
  what_cannot_be_written_is_told();
  terms_are_walked();
  numbers_are_read();
  what_is_no_term_is_told();
  damaged_texts_are_walked();
  variables_have_values();
  replies_are_read();
  nobody_listens();

  tc_session *first = dial(4096), *second = dial(4096);
  each_call_has_its_reply(first);
  lines_are_kept_apart(first);
  reactions_are_set_and_told(first);
  names_come_back(first);
  numbers_and_lists_come_back(first);
  several_lines_in_one_piece(first);
  a_pending_in_is_answered_by_another(first, second);
  lines_of_the_most_bytes();
  a_reply_without_room_is_told();
  tc_session *fifth = dial(64), *beyond = dial(64);
  REPLIES(tc_rdp(fifth, "c", "nothing", &reply), TC_NONE, "");
  hang_up(first);
  hang_up(second);
  hang_up(fifth);
  tc_reply reply;
  CHECK(tc_poll(beyond, &reply) == TC_ENDED); /* The server has ended, and never served it. */
  tc_close(beyond);
  free(beyond);
  puts("the tests in C: as it should be");
  return 0;
}
