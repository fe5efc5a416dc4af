/* A client of the tuple centres that `./tucson serve` serves: C99, sockets, and nothing else.
 *
 * Nothing is allocated. The caller lends a session the buffer that its replies are read into, and
 * builds terms in buffers of his own. What a reply or a term points to stands in the session's
 * buffer, up to the next call of that session.
 *
 * Centres, tuples and templates are handed over as text in the language: "jobs", "job(1,X)",
 * "'two words'". A tc_writer makes such text of names and numbers. docs/SERVER.md says what the
 * server does, docs/FORMATS.md how terms are written.
 *
 * A call returns TC_OK, or an error below 0. Behind TC_BAD_TEXT nothing was sent; behind another
 * error of a call that sends or reads, close the session. That the server has refused the call is
 * no error: the reply's kind says so.
 */
#ifndef TUCSON_H
#define TUCSON_H

#include <arpa/inet.h>
#include <errno.h>
#include <netinet/in.h>
#include <netinet/tcp.h>
#include <stdint.h>
#include <string.h>
#include <sys/socket.h>
#include <sys/uio.h>
#include <unistd.h>

#ifdef __cplusplus
extern "C" {
#endif

enum {
  TC_OK = 0,
  TC_ENDED = -1,    /* the connection has ended */
  TC_SYSTEM = -2,   /* a system call has failed; errno says why */
  TC_NO_ROOM = -3,  /* the buffer is too small */
  TC_BAD_TEXT = -4, /* a name with a byte that none may have, or a line with a line's end */
  TC_BAD_REPLY = -5 /* what was read is no reply, or no text of a term */
};

/* Bytes that belong to somebody else. They don't end with a zero. */
typedef struct {
  const char *bytes;
  size_t length;
} tc_text;

static inline const char *tc_error_text(int error) {
  switch (error) {
    case TC_OK: return "no error";
    case TC_ENDED: return "the connection has ended";
    case TC_SYSTEM: return strerror(errno);
    case TC_NO_ROOM: return "the buffer is too small";
    case TC_BAD_TEXT: return "a byte stands in the text that may not stand there";
    case TC_BAD_REPLY: return "what was read is no reply, or no text of a term";
    default: return "no such error";
  }
}

static inline tc_text tc_text_of(const char *string) {
  tc_text text = {string, strlen(string)};
  return text;
}

static inline int tc_text_is(tc_text text, const char *string) {
  return text.length == strlen(string) && !memcmp(text.bytes, string, text.length);
}

/* ---- Writing terms ---- */

/* Text that is being written into a lent buffer. It ends with a zero throughout. The first error
 * stays, and nothing is written behind it: look at `error` once, at the end. */
typedef struct {
  char *bytes;
  size_t size;
  size_t length;
  int error;
} tc_writer;

static inline tc_writer tc_writer_into(char *buffer, size_t size) {
  tc_writer writer = {buffer, size, 0, size > 0 ? TC_OK : TC_NO_ROOM};
  if (size > 0) buffer[0] = 0;
  return writer;
}

static inline void tc_write_bytes(tc_writer *writer, const char *bytes, size_t length) {
  if (writer->error) return;
  if (length >= writer->size - writer->length) {
    writer->error = TC_NO_ROOM;
    return;
  }
  memcpy(writer->bytes + writer->length, bytes, length);
  writer->length += length;
  writer->bytes[writer->length] = 0;
}

/* Text as it stands: brackets, commas, and what is a term's text already. */
static inline void tc_write_text(tc_writer *writer, const char *text) {
  tc_write_bytes(writer, text, strlen(text));
}

static inline void tc_write_number(tc_writer *writer, int64_t number) {
  char digits[20];
  size_t at = sizeof digits;
  uint64_t rest = number < 0 ? 0 - (uint64_t)number : (uint64_t)number;
  do {
    digits[--at] = (char)('0' + rest % 10);
    rest /= 10;
  } while (rest > 0);
  if (number < 0) tc_write_text(writer, "-");
  tc_write_bytes(writer, digits + at, sizeof digits - at);
}

static inline void tc_write_quoted_byte(tc_writer *writer, char byte) {
  switch (byte) {
    case '\'': tc_write_text(writer, "\\'"); break;
    case '\\': tc_write_text(writer, "\\\\"); break;
    case '\n': tc_write_text(writer, "\\n"); break;
    case '\t': tc_write_text(writer, "\\t"); break;
    default:
      if ((unsigned char)byte < 32 && !writer->error) writer->error = TC_BAD_TEXT;
      tc_write_bytes(writer, &byte, 1);
  }
}

/* A name in quotes: what tc_set_spec takes, whatever the text is. No byte below 32 stands in a
 * name but LF and tab. */
static inline void tc_write_quoted(tc_writer *writer, const char *name, size_t length) {
  tc_write_text(writer, "'");
  for (size_t i = 0; i < length; i++) tc_write_quoted_byte(writer, name[i]);
  tc_write_text(writer, "'");
}

static inline int tc_is_lower(char c) { return c >= 'a' && c <= 'z'; }
static inline int tc_is_upper(char c) { return c >= 'A' && c <= 'Z'; }
static inline int tc_is_digit(char c) { return c >= '0' && c <= '9'; }

static inline int tc_is_one_of(char c, const char *set) { return c && strchr(set, c) != NULL; }

static inline int tc_is_word(char c) {
  return tc_is_lower(c) || tc_is_upper(c) || tc_is_digit(c) || c == '_';
}

/* The end of the letters, digits and `_` that stand here. */
static inline const char *tc_word_end(const char *at, const char *end) {
  while (at < end && tc_is_word(*at)) at++;
  return at;
}

/* A name as a compound's stands before its bracket: in quotes where it has to be. */
static inline void tc_write_name(tc_writer *writer, const char *name, size_t length) {
  const char *end = name + length;
  if (length > 0 && tc_is_lower(name[0]) && tc_word_end(name, end) == end)
    tc_write_bytes(writer, name, length);
  else
    tc_write_quoted(writer, name, length);
}

/* The atom of this name. It is the same, but for the name of the empty list. */
static inline void tc_write_atom(tc_writer *writer, const char *name) {
  if (!strcmp(name, "[]"))
    tc_write_text(writer, name);
  else
    tc_write_name(writer, name, strlen(name));
}

/* ---- Reading terms ---- */

typedef enum { TC_NUMBER, TC_ATOM, TC_COMPOUND, TC_LIST, TC_VARIABLE } tc_term_kind;

/* A term as it is printed, and the place up to which its arguments or elements were walked. The
 * empty list is a list without elements. */
typedef struct {
  tc_term_kind kind;
  tc_text text;
  tc_text name;   /* of an atom or a compound, as it is printed; of a variable */
  int64_t number; /* of a number */
  tc_text rest;   /* what is still to be walked, without the bracket at the end */
  int tail;       /* whether that is the tail of a list, as T in [1|T] */
} tc_term;

/* What stands behind the quoted name that begins here; NULL where it isn't closed. */
static inline const char *tc_quoted_end(const char *at, const char *end) {
  for (at++; at < end; at++) {
    if (*at == '\'') return at + 1;
    if (*at == '\\' && (++at == end || !tc_is_one_of(*at, "'\\nt"))) return NULL;
  }
  return NULL;
}

/* The end of the term that begins here, by its brackets; NULL where a quote isn't closed. */
static inline const char *tc_term_end(const char *at, const char *end) {
  size_t depth = 0;
  while (at < end) {
    if (*at == '\'') {
      at = tc_quoted_end(at, end);
      if (!at) return NULL;
      continue;
    }
    if (depth == 0 && tc_is_one_of(*at, ",|)]")) return at;
    if (*at == '(' || *at == '[') depth++;
    if (*at == ')' || *at == ']') depth--;
    at++;
  }
  return at;
}

static inline int tc_read_number(tc_term *term) {
  const char *at = term->text.bytes, *end = at + term->text.length;
  int negative = *at == '-';
  uint64_t value = 0, most = (uint64_t)INT64_MAX + (uint64_t)negative;
  if (negative) at++;
  if (at == end) return TC_BAD_REPLY;
  for (; at < end; at++) {
    uint64_t digit = (uint64_t)(*at - '0');
    if (!tc_is_digit(*at) || value > (most - digit) / 10) return TC_BAD_REPLY;
    value = value * 10 + digit;
  }
  term->kind = TC_NUMBER;
  term->number = negative && value > 0 ? -(int64_t)(value - 1) - 1 : (int64_t)value;
  return TC_OK;
}

/* Reads what stands in the brackets that begin here, of which the last byte closes the first. */
static inline int tc_read_rest(tc_term *term, const char *open, char close) {
  const char *last = term->text.bytes + term->text.length - 1;
  if (last <= open || *last != close) return TC_BAD_REPLY;
  term->rest.bytes = open + 1;
  term->rest.length = (size_t)(last - open - 1);
  return TC_OK;
}

static inline int tc_read_list(tc_term *term) {
  term->kind = TC_LIST;
  return tc_read_rest(term, term->text.bytes, ']');
}

static inline int tc_read_named(tc_term *term, const char *name_end) {
  const char *end = term->text.bytes + term->text.length;
  if (!name_end) return TC_BAD_REPLY;
  term->name.bytes = term->text.bytes;
  term->name.length = (size_t)(name_end - term->text.bytes);
  term->kind = name_end == end ? TC_ATOM : TC_COMPOUND;
  if (name_end == end) return TC_OK;
  if (*name_end != '(' || tc_read_rest(term, name_end, ')')) return TC_BAD_REPLY;
  return term->rest.length > 0 ? TC_OK : TC_BAD_REPLY;
}

static inline int tc_read_variable(tc_term *term) {
  const char *end = term->text.bytes + term->text.length;
  term->kind = TC_VARIABLE;
  term->name = term->text;
  return tc_word_end(term->text.bytes, end) == end ? TC_OK : TC_BAD_REPLY;
}

/* Reads the term of this text, as the server prints it: no blanks, operators in front. Arguments
 * are looked at when they are walked, and no earlier. */
static inline int tc_read_term(tc_text text, tc_term *term) {
  const char *end = text.bytes + text.length;
  memset(term, 0, sizeof *term);
  term->text = text;
  if (text.length == 0) return TC_BAD_REPLY;
  char first = text.bytes[0];
  if (first == '[') return tc_read_list(term);
  if (first == '\'') return tc_read_named(term, tc_quoted_end(text.bytes, end));
  if (tc_is_lower(first)) return tc_read_named(term, tc_word_end(text.bytes, end));
  if (tc_is_upper(first) || first == '_') return tc_read_variable(term);
  return tc_read_number(term);
}

enum { TC_PART = 1, TC_TAIL = 2 };

/* The next argument of a compound, or element of a list: TC_PART, or TC_TAIL where it is the tail
 * of a list; 0 where there is none left, or an error. */
static inline int tc_next(tc_term *of, tc_term *part) {
  if (of->rest.length == 0) return 0;
  const char *start = of->rest.bytes, *end = start + of->rest.length;
  int found = of->tail ? TC_TAIL : TC_PART;
  const char *stop = tc_term_end(start, end);
  if (!stop) return TC_BAD_REPLY;
  tc_text text = {start, (size_t)(stop - start)};
  if (stop < end) {
    int bar = *stop == '|' && of->kind == TC_LIST;
    if (of->tail || (!bar && *stop != ',') || stop + 1 == end) return TC_BAD_REPLY;
    of->tail = bar;
    stop++;
  }
  of->rest.bytes = stop;
  of->rest.length = (size_t)(end - stop);
  int error = tc_read_term(text, part);
  return error ? error : found;
}

/* How many arguments or elements are left to be walked, a tail counted; or an error. */
static inline int tc_count(tc_term of) {
  int count = 0, found;
  tc_term part;
  while ((found = tc_next(&of, &part)) > 0) count++;
  return found < 0 ? found : count;
}

/* A name without its quotes: the next byte that it means. */
static inline char tc_name_byte(tc_text *inside) {
  char byte = *inside->bytes++;
  inside->length--;
  if (byte != '\\') return byte;
  byte = *inside->bytes++;
  inside->length--;
  return byte == 'n' ? '\n' : byte == 't' ? '\t' : byte;
}

static inline tc_text tc_inside_of_name(tc_text name) {
  if (name.length > 0 && name.bytes[0] == '\'') {
    name.bytes++;
    name.length -= 2;
  }
  return name;
}

/* Whether a term has this name, whatever its quotes are. */
static inline int tc_name_is(const tc_term *term, const char *name) {
  if (!term->name.bytes) return 0;
  tc_text inside = tc_inside_of_name(term->name);
  for (; inside.length > 0; name++)
    if (*name != tc_name_byte(&inside)) return 0;
  return *name == 0;
}

/* Copies a name without its quotes, and a zero behind it. Names hold no zero. */
static inline int tc_copy_name(const tc_term *term, char *into, size_t size) {
  tc_text inside = tc_inside_of_name(term->name);
  size_t length = 0;
  while (inside.length > 0) {
    if (length + 1 >= size) return TC_NO_ROOM;
    into[length++] = tc_name_byte(&inside);
  }
  if (size == 0) return TC_NO_ROOM;
  into[length] = 0;
  return TC_OK;
}

/* What a variable of a template stands for in a tuple that matches it: 1, or 0 where the template
 * hasn't this variable, or an error. The template is written as the server prints terms. The rest
 * of a list, as T in [H|T], has no text of its own, and can be walked alone. */
static inline int tc_value_of(const char *variable, tc_text template_text, tc_text tuple_text,
                              tc_term *value) {
  tc_term pattern, tuple, pattern_part, tuple_part;
  int error = tc_read_term(template_text, &pattern), found;
  if (error || (error = tc_read_term(tuple_text, &tuple))) return error;
  if (pattern.kind == TC_VARIABLE) {
    *value = tuple;
    return tc_text_is(pattern.name, variable);
  }
  while ((found = tc_next(&pattern, &pattern_part)) > 0) {
    if (found == TC_TAIL && !tuple.tail) {
      *value = tuple;
      value->text = tc_text_of("");
      return tc_text_is(pattern_part.text, variable);
    }
    int there = tc_next(&tuple, &tuple_part);
    if (there <= 0) return there ? there : TC_BAD_REPLY;
    there = tc_value_of(variable, pattern_part.text, tuple_part.text, value);
    if (there) return there;
  }
  return found;
}

/* ---- Sessions ---- */

typedef enum {
  TC_DONE,    /* an out or a set_spec was served */
  TC_TUPLE,   /* text: the tuple */
  TC_NONE,    /* no tuple matches */
  TC_ABSENT,  /* no tuple matches, which is what a no or a nop has asked */
  TC_FOUND,   /* text: a tuple that matches what a nop has asked for; it stays */
  TC_PENDING, /* there is no such tuple yet */
  TC_SPEC,    /* text: the reactions, as a name in quotes */
  TC_OVER,    /* text: pre or post; the reactions went over the budget */
  TC_REFUSED, /* text: why, in the words of docs/SERVER.md */
  TC_BYE      /* the session has ended, as was asked */
} tc_reply_kind;

typedef struct {
  tc_reply_kind kind;
  tc_text text;
} tc_reply;

/* A connection, and the buffer that it reads into: `used` bytes were handed out, in `looked` no
 * line's end was found, `held` have come. */
typedef struct {
  int socket;
  char *buffer;
  size_t size, used, looked, held;
} tc_session;

static inline void tc_close(tc_session *session) {
  if (session->socket >= 0) close(session->socket);
  session->socket = -1;
}

/* A socket that got the port that it calls is connected to itself. */
static inline int tc_is_connected_to_itself(int socket, const struct sockaddr_in *there) {
  struct sockaddr_in here;
  socklen_t size = sizeof here;
  memset(&here, 0, sizeof here);
  return !getsockname(socket, (struct sockaddr *)&here, &size) &&
         here.sin_port == there->sin_port && here.sin_addr.s_addr == there->sin_addr.s_addr;
}

/* Connects, as the next agent of the server's configuration, with a buffer that has room for the
 * longest reply. The address is one of numbers, as "127.0.0.1". */
static inline int tc_connect(tc_session *session, const char *address, uint16_t port,
                             char *buffer, size_t size) {
  struct sockaddr_in there;
  int one = 1;
  memset(&there, 0, sizeof there);
  memset(session, 0, sizeof *session);
  session->socket = -1;
  session->buffer = buffer;
  session->size = size;
  there.sin_family = AF_INET;
  there.sin_port = htons(port);
  if (inet_pton(AF_INET, address, &there.sin_addr) != 1) return TC_BAD_TEXT;
  session->socket = socket(AF_INET, SOCK_STREAM, 0);
  if (session->socket < 0) return TC_SYSTEM;
  int failed = connect(session->socket, (struct sockaddr *)&there, sizeof there);
  if (!failed && tc_is_connected_to_itself(session->socket, &there)) {
    failed = 1;
    errno = ECONNREFUSED;
  }
  if (failed) {
    int why = errno;
    tc_close(session);
    errno = why;
    return TC_SYSTEM;
  }
  setsockopt(session->socket, IPPROTO_TCP, TCP_NODELAY, &one, sizeof one);
  return TC_OK;
}

static inline int tc_link_error(void) {
  return errno == EPIPE || errno == ECONNRESET ? TC_ENDED : TC_SYSTEM;
}

/* Drops so many bytes of the parts that are left to be sent. */
static inline void tc_drop_sent(struct msghdr *message, size_t sent) {
  while (message->msg_iovlen > 0 && sent >= message->msg_iov->iov_len) {
    sent -= message->msg_iov->iov_len;
    message->msg_iov++;
    message->msg_iovlen--;
  }
  if (message->msg_iovlen == 0) return;
  message->msg_iov->iov_base = (char *)message->msg_iov->iov_base + sent;
  message->msg_iov->iov_len -= sent;
}

/* Sends all parts, in one piece. */
static inline int tc_send_parts(tc_session *session, struct iovec *parts, int count) {
  struct msghdr message;
  memset(&message, 0, sizeof message);
  message.msg_iov = parts;
  message.msg_iovlen = (size_t)count;
  while (message.msg_iovlen > 0) {
    ssize_t sent = sendmsg(session->socket, &message, MSG_NOSIGNAL);
    if (sent < 0 && errno != EINTR) return tc_link_error();
    if (sent >= 0) tc_drop_sent(&message, (size_t)sent);
  }
  return TC_OK;
}

static inline struct iovec tc_part(const char *bytes, size_t length) {
  struct iovec part = {(void *)(uintptr_t)bytes, length};
  return part;
}

/* Sends bytes as they stand: one line or several, each with its LF. Read the replies before 16 KB
 * of several lines are sent: the server reads no more while nobody reads what it replies. */
static inline int tc_send(tc_session *session, const char *bytes, size_t length) {
  struct iovec part = tc_part(bytes, length);
  return tc_send_parts(session, &part, 1);
}

/* Sends a line, without its LF here. */
static inline int tc_send_line(tc_session *session, const char *line) {
  struct iovec parts[] = {tc_part(line, strlen(line)), tc_part("\n", 1)};
  return strchr(line, '\n') ? TC_BAD_TEXT : tc_send_parts(session, parts, 2);
}

/* Reads more bytes behind those that are held. */
static inline int tc_receive_bytes(tc_session *session) {
  if (session->used > 0) {
    session->held -= session->used;
    session->looked -= session->used;
    memmove(session->buffer, session->buffer + session->used, session->held);
    session->used = 0;
  }
  if (session->held == session->size) return TC_NO_ROOM;
  for (;;) {
    ssize_t got = recv(session->socket, session->buffer + session->held,
                       session->size - session->held, 0);
    if (got > 0) session->held += (size_t)got;
    if (got > 0) return TC_OK;
    if (got == 0) return TC_ENDED;
    if (errno != EINTR) return tc_link_error();
  }
}

/* Reads a line, handed out without its LF. */
static inline int tc_read_line(tc_session *session, tc_text *line) {
  for (;;) {
    char *from = session->buffer + session->looked;
    char *end = (char *)memchr(from, '\n', session->held - session->looked);
    if (end) {
      line->bytes = session->buffer + session->used;
      line->length = (size_t)(end - line->bytes);
      session->used = session->looked = (size_t)(end - session->buffer) + 1;
      return TC_OK;
    }
    session->looked = session->held;
    int error = tc_receive_bytes(session);
    if (error) return error;
  }
}

/* Whether the text begins with these words; they are dropped then. */
static inline int tc_drop_front(tc_text *text, const char *words) {
  size_t length = strlen(words);
  if (text->length < length || memcmp(text->bytes, words, length)) return 0;
  text->bytes += length;
  text->length -= length;
  return 1;
}

/* What a line of the server replies. */
static inline int tc_read_reply(tc_text line, tc_reply *reply) {
  static const struct {
    const char *words;
    tc_reply_kind kind;
    int has_text;
  } table[] = {{"done", TC_DONE, 0},     {"none", TC_NONE, 0},    {"pending", TC_PENDING, 0},
               {"absent", TC_ABSENT, 0}, {"bye", TC_BYE, 0},      {"tuple ", TC_TUPLE, 1},
               {"found ", TC_FOUND, 1},  {"spec ", TC_SPEC, 1},   {"over ", TC_OVER, 1},
               {"error ", TC_REFUSED, 1}};
  for (size_t i = 0; i < sizeof table / sizeof table[0]; i++) {
    reply->text = line;
    reply->kind = table[i].kind;
    if (tc_drop_front(&reply->text, table[i].words))
      return (reply->text.length > 0) == table[i].has_text ? TC_OK : TC_BAD_REPLY;
  }
  return TC_BAD_REPLY;
}

/* Reads the next reply. */
static inline int tc_receive(tc_session *session, tc_reply *reply) {
  tc_text line;
  int error = tc_read_line(session, &line);
  return error ? error : tc_read_reply(line, reply);
}

/* Where the server ends the session while we send, its last reply may say why. */
static inline int tc_receive_behind(tc_session *session, int sent, tc_reply *reply) {
  return sent && sent != TC_ENDED ? sent : tc_receive(session, reply);
}

/* Asks a line, without its LF here. */
static inline int tc_ask(tc_session *session, const char *line, tc_reply *reply) {
  return tc_receive_behind(session, tc_send_line(session, line), reply);
}

/* Asks `CENTRE ? OPERATION(OPERAND)`. */
static inline int tc_call(tc_session *session, const char *centre, const char *operation,
                          const char *operand, tc_reply *reply) {
  struct iovec parts[] = {tc_part(centre, strlen(centre)),       tc_part(" ? ", 3),
                          tc_part(operation, strlen(operation)), tc_part("(", 1),
                          tc_part(operand, strlen(operand)),     tc_part(")\n", 2)};
  if (strchr(centre, '\n') || strchr(operand, '\n')) return TC_BAD_TEXT;
  return tc_receive_behind(session, tc_send_parts(session, parts, 6), reply);
}

static inline int tc_out(tc_session *session, const char *centre, const char *tuple,
                         tc_reply *reply) {
  return tc_call(session, centre, "out", tuple, reply);
}

static inline int tc_inp(tc_session *session, const char *centre, const char *pattern,
                         tc_reply *reply) {
  return tc_call(session, centre, "inp", pattern, reply);
}

static inline int tc_rdp(tc_session *session, const char *centre, const char *pattern,
                         tc_reply *reply) {
  return tc_call(session, centre, "rdp", pattern, reply);
}

/* Whether no tuple matches: TC_ABSENT, or TC_FOUND with the oldest that does. */
static inline int tc_nop(tc_session *session, const char *centre, const char *pattern,
                         tc_reply *reply) {
  return tc_call(session, centre, "nop", pattern, reply);
}

/* Takes or reads a tuple; TC_PENDING where there is none yet. No other call is served then before
 * tc_poll or tc_wait has told it. */
static inline int tc_in_no_wait(tc_session *session, const char *centre, const char *pattern,
                                tc_reply *reply) {
  return tc_call(session, centre, "in", pattern, reply);
}

static inline int tc_rd_no_wait(tc_session *session, const char *centre, const char *pattern,
                                tc_reply *reply) {
  return tc_call(session, centre, "rd", pattern, reply);
}

/* That no tuple matches; TC_PENDING while one does, as with tc_in_no_wait. */
static inline int tc_no_no_wait(tc_session *session, const char *centre, const char *pattern,
                                tc_reply *reply) {
  return tc_call(session, centre, "no", pattern, reply);
}

/* Whether the call that is pending has its reply. */
static inline int tc_poll(tc_session *session, tc_reply *reply) {
  return tc_ask(session, "poll", reply);
}

/* The reply of the call that is pending, when it comes. */
static inline int tc_wait(tc_session *session, tc_reply *reply) {
  return tc_ask(session, "wait", reply);
}

/* Takes a tuple, and waits for one. */
static inline int tc_in(tc_session *session, const char *centre, const char *pattern,
                        tc_reply *reply) {
  int error = tc_in_no_wait(session, centre, pattern, reply);
  return !error && reply->kind == TC_PENDING ? tc_wait(session, reply) : error;
}

/* Reads a tuple, and waits for one. */
static inline int tc_rd(tc_session *session, const char *centre, const char *pattern,
                        tc_reply *reply) {
  int error = tc_rd_no_wait(session, centre, pattern, reply);
  return !error && reply->kind == TC_PENDING ? tc_wait(session, reply) : error;
}

/* Waits until no tuple matches. */
static inline int tc_no(tc_session *session, const char *centre, const char *pattern,
                        tc_reply *reply) {
  int error = tc_no_no_wait(session, centre, pattern, reply);
  return !error && reply->kind == TC_PENDING ? tc_wait(session, reply) : error;
}

/* Replaces the reactions of a centre. The text stands in quotes, as tc_write_quoted writes it. */
static inline int tc_set_spec(tc_session *session, const char *centre, const char *quoted,
                              tc_reply *reply) {
  return tc_call(session, centre, "set_spec", quoted, reply);
}

/* The reactions of a centre. Read the reply's text as a term, and copy its name. */
static inline int tc_get_spec(tc_session *session, const char *centre, tc_reply *reply) {
  struct iovec parts[] = {tc_part(centre, strlen(centre)), tc_part(" ? get_spec\n", 12)};
  if (strchr(centre, '\n')) return TC_BAD_TEXT;
  return tc_receive_behind(session, tc_send_parts(session, parts, 2), reply);
}

/* Ends the session, and closes the connection. */
static inline int tc_quit(tc_session *session, tc_reply *reply) {
  int error = tc_ask(session, "quit", reply);
  tc_close(session);
  return error;
}

#ifdef __cplusplus
}
#endif
#endif
