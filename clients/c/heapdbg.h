/* A client of `heapdbg serve` in one file of C99: include it where it is used. It needs sockets as POSIX has them, has no global
   state, and allocates nothing.

   A call adds a line to a batch and returns at once. The batch is sent, and its replies are read, once it is full, and by
   heapdbg_flush. Who wants a reply passes a heapdbg_reply, which has to stay where it is until then; its kind is HEAPDBG_WAITING
   as long as it hasn't come. All calls return 0, or -1 with errno set: EPIPE if the session has ended, EINVAL if a text isn't
   one line with a reply (then nothing was added), EMSGSIZE if a line has more than HEAPDBG_LINE_BYTES bytes (then nothing was
   added, either), or what a socket said.

   A heap takes lines of 4,096 bytes. For a wide heap, which takes lines of 32,768, define HEAPDBG_LINE_BYTES as 32768 before you
   include this file, in each file that does. */
#ifndef HEAPDBG_H
#define HEAPDBG_H

#include <arpa/inet.h>
#include <errno.h>
#include <inttypes.h>
#include <netinet/in.h>
#include <netinet/tcp.h>
#include <stdarg.h>
#include <stdint.h>
#include <stdio.h>
#include <string.h>
#include <sys/socket.h>
#include <unistd.h>

#ifndef MSG_NOSIGNAL
#define MSG_NOSIGNAL 0
#endif

/* The bytes and the lines of a batch, the bytes of a line, and how much of a reply's line is looked at. A batch fits into any
   socket, so that neither side waits for the other for ever; a line that is longer than a batch is a batch of its own. */
#define HEAPDBG_BATCH_BYTES 16384
#define HEAPDBG_BATCH_LINES 1024
#ifndef HEAPDBG_LINE_BYTES
#define HEAPDBG_LINE_BYTES 4096
#endif
#define HEAPDBG_REPLY_BYTES 256

/* What a reply says. */
enum heapdbg_kind {
    HEAPDBG_WAITING,   /* nothing yet */
    HEAPDBG_OK,        /* `ok`, or `ok` and words that aren't below */
    HEAPDBG_CLASS,     /* value: the number of a class */
    HEAPDBG_OBJECT,    /* value: the id of an object */
    HEAPDBG_NULL,      /* null was loaded */
    HEAPDBG_VALUE,     /* value: what was loaded */
    HEAPDBG_PUSHED,    /* value: how many objects were marked */
    HEAPDBG_CONDEMNED, /* value: how many objects aren't live */
    HEAPDBG_SWEPT,     /* value: how many objects were removed; facts[0]: 1 if the region is empty now, else 0 */
    HEAPDBG_PLACE,     /* value: a place */
    HEAPDBG_PIN,       /* value: the number of a pin; facts[0]: its place */
    HEAPDBG_REFUSED,   /* value: the refusal's number; name; facts as SESSIONS.md names them, or cause */
    HEAPDBG_BAD,       /* the line is no command */
    HEAPDBG_ENDED      /* the session ended before; name: its word, if it said one */
};

/* The reply to a line. */
typedef struct heapdbg_reply {
    enum heapdbg_kind kind;
    uint64_t value;
    uint64_t facts[2];
    char name[24];
    char cause[24];
} heapdbg_reply;

/* A session. */
typedef struct heapdbg {
    int socket;
    int over;
    char lines[HEAPDBG_BATCH_BYTES + HEAPDBG_LINE_BYTES + 1];
    size_t size;
    size_t begins[HEAPDBG_BATCH_LINES];
    heapdbg_reply *replies[HEAPDBG_BATCH_LINES];
    size_t count;
    char came[HEAPDBG_BATCH_BYTES];
    size_t next, end;
    long refused;
    heapdbg_reply fault;
    char fault_line[HEAPDBG_LINE_BYTES + 1];
} heapdbg;

/* ---- the connection ---- */

/* Connects to a port of 127.0.0.1. */
static inline int heapdbg_connect(heapdbg *session, unsigned port)
{
    struct sockaddr_in address;
    int yes = 1;
    memset(session, 0, sizeof *session);
    memset(&address, 0, sizeof address);
    address.sin_family = AF_INET;
    address.sin_port = htons((uint16_t)port);
    address.sin_addr.s_addr = htonl(INADDR_LOOPBACK);
    session->socket = socket(AF_INET, SOCK_STREAM, 0);
    session->over = session->socket < 0;
    if (session->over)
        return -1;
    if (connect(session->socket, (struct sockaddr *)&address, sizeof address) != 0) {
        int reason = errno;
        close(session->socket);
        session->socket = -1;
        session->over = 1;
        errno = reason;
        return -1;
    }
    (void)setsockopt(session->socket, IPPROTO_TCP, TCP_NODELAY, &yes, sizeof yes);
    return 0;
}

/* Sends bytes, all of them. */
static inline int heapdbg_send(heapdbg *session, const char *bytes, size_t size)
{
    while (size > 0) {
        ssize_t sent = send(session->socket, bytes, size, MSG_NOSIGNAL);
        if (sent < 0 && errno == EINTR)
            continue;
        if (sent <= 0)
            return -1;
        bytes += sent;
        size -= (size_t)sent;
    }
    return 0;
}

/* Connects to a heap that was served with `--secret`. `word` is what its file holds: 16 to 64 letters and digits. */
static inline int heapdbg_connect_with(heapdbg *session, unsigned port, const char *word)
{
    char line[66];
    size_t size = strlen(word);
    if (size + 2 > sizeof line) {
        memset(session, 0, sizeof *session);
        session->socket = -1;
        session->over = 1;
        errno = EINVAL;
        return -1;
    }
    if (heapdbg_connect(session, port) != 0)
        return -1;
    (void)snprintf(line, sizeof line, "%s\n", word);
    return heapdbg_send(session, line, size + 1);
}

/* Returns the next byte that comes, or -1. */
static inline int heapdbg_byte(heapdbg *session)
{
    while (session->next == session->end) {
        ssize_t size = recv(session->socket, session->came, sizeof session->came, 0);
        if (size < 0 && errno == EINTR)
            continue;
        if (size <= 0)
            return -1;
        session->next = 0;
        session->end = (size_t)size;
    }
    return (unsigned char)session->came[session->next++];
}

/* Reads a line, of which `line` keeps the first bytes. */
static inline int heapdbg_read_line(heapdbg *session, char line[HEAPDBG_REPLY_BYTES])
{
    size_t size = 0;
    int byte;
    while ((byte = heapdbg_byte(session)) != '\n') {
        if (byte < 0)
            return -1;
        if (size < HEAPDBG_REPLY_BYTES - 1)
            line[size++] = (char)byte;
    }
    line[size] = 0;
    return 0;
}

/* ---- replies ---- */

/* Returns what a line that begins with `ok` says. */
static inline heapdbg_reply heapdbg_accepted(const char *line)
{
    static const struct {
        const char *form;
        enum heapdbg_kind kind;
    } forms[] = {
        {"ok class %" SCNu64, HEAPDBG_CLASS},         {"ok object %" SCNx64, HEAPDBG_OBJECT},
        {"ok value %" SCNu64, HEAPDBG_VALUE},         {"ok pushed %" SCNu64, HEAPDBG_PUSHED},
        {"ok condemned %" SCNu64, HEAPDBG_CONDEMNED}, {"ok swept %" SCNu64, HEAPDBG_SWEPT},
        {"ok place %" SCNu64, HEAPDBG_PLACE},         {"ok pin %" SCNu64 " at %" SCNu64, HEAPDBG_PIN},
    };
    heapdbg_reply reply;
    size_t at;
    memset(&reply, 0, sizeof reply);
    reply.kind = strcmp(line, "ok null") == 0 ? HEAPDBG_NULL : HEAPDBG_OK;
    for (at = 0; line[2] == ' ' && at < sizeof forms / sizeof *forms; at++) {
        if (sscanf(line, forms[at].form, &reply.value, &reply.facts[0]) >= 1) {
            reply.kind = forms[at].kind;
            break;
        }
    }
    if (reply.kind == HEAPDBG_SWEPT)
        reply.facts[0] = strstr(line, " empty") != NULL;
    return reply;
}

/* Returns what the last line of a reply says. */
static inline heapdbg_reply heapdbg_read(const char *line)
{
    heapdbg_reply reply;
    if (strncmp(line, "ok", 2) == 0)
        return heapdbg_accepted(line);
    memset(&reply, 0, sizeof reply);
    reply.kind = HEAPDBG_ENDED;
    if (strcmp(line, "bad command") == 0) {
        reply.kind = HEAPDBG_BAD;
    } else if (sscanf(line, "no %" SCNu64 " %23s %" SCNu64 " %" SCNu64, &reply.value, reply.name, &reply.facts[0],
                      &reply.facts[1]) >= 2) {
        reply.kind = HEAPDBG_REFUSED;
        (void)sscanf(line, "no %*u %*s %23[A-Za-z]", reply.cause);
    } else {
        (void)sscanf(line, "bad %23s", reply.name);
    }
    return reply;
}

/* Reads the reply to a line, past its rows and data. */
static inline heapdbg_reply heapdbg_next_reply(heapdbg *session)
{
    char line[HEAPDBG_REPLY_BYTES];
    do {
        if (session->over || heapdbg_read_line(session, line) != 0)
            return heapdbg_read("");
    } while (strncmp(line, "row ", 4) == 0 || strncmp(line, "data ", 5) == 0);
    return heapdbg_read(line);
}

/* Notes a reply that isn't `ok`: the first one stays, with its line. */
static inline void heapdbg_note(heapdbg *session, size_t at, const heapdbg_reply *reply)
{
    size_t begin = session->begins[at];
    size_t end = (at + 1 < session->count ? session->begins[at + 1] : session->size) - 1;
    if (session->refused++ == 0) {
        session->fault = *reply;
        memcpy(session->fault_line, session->lines + begin, end - begin);
        session->fault_line[end - begin] = 0;
    }
}

/* Sends the batch, and reads its replies. */
static inline int heapdbg_exchange(heapdbg *session)
{
    size_t at;
    /* What can't be sent has no reply, and reading tells so. */
    if (!session->over)
        (void)heapdbg_send(session, session->lines, session->size);
    for (at = 0; at < session->count; at++) {
        heapdbg_reply reply = heapdbg_next_reply(session);
        if (reply.kind == HEAPDBG_ENDED)
            session->over = 1;
        if (reply.kind >= HEAPDBG_REFUSED)
            heapdbg_note(session, at, &reply);
        if (session->replies[at] != NULL)
            *session->replies[at] = reply;
    }
    session->count = 0;
    session->size = 0;
    if (session->over)
        errno = EPIPE;
    return session->over ? -1 : 0;
}

/* Sends what waits, and reads its replies. Returns how many lines weren't answered `ok` since this was called last, or -1 if the
   session has ended. Of the first of these `fault_line` is the text, and `fault` the reply. */
static inline long heapdbg_flush(heapdbg *session)
{
    long refused;
    if (heapdbg_exchange(session) != 0)
        return -1;
    refused = session->refused;
    session->refused = 0;
    return refused;
}

/* Sends what waits, ends the session, and closes the connection. Returns what heapdbg_flush returns. */
static inline long heapdbg_end(heapdbg *session)
{
    char line[HEAPDBG_REPLY_BYTES];
    long refused = heapdbg_flush(session);
    if (session->socket >= 0) {
        if (!session->over && heapdbg_send(session, "end\n", 4) == 0)
            while (heapdbg_read_line(session, line) == 0)
                continue;
        close(session->socket);
    }
    session->socket = -1;
    session->over = 1;
    return refused;
}

/* ---- lines ---- */

/* Returns whether a text is one line that has a reply. */
static inline int heapdbg_is_line(const char *text)
{
    const char *first = text + strspn(text, " ");
    const char *each;
    for (each = text; *each != 0; each++)
        if (*each < ' ' || *each > '~')
            return 0;
    if (strncmp(first, "end", 3) == 0 && first[3 + strspn(first + 3, " ")] == 0)
        return 0;
    return *first != 0 && *first != '#';
}

/* Adds any line that has a reply, such as `collect`. Its rows aren't kept. */
static inline int heapdbg_line(heapdbg *session, const char *line, heapdbg_reply *reply)
{
    size_t size = strlen(line);
    if (reply != NULL)
        memset(reply, 0, sizeof *reply);
    if (!heapdbg_is_line(line) || size > HEAPDBG_LINE_BYTES) {
        errno = size > HEAPDBG_LINE_BYTES ? EMSGSIZE : EINVAL;
        return -1;
    }
    if (session->count == HEAPDBG_BATCH_LINES || (session->count > 0 && session->size + size + 1 > HEAPDBG_BATCH_BYTES))
        (void)heapdbg_exchange(session);
    if (session->over) {
        errno = EPIPE;
        return -1;
    }
    session->begins[session->count] = session->size;
    session->replies[session->count++] = reply;
    memcpy(session->lines + session->size, line, size);
    session->size += size;
    session->lines[session->size++] = '\n';
    return 0;
}

/* Adds a line that is written as by printf. */
static inline int heapdbg_say(heapdbg *session, heapdbg_reply *reply, const char *form, ...)
{
    char line[HEAPDBG_LINE_BYTES + 2];
    va_list words;
    va_start(words, form);
    (void)vsnprintf(line, sizeof line, form, words);
    va_end(words);
    return heapdbg_line(session, line, reply);
}

/* ---- the fifteen events ---- */

/* Defines a class. `super` is the number of a class, or -1; `fields` are as in `next:object v:long`, or "". */
static inline int heapdbg_class(heapdbg *session, const char *name, long super, const char *fields, heapdbg_reply *reply)
{
    if (super < 0)
        return heapdbg_say(session, reply, "class %s - %s", name, fields);
    return heapdbg_say(session, reply, "class %s %ld %s", name, super, fields);
}

/* Defines a class of object arrays. */
static inline int heapdbg_array(heapdbg *session, const char *name, heapdbg_reply *reply)
{
    return heapdbg_say(session, reply, "array %s", name);
}

/* Makes an instance in register `r` of mutator `m`. */
static inline int heapdbg_new(heapdbg *session, unsigned m, unsigned r, uint64_t class_number, heapdbg_reply *reply)
{
    return heapdbg_say(session, reply, "new %u %u %" PRIu64, m, r, class_number);
}

/* Makes an object array, its elements null. */
static inline int heapdbg_newarray(heapdbg *session, unsigned m, unsigned r, uint64_t class_number, unsigned length,
                                   heapdbg_reply *reply)
{
    return heapdbg_say(session, reply, "newarray %u %u %" PRIu64 " %u", m, r, class_number, length);
}

/* Makes an array of values of a kind, such as `byte`, its elements 0. */
static inline int heapdbg_newprim(heapdbg *session, unsigned m, unsigned r, const char *kind, unsigned length,
                                  heapdbg_reply *reply)
{
    return heapdbg_say(session, reply, "newprim %u %u %s %u", m, r, kind, length);
}

/* Reads a slot of the object in register `from`: a reference goes to register `to`. */
static inline int heapdbg_load(heapdbg *session, unsigned m, unsigned to, unsigned from, unsigned slot, heapdbg_reply *reply)
{
    return heapdbg_say(session, reply, "load %u %u %u %u", m, to, from, slot);
}

/* Writes what register `source` names to a reference slot of the object in register `target`. */
static inline int heapdbg_store(heapdbg *session, unsigned m, unsigned target, unsigned slot, unsigned source,
                                heapdbg_reply *reply)
{
    return heapdbg_say(session, reply, "store %u %u %u %u", m, target, slot, source);
}

/* Writes a value slot of the object in register `target`. */
static inline int heapdbg_put(heapdbg *session, unsigned m, unsigned target, unsigned slot, uint64_t value, heapdbg_reply *reply)
{
    return heapdbg_say(session, reply, "put %u %u %u %" PRIu64, m, target, slot, value);
}

/* Copies register `from` of mutator `from_m` to register `to` of mutator `m`. */
static inline int heapdbg_move(heapdbg *session, unsigned m, unsigned to, unsigned from_m, unsigned from, heapdbg_reply *reply)
{
    return heapdbg_say(session, reply, "move %u %u %u %u", m, to, from_m, from);
}

/* Makes a register null. */
static inline int heapdbg_clear(heapdbg *session, unsigned m, unsigned r, heapdbg_reply *reply)
{
    return heapdbg_say(session, reply, "clear %u %u", m, r);
}

/* Begins a cycle. */
static inline int heapdbg_snap(heapdbg *session, heapdbg_reply *reply)
{
    return heapdbg_line(session, "snap", reply);
}

/* Looks at a gray object. */
static inline int heapdbg_mark(heapdbg *session, heapdbg_reply *reply)
{
    return heapdbg_line(session, "mark", reply);
}

/* Looks at an entry of the log. */
static inline int heapdbg_drain(heapdbg *session, heapdbg_reply *reply)
{
    return heapdbg_line(session, "drain", reply);
}

/* Ends the cycle. */
static inline int heapdbg_finish(heapdbg *session, heapdbg_reply *reply)
{
    return heapdbg_line(session, "finish", reply);
}

/* Removes a region's objects that aren't live. */
static inline int heapdbg_sweep(heapdbg *session, unsigned region, heapdbg_reply *reply)
{
    return heapdbg_say(session, reply, "sweep %u", region);
}

/* ---- the past ---- */

/* Undoes the last `count` retained steps. */
static inline int heapdbg_rewind(heapdbg *session, uint64_t count, heapdbg_reply *reply)
{
    return heapdbg_say(session, reply, "rewind %" PRIu64, count);
}

/* Opens a pin on the current state. */
static inline int heapdbg_open(heapdbg *session, heapdbg_reply *reply)
{
    return heapdbg_line(session, "open -", reply);
}

/* Closes a pin. */
static inline int heapdbg_close(heapdbg *session, uint64_t pin, heapdbg_reply *reply)
{
    return heapdbg_say(session, reply, "close %" PRIu64, pin);
}

#endif
