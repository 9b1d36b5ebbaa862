/* Tests of heapdbg.h: `test_heapdbg PORT`, over a heap that was just served with 16 regions, 2 mutators, --keep 64, --questions 1
   and three sessions. `test_heapdbg PORT wide`, of a build with lines of 32,768 bytes: over a wide heap of one session.

   Prints a line for each thing that is otherwise than it must be, and ends with status 1 then. */
#include <stdlib.h>

#include "heapdbg.h"

#define NODE 0x10000000u
#define MANY 100000u

static int faults = 0;

/* Looks whether something holds. */
static void must(int holds, const char *what, int line)
{
    if (!holds) {
        printf("test_heapdbg.c:%d: not so: %s\n", line, what);
        faults++;
    }
}

#define MUST(what) must(what, #what, __LINE__)

/* Returns whether a reply is of this kind and has this value. */
static int is(heapdbg_reply reply, enum heapdbg_kind kind, uint64_t value)
{
    return reply.kind == kind && reply.value == value;
}

/* Classes, objects, slots and registers, in one batch. */
static void mutators(heapdbg *session)
{
    heapdbg_reply replies[18];
    MUST(heapdbg_class(session, "Node", -1, "next:object v:long", &replies[0]) == 0);
    MUST(replies[0].kind == HEAPDBG_WAITING);
    heapdbg_class(session, "Pair", 0, "size:int", &replies[1]);
    heapdbg_array(session, "[Node;", &replies[2]);
    heapdbg_new(session, 0, 0, 0, &replies[3]);
    heapdbg_newarray(session, 0, 1, 2, 5, &replies[4]);
    heapdbg_newprim(session, 0, 2, "int", 3, &replies[5]);
    heapdbg_store(session, 0, 1, 4, 0, &replies[6]);
    heapdbg_put(session, 0, 0, 1, UINT64_MAX, &replies[7]);
    heapdbg_load(session, 0, 3, 0, 1, &replies[8]);
    heapdbg_load(session, 0, 3, 0, 0, &replies[9]);
    heapdbg_load(session, 0, 3, 1, 4, &replies[10]);
    heapdbg_move(session, 1, 7, 0, 3, &replies[11]);
    heapdbg_clear(session, 0, 3, &replies[12]);
    heapdbg_new(session, 0, 3, 0, &replies[13]);
    heapdbg_clear(session, 0, 3, &replies[14]);
    heapdbg_open(session, &replies[15]);
    heapdbg_line(session, "registers -", &replies[16]);
    heapdbg_close(session, 1, &replies[17]);
    MUST(heapdbg_flush(session) == 0);
    MUST(is(replies[0], HEAPDBG_CLASS, 0) && is(replies[1], HEAPDBG_CLASS, 1) && is(replies[2], HEAPDBG_CLASS, 2));
    MUST(is(replies[3], HEAPDBG_OBJECT, NODE) && is(replies[4], HEAPDBG_OBJECT, 0x10002000u));
    MUST(is(replies[5], HEAPDBG_OBJECT, NODE + 32));
    MUST(is(replies[6], HEAPDBG_OK, 0) && is(replies[7], HEAPDBG_OK, 0) && is(replies[8], HEAPDBG_VALUE, UINT64_MAX));
    MUST(is(replies[9], HEAPDBG_NULL, 0) && is(replies[10], HEAPDBG_OBJECT, NODE) && is(replies[11], HEAPDBG_OK, 0));
    MUST(is(replies[12], HEAPDBG_OK, 0) && is(replies[13], HEAPDBG_OBJECT, NODE + 64) && is(replies[14], HEAPDBG_OK, 0));
    MUST(is(replies[15], HEAPDBG_PIN, 1) && replies[15].facts[0] == 15);
    MUST(replies[16].kind == HEAPDBG_OK && is(replies[17], HEAPDBG_OK, 0));
}

/* A whole cycle, and a rewind. */
static void cycle(heapdbg *session)
{
    heapdbg_reply replies[12];
    size_t at = 0;
    heapdbg_snap(session, &replies[at++]);
    heapdbg_finish(session, &replies[at++]);
    heapdbg_mark(session, &replies[at++]);
    heapdbg_mark(session, &replies[at++]);
    heapdbg_mark(session, &replies[at++]);
    heapdbg_store(session, 0, 1, 4, 4, NULL);
    heapdbg_drain(session, &replies[at++]);
    heapdbg_finish(session, &replies[at++]);
    heapdbg_sweep(session, 0, &replies[at++]);
    heapdbg_sweep(session, 1, &replies[at++]);
    heapdbg_sweep(session, 1, &replies[at++]);
    heapdbg_rewind(session, 3, &replies[at++]);
    heapdbg_rewind(session, 65, &replies[at++]);
    MUST(heapdbg_flush(session) == 3);
    MUST(is(replies[0], HEAPDBG_PUSHED, 3));
    MUST(is(replies[1], HEAPDBG_REFUSED, 18) && strcmp(replies[1].name, "NotDone") == 0);
    MUST(replies[1].facts[0] == 3 && replies[1].facts[1] == 0 && replies[1].cause[0] == 0);
    MUST(is(replies[2], HEAPDBG_PUSHED, 0) && is(replies[3], HEAPDBG_PUSHED, 0) && is(replies[4], HEAPDBG_PUSHED, 0));
    MUST(is(replies[5], HEAPDBG_PUSHED, 0) && is(replies[6], HEAPDBG_CONDEMNED, 1));
    MUST(is(replies[7], HEAPDBG_SWEPT, 1) && replies[7].facts[0] == 0 && is(replies[8], HEAPDBG_SWEPT, 0));
    MUST(is(replies[9], HEAPDBG_REFUSED, 20) && replies[9].facts[0] == 1);
    MUST(is(replies[10], HEAPDBG_PLACE, 21) && is(replies[11], HEAPDBG_REFUSED, 21) && replies[11].facts[0] == 65);
    MUST(strcmp(session->fault_line, "finish") == 0 && is(session->fault, HEAPDBG_REFUSED, 18));
}

/* Lines that are refused, aren't known or can't be sent, and pins that are lost. */
static void refusals(heapdbg *session)
{
    char line[HEAPDBG_LINE_BYTES + 2];
    heapdbg_reply lost, bad;
    memset(line, 'x', sizeof line);
    line[sizeof line - 1] = 0;
    errno = 0;
    MUST(heapdbg_line(session, "clear 0 0\nclear 0 1", NULL) == -1 && errno == EINVAL);
    MUST(heapdbg_line(session, "", NULL) == -1 && heapdbg_line(session, " # a", NULL) == -1);
    MUST(heapdbg_line(session, " end ", NULL) == -1 && errno == EINVAL);
    MUST(heapdbg_array(session, "\xe4", NULL) == -1 && errno == EINVAL);
    MUST(heapdbg_line(session, line, NULL) == -1 && errno == EMSGSIZE);
    MUST(heapdbg_array(session, line, NULL) == -1 && errno == EMSGSIZE);
    MUST(heapdbg_flush(session) == 0);
    heapdbg_clear(session, 0, 3, NULL);
    heapdbg_open(session, NULL);
    heapdbg_rewind(session, 1, NULL);
    heapdbg_line(session, "dump 2", &lost);
    heapdbg_close(session, 2, NULL);
    heapdbg_line(session, "what is this", &bad);
    MUST(heapdbg_flush(session) == 2);
    MUST(is(lost, HEAPDBG_REFUSED, 23) && strcmp(lost.name, "Lost") == 0 && strcmp(lost.cause, "Rewound") == 0);
    MUST(bad.kind == HEAPDBG_BAD && strcmp(session->fault_line, "dump 2") == 0);
    MUST(heapdbg_flush(session) == 0);
}

/* More lines than a batch has, and an error among them. */
static void many(heapdbg *session)
{
    heapdbg_reply last;
    uint64_t value;
    for (value = 0; value < MANY; value++)
        MUST(heapdbg_put(session, 0, 0, value == MANY / 2 ? 5 : 1, value, NULL) == 0);
    heapdbg_load(session, 0, 4, 0, 1, &last);
    MUST(heapdbg_flush(session) == 1);
    MUST(is(last, HEAPDBG_VALUE, MANY - 1) && is(session->fault, HEAPDBG_REFUSED, 9));
    MUST(strcmp(session->fault_line, "put 0 0 5 50000") == 0);
}

/* How sessions end. */
static void endings(unsigned port)
{
    heapdbg one, two;
    heapdbg_reply first, late;
    MUST(heapdbg_connect(&one, port) == 0 && heapdbg_connect(&two, port) == 0);
    heapdbg_load(&one, 0, 4, 0, 1, &first);
    MUST(heapdbg_end(&one) == 0 && is(first, HEAPDBG_VALUE, MANY - 1));
    MUST(heapdbg_clear(&one, 0, 0, &late) == -1 && errno == EPIPE && late.kind == HEAPDBG_WAITING);
    MUST(heapdbg_flush(&one) == -1 && heapdbg_end(&one) == -1);
    /* A session whose other side goes. */
    MUST(shutdown(two.socket, SHUT_WR) == 0);
    MUST(heapdbg_clear(&two, 0, 0, &late) == 0 && heapdbg_flush(&two) == -1 && errno == EPIPE && late.kind == HEAPDBG_ENDED);
    MUST(heapdbg_clear(&two, 0, 0, NULL) == -1 && heapdbg_end(&two) == -1);
}

/* Returns a socket that is bound to a free port, and the port. */
static int bound(unsigned *port)
{
    struct sockaddr_in address;
    socklen_t size = sizeof address;
    int found = socket(AF_INET, SOCK_STREAM, 0);
    memset(&address, 0, sizeof address);
    address.sin_family = AF_INET;
    address.sin_addr.s_addr = htonl(INADDR_LOOPBACK);
    MUST(bind(found, (struct sockaddr *)&address, size) == 0);
    MUST(getsockname(found, (struct sockaddr *)&address, &size) == 0);
    *port = ntohs(address.sin_port);
    return found;
}

/* A port on which nobody listens. */
static void nobody(heapdbg *session)
{
    unsigned port;
    int other = bound(&port);
    MUST(heapdbg_connect(session, port) == -1 && errno == ECONNREFUSED);
    MUST(heapdbg_clear(session, 0, 0, NULL) == -1 && errno == EPIPE && heapdbg_end(session) == -1);
    close(other);
}

/* The word that a client sends first, and a session that is cut off in a reply. */
static void secrets(heapdbg *session)
{
    static const char word[] = "0123456789abcdefABCD", sent[] = "0123456789abcdefABCD\nsnap\n";
    char came[sizeof sent] = "";
    heapdbg_reply reply;
    unsigned port;
    int other = bound(&port), client;
    MUST(listen(other, 1) == 0 && heapdbg_connect_with(session, port, word) == 0);
    client = accept(other, NULL, NULL);
    MUST(send(client, "row a\nok pus", 12, 0) == 12 && shutdown(client, SHUT_WR) == 0);
    MUST(heapdbg_snap(session, &reply) == 0 && heapdbg_flush(session) == -1 && reply.kind == HEAPDBG_ENDED);
    MUST(recv(client, came, sizeof came - 1, MSG_WAITALL) == sizeof came - 1 && strcmp(came, sent) == 0);
    MUST(heapdbg_end(session) == -1 && session->refused == 1);
    MUST(heapdbg_connect_with(session, port, "0123456789012345678901234567890123456789012345678901234567890123x") == -1);
    MUST(errno == EINVAL && heapdbg_end(session) == -1);
    close(client);
    close(other);
}

/* The longest line of a wide heap, between others, and a line that is too long. */
static void wide(heapdbg *session)
{
    char fields[HEAPDBG_LINE_BYTES + 1] = "", line[HEAPDBG_LINE_BYTES + 2];
    heapdbg_reply first, longest, last;
    size_t size = strlen("class Wide - "), end = 0;
    unsigned field;
    for (field = 0; field < 64; field++)
        end += (size_t)snprintf(fields + end, sizeof fields - end, "%sf%0200u:int", field > 0 ? " " : "", field);
    memset(line, ' ', HEAPDBG_LINE_BYTES);
    memcpy(line, "class Wide - ", size);
    memcpy(line + size, fields, end);
    line[HEAPDBG_LINE_BYTES] = 0;
    heapdbg_array(session, "[First;", &first);
    MUST(heapdbg_class(session, "Fields", -1, fields, NULL) == 0 && heapdbg_line(session, line, &longest) == 0);
    heapdbg_array(session, "[Last;", &last);
    line[HEAPDBG_LINE_BYTES] = ' ';
    line[HEAPDBG_LINE_BYTES + 1] = 0;
    MUST(heapdbg_line(session, line, NULL) == -1 && errno == EMSGSIZE);
    MUST(heapdbg_end(session) == 0);
    MUST(is(first, HEAPDBG_CLASS, 0) && is(longest, HEAPDBG_CLASS, 2) && is(last, HEAPDBG_CLASS, 3));
}

int main(int count, char **words)
{
    heapdbg session;
    unsigned port = count >= 2 ? (unsigned)strtoul(words[1], NULL, 10) : 0;
    nobody(&session);
    secrets(&session);
    if (heapdbg_connect(&session, port) != 0) {
        perror("test_heapdbg");
        return 1;
    }
    if (count == 3) {
        wide(&session);
        return faults != 0;
    }
    mutators(&session);
    cycle(&session);
    refusals(&session);
    many(&session);
    MUST(heapdbg_end(&session) == 0);
    endings(port);
    return faults != 0;
}
