/* Uses every call of nt2.h and checks its answers: the listing of the build description, the same
 * messages as a delivery and as a line record, why messages are done, ignored or refused, a client's
 * copy that follows a server, saved tables, single messages, and the places of faults. Prints the
 * listing, and ends with 1 at the first answer that is not as expected.
 *
 * All that is lent is a heap block of its own, exactly as long as it is lent, so that valgrind sees
 * each access beyond it.
 */
#include "nt2.h"

#include <stdio.h>
#include <stdlib.h>
#include <string.h>

_Static_assert(NT2_TABLE_BYTES == NT2_ENTRIES * NT2_ENTRY_ROOM, "a table");
_Static_assert(NT2_LONGEST_SAVED == 20930, "the longest saved table");

_Static_assert(sizeof(nt2_head) == 8, "a head");
_Static_assert(offsetof(nt2_head, value_length) == 2, "a head's value length");
_Static_assert(offsetof(nt2_head, type_code) == 4, "a head's type");
_Static_assert(offsetof(nt2_head, number) == 6, "a head's number");

_Static_assert(sizeof(nt2_answer) == 32, "an answer");
_Static_assert(offsetof(nt2_answer, recipients) == 2, "an answer's recipients");
_Static_assert(offsetof(nt2_answer, taken) == 8, "an answer's bytes taken");
_Static_assert(offsetof(nt2_answer, sent) == 16, "an answer's bytes sent");
_Static_assert(offsetof(nt2_answer, place) == 24, "the place of an answer's fault");

_Static_assert(sizeof(nt2_delivered) == 40, "what came of a delivery");
_Static_assert(offsetof(nt2_delivered, ended) == 1, "how a delivery ended");
_Static_assert(offsetof(nt2_delivered, messages) == 8, "a delivery's messages");
_Static_assert(offsetof(nt2_delivered, taken) == 16, "a delivery's bytes taken");
_Static_assert(offsetof(nt2_delivered, written) == 24, "a delivery's bytes written");
_Static_assert(offsetof(nt2_delivered, place) == 32, "the place of a delivery's fault");

_Static_assert(sizeof(nt2_reason) == 16, "a reason");
_Static_assert(offsetof(nt2_reason, number) == 1, "a reason's number");
_Static_assert(offsetof(nt2_reason, id) == 2, "a reason's ID");
_Static_assert(offsetof(nt2_reason, distance) == 4, "a reason's distance");
_Static_assert(offsetof(nt2_reason, place) == 8, "a reason's place");

_Static_assert(sizeof(nt2_replayed) == 16, "what came of a line record");
_Static_assert(offsetof(nt2_replayed, records) == 8, "a line record's records");

_Static_assert(sizeof(nt2_scalar) == 16, "a scalar");
_Static_assert(offsetof(nt2_scalar, found) == 1, "what a scalar's value is");
_Static_assert(offsetof(nt2_scalar, flag) == 2, "a scalar's flag");
_Static_assert(offsetof(nt2_scalar, value) == 8, "a scalar's number");

_Static_assert(sizeof(nt2_copied) == 24, "a copy's answer");
_Static_assert(offsetof(nt2_copied, revision) == 2, "a copy's revision");
_Static_assert(offsetof(nt2_copied, taken) == 8, "a copy's bytes taken");
_Static_assert(offsetof(nt2_copied, place) == 16, "the place of a copy's fault");

_Static_assert(sizeof(nt2_fields) == 48, "fields");
_Static_assert(offsetof(nt2_fields, type_code) == 2, "the type");
_Static_assert(offsetof(nt2_fields, revision) == 4, "the revision");
_Static_assert(offsetof(nt2_fields, entry_number) == 8, "the entry's number");
_Static_assert(offsetof(nt2_fields, taken) == 16, "the message's length");
_Static_assert(offsetof(nt2_fields, value_length) == 32, "the value's length");
_Static_assert(offsetof(nt2_fields, place) == 40, "the place of a reader's fault");

#define CHECK(condition)                                                        \
    do {                                                                        \
        if (!(condition)) {                                                     \
            fprintf(stderr, "%s:%d: %s\n", __FILE__, __LINE__, #condition);     \
            exit(1);                                                            \
        }                                                                       \
    } while (0)

/* What an output holds before a call. */
enum { FILL = 0xA5 };

typedef struct {
    nt2_head *heads;
    uint8_t *bytes;
    uint16_t *count;
    uint8_t *marks;
} table;

/* A table's arguments, without and with its marks. */
#define COPY(t) (t).heads, NT2_ENTRIES, (t).bytes, NT2_TABLE_BYTES, (t).count
#define SERVER(t) COPY(t), (t).marks, NT2_CONNECTIONS

/* Bytes of a message, name or value, or of an output. */
typedef struct {
    uint8_t *bytes;
    size_t length;
} block;

#define LENT(b) (b).bytes, (b).length

static void *new_memory(size_t length) {
    void *memory = malloc(length);
    CHECK(memory != NULL);
    return memory;
}

/* Memory with any contents: a fresh start sets what is looked at later. */
static table new_table(void) {
    table t = {new_memory(NT2_ENTRIES * sizeof(nt2_head)), new_memory(NT2_TABLE_BYTES),
               new_memory(sizeof(uint16_t)), new_memory(NT2_CONNECTIONS)};
    return t;
}

static void free_table(table t) {
    free(t.heads);
    free(t.bytes);
    free(t.count);
    free(t.marks);
}

static block new_input(const void *bytes, size_t length) {
    block input = {new_memory(length), length};
    memcpy(input.bytes, bytes, length);
    return input;
}

/* An input is as it was before the call. */
static void free_input(block input, const void *bytes) {
    CHECK(memcmp(input.bytes, bytes, input.length) == 0);
    free(input.bytes);
}

/* A new output of this length takes the place of the one before. */
static void new_output(block *out, size_t length) {
    free(out->bytes);
    out->bytes = new_memory(length);
    out->length = length;
    memset(out->bytes, FILL, length);
}

/* The output's rest, behind what is sent, is as it was before the call. */
static void check_rest(const block *out, size_t sent) {
    CHECK(sent <= out->length);
    for (size_t i = sent; i < out->length; i++)
        CHECK(out->bytes[i] == FILL);
}

static bool answers(nt2_answer answer, uint8_t number, size_t taken, size_t sent,
                    uint16_t recipients) {
    return answer.number == number && answer.taken == taken && answer.sent == sent &&
           answer.recipients == recipients && answer.place == 0;
}

/* A refusal with a place takes and sends nothing, as every other. */
static bool refused_at(nt2_answer answer, uint8_t number, size_t place) {
    return answer.number == number && answer.place == place && answer.taken == 0 &&
           answer.sent == 0 && answer.recipients == 0;
}

/* A delivery that ended without a refusal. */
static bool delivers(nt2_delivered d, uint8_t ended, size_t messages, size_t taken,
                     size_t written) {
    return d.number == NT2_DONE && d.ended == ended && d.messages == messages &&
           d.taken == taken && d.written == written && d.place == 0;
}

/* A delivery that ended at a refusal tells what came before it. */
static bool delivers_until(nt2_delivered d, uint8_t number, size_t place, size_t messages,
                           size_t taken, size_t written) {
    return d.number == number && d.place == place && d.ended == NT2_ENDED_REFUSED &&
           d.messages == messages && d.taken == taken && d.written == written;
}

/* A refusal of the copy and of the reader has number and place alone. */

static bool copy_refused_at(nt2_copied copied, uint8_t number, size_t place) {
    return copied.number == number && copied.place == place && copied.revision == 0 &&
           copied.taken == 0;
}

static bool fields_refused_at(nt2_fields fields, uint8_t number, size_t place) {
    return fields.number == number && fields.place == place && fields.kind == 0 &&
           fields.type_code == 0 && fields.revision == 0 && fields.id == 0 &&
           fields.entry_number == 0 && fields.taken == 0 && fields.name_length == 0 &&
           fields.value_length == 0;
}

/* The calls with inputs, and with an output of some room. */

static nt2_answer receive(table t, size_t connection, const void *message, size_t length,
                          block *out, size_t room) {
    block input = new_input(message, length);
    new_output(out, room);
    nt2_answer a = nt2_receive(SERVER(t), connection, LENT(input), LENT(*out));
    check_rest(out, a.sent);
    free_input(input, message);
    return a;
}

static nt2_delivered deliver(table t, size_t connection, const void *bytes, size_t length,
                             block *out, size_t room) {
    block input = new_input(bytes, length);
    new_output(out, room);
    nt2_delivered d = nt2_deliver(SERVER(t), connection, LENT(input), LENT(*out));
    check_rest(out, d.written);
    free_input(input, bytes);
    return d;
}

static nt2_reason reason_of(table t, size_t connection, const void *message, size_t length) {
    block input = new_input(message, length);
    nt2_reason r = nt2_why(SERVER(t), connection, LENT(input));
    free_input(input, message);
    return r;
}

static nt2_answer save(table t, block *out, size_t room) {
    new_output(out, room);
    nt2_answer a = nt2_save(COPY(t), LENT(*out));
    check_rest(out, a.sent);
    return a;
}

static nt2_answer load(table t, const void *bytes, size_t length) {
    block saved = new_input(bytes, length);
    nt2_answer a = nt2_load(SERVER(t), LENT(saved));
    free_input(saved, bytes);
    return a;
}

static bool replays(table t, const void *bytes, size_t length, uint8_t number, size_t records) {
    block record = new_input(bytes, length);
    nt2_replayed r = nt2_replay(SERVER(t), LENT(record));
    free_input(record, bytes);
    return r.number == number && r.records == records;
}

static nt2_answer create(table t, const char *name, size_t name_length, uint8_t type_code,
                         const void *value, size_t value_length, block *out, size_t room) {
    block n = new_input(name, name_length), v = new_input(value, value_length);
    new_output(out, room);
    nt2_answer a = nt2_create(SERVER(t), LENT(n), type_code, LENT(v), LENT(*out));
    check_rest(out, a.sent);
    free_input(n, name);
    free_input(v, value);
    return a;
}

static nt2_answer write_value(table t, uint16_t id, const void *value, size_t length, block *out,
                              size_t room) {
    block v = new_input(value, length);
    new_output(out, room);
    nt2_answer a = nt2_write(SERVER(t), id, LENT(v), LENT(*out));
    check_rest(out, a.sent);
    free_input(v, value);
    return a;
}

static nt2_answer encode_value(uint8_t kind, const char *name, uint8_t type_code, uint16_t id,
                               uint16_t number, const void *value, size_t length, block *out,
                               size_t room) {
    block n = new_input(name, strlen(name)), v = new_input(value, length);
    new_output(out, room);
    nt2_answer a = nt2_encode(kind, 0, LENT(n), type_code, id, number, LENT(v), LENT(*out));
    check_rest(out, a.sent);
    free_input(n, name);
    free_input(v, value);
    return a;
}

/* The message writer with a Boolean. */
static nt2_answer encode(uint8_t kind, const char *name, uint16_t id, uint16_t number, uint8_t flag,
                         block *out, size_t room) {
    return encode_value(kind, name, NT2_BOOLEAN, id, number, &flag, 1, out, room);
}

static nt2_fields decode(const void *bytes, size_t length, uint8_t update_type) {
    block input = new_input(bytes, length);
    nt2_fields f = nt2_decode(LENT(input), update_type);
    free_input(input, bytes);
    return f;
}

static nt2_copied copy_receive(table copy, const void *message, size_t length) {
    block input = new_input(message, length);
    nt2_copied c = nt2_copy_receive(COPY(copy), LENT(input));
    free_input(input, message);
    return c;
}

/* The build description's example: a hello, a new entry, an update, an old one and a keep alive. */
static const uint8_t stream[] = {0x01, 0x02, 0x00, 0x10, 0x00, 0x01, 0x61, 0x00, 0xFF,
                                 0xFF, 0x00, 0x00, 0x01, 0x11, 0x00, 0x00, 0x00, 0x02,
                                 0x00, 0x11, 0x00, 0x00, 0x00, 0x02, 0x01, 0x00};

static void listing(void) {
    static const char expected[] = "offset taken answer to sent\n"
                                   "0 3 0 0001 1\n"
                                   "3 10 0 0001 10\n"
                                   "13 6 0 0000 6\n"
                                   "19 6 16 0000 0\n"
                                   "25 1 16 0000 0\n"
                                   "end 26 entries 1\n";
    char text[1024];
    size_t length = 0, offset = 0;
    table t = new_table();
    block out = {NULL, 0};

    CHECK(answers(nt2_fresh(SERVER(t)), NT2_DONE, 0, 0, 0));
    CHECK(answers(nt2_open(SERVER(t), 0), NT2_DONE, 0, 0, 0));
    length += (size_t)sprintf(text + length, "offset taken answer to sent\n");
    while (offset < sizeof stream) {
        nt2_answer a = receive(t, 0, stream + offset, sizeof stream - offset, &out,
                               NT2_LONGEST_HELLO_ANSWER);
        length += (size_t)sprintf(text + length, "%zu %zu %u %04x %zu\n", offset, a.taken,
                                  (unsigned)a.number, (unsigned)a.recipients, a.sent);
        if (a.taken == 0)
            break;
        offset += a.taken;
    }
    sprintf(text + length, "end %zu entries %u\n", offset, (unsigned)*t.count);
    fputs(text, stdout);
    CHECK(strcmp(text, expected) == 0);
    free(out.bytes);
    free_table(t);
}

/* Opens connection 0 of a fresh table. */
static void open_fresh(table t) {
    CHECK(nt2_fresh(SERVER(t)).number == NT2_DONE);
    CHECK(nt2_open(SERVER(t), 0).number == NT2_DONE);
}

/* What the example's first three messages write: for each a heading and what is sent. */
static const uint8_t stream_written[] = {
    0x00, 0x01, 0x00, 0x00, 0x00, 0x01, /* to connection 0: */
    0x03,                               /* hello complete */
    0x00, 0x01, 0x00, 0x00, 0x00, 0x0A, /* to connection 0: */
    0x10, 0x00, 0x01, 0x61, 0x00, 0x00, 0x00, 0x00, 0x01, 0x01,
    0x00, 0x00, 0x00, 0x00, 0x00, 0x06, /* to no one, since the sender gets no update of its own: */
    0x11, 0x00, 0x00, 0x00, 0x02, 0x00};

/* Each room for the example's output: a message has room whole, with its heading, or not at all. */
static void rooms_of_a_delivery(table t, block *out) {
    static const size_t ends[] = {0, 7, 23, 35}, taken[] = {0, 3, 13};
    for (size_t room = 0, done = 0; room < sizeof stream_written; room++) {
        while (ends[done + 1] <= room)
            done++;
        open_fresh(t);
        nt2_delivered d = deliver(t, 0, stream, sizeof stream, out, room);
        CHECK(delivers_until(d, NT2_ROOM, 0, done, taken[done], ends[done]));
        CHECK(memcmp(out->bytes, stream_written, d.written) == 0);
    }
    open_fresh(t);
    nt2_delivered d = deliver(t, 0, stream, sizeof stream, out, sizeof stream_written);
    CHECK(delivers(d, NT2_ENDED_SPENT, 5, sizeof stream, sizeof stream_written));
    CHECK(memcmp(out->bytes, stream_written, d.written) == 0);
}

static void ends_of_a_delivery(table t, block *out) {
    static const uint8_t keep_alives[NT2_DELIVERY_MESSAGES + 1] = {0};
    static const char good_and_bad[] = "\x11\x00\x00\x00\x03\x01\x11\x00\x00\x00\x04\x02";
    static const char revision_3[] = "\x01\x03\x00\x00";
    nt2_delivered d = deliver(t, 0, keep_alives, NT2_DELIVERY_MESSAGES, out, 0);
    CHECK(delivers(d, NT2_ENDED_SPENT, 64, 64, 0));
    d = deliver(t, 0, keep_alives, sizeof keep_alives, out, 0);
    CHECK(delivers(d, NT2_ENDED_MAX_REACHED, 64, 64, 0));
    d = deliver(t, 0, good_and_bad, sizeof good_and_bad - 1, out, 100);
    CHECK(delivers_until(d, NT2_NOT_BOOLEAN, 5, 1, 6, NT2_HEADING + 6));
    CHECK(delivers_until(deliver(t, 1, "", 0, out, 100), NT2_STATE, 0, 0, 0, 0));
    CHECK(delivers_until(deliver(t, 16, "", 0, out, 100), NT2_NO_SUCH_CONNECTION, 0, 0, 0, 0));
    CHECK(delivers(deliver(t, 0, "", 0, out, 0), NT2_ENDED_SPENT, 0, 0, 0));
    CHECK(nt2_open(SERVER(t), 1).number == NT2_DONE);
    d = deliver(t, 1, revision_3, sizeof revision_3 - 1, out, 100);
    CHECK(delivers_until(d, NT2_STATE, 0, 1, 3, NT2_HEADING + 3));
    t.heads[0].type_code = 3;
    CHECK(delivers_until(deliver(t, 0, "", 0, out, 100), NT2_UNSOUND, 0, 0, 0, 0));
}

static void deliveries(void) {
    table t = new_table();
    block out = {NULL, 0};
    rooms_of_a_delivery(t, &out);
    ends_of_a_delivery(t, &out);
    free(out.bytes);
    free_table(t);
}

/* A message of a connection, and why it is done, ignored or refused: connection 0 is open, connection
 * 1 greeted, and entry 0 is a Boolean named "a" with the number 2. */
typedef struct {
    const char *message;
    size_t length, connection;
    nt2_reason reason;
} reasoned;

#define REFUSED(number, place) {NT2_WHY_REFUSED, number, 0, 0, place}
#define IGNORED(reason, id, distance) {reason, NT2_IGNORED, id, distance, 0}
#define DONE(reason, distance) {reason, NT2_DONE, 0, distance, 0}

static const reasoned reasoned_messages[] = {
    {"\x00", 1, 16, REFUSED(NT2_NO_SUCH_CONNECTION, 0)},
    {"\x00", 1, 2, REFUSED(NT2_STATE, 0)},
    {"\x11", 1, 0, REFUSED(NT2_STATE, 0)},
    {"\x03", 1, 1, REFUSED(NT2_KIND, 0)},
    {"", 0, 1, REFUSED(NT2_INCOMPLETE, 0)},
    {"\x10\x00\x02z", 4, 1, REFUSED(NT2_INCOMPLETE, 3)},
    {"\x10\x00\x02zz\x00\x00\x00", 8, 1, REFUSED(NT2_ASSIGNMENT_ID, 6)},
    {"\x11\x00\x01", 3, 1, REFUSED(NT2_UNKNOWN_ID, 1)},
    {"\x10\x00\x02zz\x03", 6, 1, REFUSED(NT2_TYPE, 5)},
    {"\x11\x00\x00\x00\x03\x02", 6, 1, REFUSED(NT2_NOT_BOOLEAN, 5)},
    {"\x10\x00\x02z\xFF", 5, 1, REFUSED(NT2_NOT_TEXT, 3)},
    {"\x10\x00\x41", 3, 1, REFUSED(NT2_TOO_LONG, 1)},
    {"\x00", 1, 0, IGNORED(NT2_WHY_KEEP_ALIVE, 0, 0)},
    {"\x10\x00\x01" "a\x00\xFF\xFF\x00\x00\x01", 10, 1, IGNORED(NT2_WHY_NAME_HELD, 0, 0)},
    {"\x11\x00\x00\x00\x02\x01", 6, 1, IGNORED(NT2_WHY_EQUAL, 0, 0)},
    {"\x11\x00\x00\xFF\xFF\x01", 6, 1, IGNORED(NT2_WHY_OLDER, 0, 3)},
    {"\x11\x00\x00\x80\x02\x01", 6, 1, IGNORED(NT2_WHY_UNDEFINED, 0, 32768)},
    {"\x11\x00\x00\x80\x01\x01", 6, 1, DONE(NT2_WHY_APPLIED, 32767)},
    {"\x10\x00\x01z\x00\xFF\xFF\x00\x00\x01", 10, 1, DONE(NT2_WHY_DONE, 0)},
    {"\x01\x02\x00", 3, 0, DONE(NT2_WHY_DONE, 0)},
};

static bool same_reason(nt2_reason left, nt2_reason right) {
    return left.reason == right.reason && left.number == right.number && left.id == right.id &&
           left.distance == right.distance && left.place == right.place;
}

/* Memory whose contents can be compared. */
static table filled_table(void) {
    table t = new_table();
    memset(t.heads, FILL, NT2_ENTRIES * sizeof(nt2_head));
    memset(t.bytes, FILL, NT2_TABLE_BYTES);
    return t;
}

/* A table as it is now, with memory of its own. */
static table same_table(table t) {
    table same = new_table();
    memcpy(same.heads, t.heads, NT2_ENTRIES * sizeof(nt2_head));
    memcpy(same.bytes, t.bytes, NT2_TABLE_BYTES);
    memcpy(same.count, t.count, sizeof(uint16_t));
    memcpy(same.marks, t.marks, NT2_CONNECTIONS);
    return same;
}

/* All of their memory is the same. */
static void check_same(table left, table right) {
    CHECK(memcmp(left.heads, right.heads, NT2_ENTRIES * sizeof(nt2_head)) == 0);
    CHECK(memcmp(left.bytes, right.bytes, NT2_TABLE_BYTES) == 0 && *left.count == *right.count);
    CHECK(memcmp(left.marks, right.marks, NT2_CONNECTIONS) == 0);
}

/* Asking changes nothing, and the call itself, with room for any answer, has the same number. */
static void reason_is(table t, const reasoned *m, block *out) {
    table same = same_table(t);
    CHECK(same_reason(reason_of(t, m->connection, m->message, m->length), m->reason));
    check_same(t, same);
    nt2_answer a = receive(same, m->connection, m->message, m->length, out,
                           NT2_LONGEST_HELLO_ANSWER);
    CHECK(a.number == m->reason.number);
    free_table(same);
}

/* Entries 1 to 63 have a name of one byte, their ID. */
static void reasons_with_a_full_table(table t, block *out) {
    for (char id = 1; id < NT2_ENTRIES; id++)
        CHECK(create(t, &id, 1, NT2_BOOLEAN, "\x01", 1, out, 10).number == NT2_DONE);
    static const reasoned held = {"\x10\x00\x01\x3F\x00\xFF\xFF\x00\x00\x01", 10, 1,
                                  IGNORED(NT2_WHY_NAME_HELD, 63, 0)};
    static const reasoned new = {"\x10\x00\x01\x40\x00\xFF\xFF\x00\x00\x01", 10, 1,
                                 REFUSED(NT2_FULL, 0)};
    reason_is(t, &held, out);
    reason_is(t, &new, out);
}

static void reasons(void) {
    table t = filled_table();
    block out = {NULL, 0};
    open_fresh(t);
    CHECK(nt2_open(SERVER(t), 1).number == NT2_DONE);
    nt2_delivered d = deliver(t, 1, stream, sizeof stream, &out, sizeof stream_written);
    CHECK(delivers(d, NT2_ENDED_SPENT, 5, sizeof stream, sizeof stream_written));
    for (size_t i = 0; i < sizeof reasoned_messages / sizeof *reasoned_messages; i++)
        reason_is(t, &reasoned_messages[i], &out);
    reasons_with_a_full_table(t, &out);
    t.heads[0].type_code = 3;
    const reasoned unsound = {"", 0, 16, REFUSED(NT2_UNSOUND, 0)};
    reason_is(t, &unsound, &out);
    free(out.bytes);
    free_table(t);
}

/* Connection 3 opens, says hello and makes an entry, the plant's own code writes its value, and half a
 * message comes in. */
static const uint8_t line_record[] = {
    NT2_RECORD_OPENS, 3,
    NT2_RECORD_CAME_IN + 8, 3, 0x01, 0x02, 0x00, 0x10, 0x00, 0x01, 0x61, 0x00,
    NT2_RECORD_CAME_IN + 5, 3, 0xFF, 0xFF, 0x00, 0x00, 0x01,
    NT2_RECORD_CAME_IN + 6, NT2_PLANT, 0x11, 0x00, 0x00, 0x00, 0x00, 0x00,
    NT2_RECORD_CAME_IN + 2, 3, 0x11, 0x00};

/* Its records' ends. */
static const size_t record_ends[] = {0, 2, 12, 19, 27, 31};

/* Whole, and cut in each place: memory has any contents, and the records before the cut are done. */
static void line_records(void) {
    table t = new_table();
    for (size_t length = 0, done = 0; length <= sizeof line_record; length++) {
        while (done < 5 && record_ends[done + 1] <= length)
            done++;
        bool whole = record_ends[done] == length;
        CHECK(replays(t, line_record, length, whole ? NT2_DONE : NT2_INCOMPLETE, done));
        CHECK(*t.count == (done >= 3) && t.marks[2] == NT2_CLOSED);
        CHECK(t.marks[3] == (done >= 2 ? NT2_GREETED : done >= 1 ? NT2_OPEN : NT2_CLOSED));
    }
    CHECK(t.heads[0].number == 2 && t.bytes[0] == 'a' && t.bytes[NT2_NAME_ROOM] == 0);
    free_table(t);
}

static void refused_line_records(void) {
    table t = new_table();
    CHECK(replays(t, "\x01\x05\x03\x00", 4, NT2_KIND, 1));
    CHECK(replays(t, "\x01\x05\x40\x11", 4, NT2_KIND, 1));
    CHECK(t.marks[5] == NT2_OPEN);
    /* Refused openings, leavings and messages are no refusals of a record. */
    CHECK(replays(t, "\x01\x05\x01\x10\x02\xFF\x02\x04\x40\x05\x07\x40\x10\x07", 14, NT2_DONE, 6));
    CHECK(*t.count == 0 && t.marks[5] == NT2_CLOSED);
    CHECK(nt2_open(SERVER(t), 5).number == NT2_DONE);
    uint8_t *fewer = new_memory(NT2_CONNECTIONS - 1);
    nt2_replayed r = nt2_replay(COPY(t), fewer, NT2_CONNECTIONS - 1, line_record, 2);
    CHECK(r.number == NT2_UNSOUND && r.records == 0 && t.marks[5] == NT2_OPEN);
    free(fewer);
    free_table(t);
}

/* Feeds all messages to the copy. */
static void feed(table copy, const uint8_t *bytes, size_t length) {
    while (length > 0) {
        nt2_copied c = copy_receive(copy, bytes, length);
        CHECK(c.number == NT2_DONE || c.number == NT2_IGNORED);
        CHECK(c.taken > 0 && c.taken <= length);
        bytes += c.taken;
        length -= c.taken;
    }
}

static void same_entries(table server, table copy) {
    CHECK(*server.count == *copy.count);
    for (size_t i = 0; i < *server.count; i++) {
        const nt2_head *head = &server.heads[i];
        const uint8_t *name = server.bytes + NT2_ENTRY_ROOM * i;
        const uint8_t *copied = copy.bytes + NT2_ENTRY_ROOM * i;
        CHECK(memcmp(head, &copy.heads[i], sizeof *head) == 0);
        CHECK(memcmp(name, copied, head->name_length) == 0);
        CHECK(memcmp(name + NT2_NAME_ROOM, copied + NT2_NAME_ROOM, head->value_length) == 0);
    }
}

static const uint8_t hello[] = {NT2_HELLO, 0x02, 0x00};
static const uint8_t other_revision[] = {NT2_HELLO, 0x03, 0x00};
static const uint8_t unsupported[] = {NT2_UNSUPPORTED, 0x02, 0x00};

/* Entries 0 and 1 of a server whose connection 5 is greeted, each output just long enough. */
static void copy_follows(table server, table copy, block *out) {
    static const char name[] = "lot/3/parents";
    static const uint8_t parents[] = "\002\000\005lot/1\000\005lot/2";
    static const uint8_t zero[8] = {0}, minus_zero[8] = {0x80}, one[8] = {0x3F, 0xF0};
    const size_t name_length = sizeof name - 1, length = sizeof parents - 1;
    const size_t assignment = 8 + name_length + length;
    nt2_answer a;

    CHECK(nt2_fresh(SERVER(server)).number == NT2_DONE);
    CHECK(nt2_copy_fresh(COPY(copy)).number == NT2_DONE);
    a = create(server, name, name_length, NT2_STRING_ARRAY, parents, length, out, assignment);
    CHECK(answers(a, NT2_DONE, 0, assignment, 0));
    CHECK(nt2_open(SERVER(server), 5).number == NT2_DONE);
    a = receive(server, 5, hello, sizeof hello, out, assignment);
    CHECK(answers(a, NT2_ROOM, 0, 0, 0));
    a = receive(server, 5, hello, sizeof hello, out, assignment + 1);
    CHECK(answers(a, NT2_DONE, 3, assignment + 1, 1 << 5));
    feed(copy, out->bytes, a.sent);
    same_entries(server, copy);

    a = create(server, name, 3, NT2_DOUBLE, zero, 8, out, 8 + 3 + 8);
    CHECK(answers(a, NT2_DONE, 0, 8 + 3 + 8, 1 << 5));
    feed(copy, out->bytes, a.sent);
    a = write_value(server, 1, minus_zero, 8, out, 5 + 8);
    CHECK(answers(a, NT2_DONE, 0, 5 + 8, 1 << 5));
    feed(copy, out->bytes, a.sent);
    same_entries(server, copy);
    a = write_value(server, 1, one, 8, out, 5 + 8);
    CHECK(answers(a, NT2_DONE, 0, 5 + 8, 1 << 5));
    feed(copy, out->bytes, a.sent);
    CHECK(answers(write_value(server, 1, one, 8, out, 0), NT2_IGNORED, 0, 0, 0));
    CHECK(answers(write_value(server, 1, zero, 8, out, 5 + 7), NT2_ROOM, 0, 0, 0));
    CHECK(answers(write_value(server, 1, zero, 7, out, 5 + 8), NT2_INCOMPLETE, 0, 0, 0));
    same_entries(server, copy);
}

static void entries_are_read(table server, table copy) {
    nt2_scalar s = nt2_read(COPY(server), 1);
    CHECK(s.number == NT2_DONE && s.found == NT2_FOUND_DOUBLE && s.value == 1.0 && !s.flag);
    s = nt2_read(COPY(copy), 0);
    CHECK(s.number == NT2_DONE && s.found == NT2_FOUND_NEITHER);
    CHECK(nt2_read(COPY(copy), 2).number == NT2_UNKNOWN_ID);
}

static void connections_close(table server, table copy, block *out) {
    nt2_answer a;
    nt2_copied c;

    CHECK(nt2_open(SERVER(server), 6).number == NT2_DONE);
    CHECK(nt2_open(SERVER(server), 6).number == NT2_STATE);
    CHECK(nt2_open(SERVER(server), 16).number == NT2_NO_SUCH_CONNECTION);
    a = receive(server, 6, other_revision, 2, out, 3);
    CHECK(answers(a, NT2_INCOMPLETE, 0, 0, 0));
    a = receive(server, 6, other_revision, sizeof other_revision, out, 3);
    CHECK(answers(a, NT2_DONE, 3, 3, 1 << 6) && memcmp(out->bytes, unsupported, 3) == 0);
    CHECK(server.marks[6] == NT2_CLOSED && server.marks[5] == NT2_GREETED);
    c = copy_receive(copy, unsupported, sizeof unsupported);
    CHECK(c.number == NT2_IGNORED && c.taken == 3 && c.revision == 0x0200);
    CHECK(copy_refused_at(copy_receive(copy, hello, sizeof hello), NT2_KIND, 0));
    CHECK(answers(nt2_leave(SERVER(server), 5), NT2_DONE, 0, 0, 0));
    CHECK(nt2_leave(SERVER(server), 5).number == NT2_STATE);
}

static void unsound_table_is_refused(table server) {
    server.heads[1].type_code = 3;
    CHECK(answers(nt2_open(SERVER(server), 5), NT2_UNSOUND, 0, 0, 0));
    nt2_head *fewer = new_memory((NT2_ENTRIES - 1) * sizeof(nt2_head));
    CHECK(nt2_fresh(fewer, NT2_ENTRIES - 1, server.bytes, NT2_TABLE_BYTES, server.count,
                    server.marks, NT2_CONNECTIONS)
              .number == NT2_UNSOUND);
    CHECK(*server.count == 2);
    free(fewer);
}

static void server_and_copy(void) {
    table server = new_table(), copy = new_table();
    block out = {NULL, 0};
    copy_follows(server, copy, &out);
    entries_are_read(server, copy);
    connections_close(server, copy, &out);
    unsound_table_is_refused(server);
    free(out.bytes);
    free_table(copy);
    free_table(server);
}

/* Puts an entry's record into a saved table that is all zeros. */
static void put_saved(uint8_t *record, const char *name, uint8_t type_code, uint16_t number,
                      const void *value, uint16_t length) {
    record[0] = NT2_SAVED_ENTRY_RECORD;
    record[1] = (uint8_t)strlen(name);
    memcpy(record + 2, name, strlen(name));
    record[66] = type_code;
    record[67] = (uint8_t)(number >> 8);
    record[68] = (uint8_t)number;
    record[69] = (uint8_t)(length >> 8);
    record[70] = (uint8_t)length;
    memcpy(record + 71, value, length);
}

/* Where the second of two entries starts in a saved table, and the table's length. */
enum { SECOND = NT2_SAVED_FIRST + NT2_SAVED_ENTRY, TWO_SAVED = SECOND + NT2_SAVED_ENTRY };

/* The saved form of the Boolean "tare", written once, and of the String "lot". */
static const uint8_t *two_saved(void) {
    static uint8_t saved[TWO_SAVED] = {NT2_SAVED_COUNT_RECORD, 2};
    put_saved(saved + NT2_SAVED_FIRST, "tare", NT2_BOOLEAN, 2, "\x01", 1);
    put_saved(saved + SECOND, "lot", NT2_STRING, 1, "\x00\x03" "A-7", 5);
    return saved;
}

static void a_table_is_saved(table server, table copy, block *out) {
    CHECK(nt2_fresh(SERVER(server)).number == NT2_DONE);
    CHECK(nt2_copy_fresh(COPY(copy)).number == NT2_DONE);
    CHECK(answers(save(server, out, 1), NT2_ROOM, 0, 0, 0));
    CHECK(answers(save(server, out, 2), NT2_DONE, 0, 2, 0));
    CHECK(memcmp(out->bytes, "\x01\x00", 2) == 0);
    nt2_answer a = create(server, "tare", 4, NT2_BOOLEAN, "\x00", 1, out, 13);
    feed(copy, out->bytes, a.sent);
    a = create(server, "lot", 3, NT2_STRING, "\x00\x03" "A-7", 5, out, 16);
    feed(copy, out->bytes, a.sent);
    a = write_value(server, 0, "\x01", 1, out, 6);
    feed(copy, out->bytes, a.sent);
    table same = same_table(server);
    CHECK(answers(save(server, out, TWO_SAVED - 1), NT2_ROOM, 0, 0, 0));
    for (size_t room = TWO_SAVED; room <= TWO_SAVED + 1; room++) {
        CHECK(answers(save(server, out, room), NT2_DONE, 0, TWO_SAVED, 0));
        CHECK(memcmp(out->bytes, two_saved(), TWO_SAVED) == 0);
    }
    check_same(server, same);
    free_table(same);
    /* A copy has no marks, and is saved as the table is. */
    CHECK(answers(save(copy, out, NT2_LONGEST_SAVED), NT2_DONE, 0, TWO_SAVED, 0));
    CHECK(memcmp(out->bytes, two_saved(), TWO_SAVED) == 0);
}

/* A byte of a saved table changed to another one, and how that is refused. */
typedef struct {
    size_t at;
    uint8_t byte, number;
    size_t place;
} bad_byte;

static const bad_byte bad_bytes[] = {
    {0, 3, NT2_KIND, 0},
    {1, NT2_ENTRIES + 1, NT2_TOO_LONG, 1},
    {1, 1, NT2_TOO_LONG, SECOND},
    {1, 3, NT2_INCOMPLETE, 0},
    {SECOND, 1, NT2_KIND, 0},
    {SECOND + 1, NT2_NAME_ROOM + 1, NT2_TOO_LONG, SECOND + 1},
    {SECOND + 4, 0xFF, NT2_NOT_TEXT, SECOND + 2},
    {SECOND + 65, 1, NT2_FILLING, 0},
    {SECOND + 66, 3, NT2_TYPE, SECOND + 66},
    {SECOND + 69, 2, NT2_TOO_LONG, SECOND + 69},
    {SECOND + 70, 6, NT2_TOO_LONG, SECOND + 76},
    {SECOND + 70, 4, NT2_INCOMPLETE, 0},
    {SECOND + 74, 0x80, NT2_NOT_TEXT, SECOND + 73},
    {SECOND + 326, 1, NT2_FILLING, 0},
    {NT2_SAVED_FIRST + 71, 2, NT2_NOT_BOOLEAN, NT2_SAVED_FIRST + 71},
};

/* Nothing is changed by a load that is refused. */
static void bad_tables_are_not_loaded(table t) {
    uint8_t bad[TWO_SAVED + 1] = {0};
    table same = same_table(t);
    for (size_t length = 0; length < TWO_SAVED; length++)
        CHECK(refused_at(load(t, two_saved(), length), NT2_INCOMPLETE, 0));
    for (size_t i = 0; i < sizeof bad_bytes / sizeof *bad_bytes; i++) {
        memcpy(bad, two_saved(), TWO_SAVED);
        bad[bad_bytes[i].at] = bad_bytes[i].byte;
        CHECK(refused_at(load(t, bad, TWO_SAVED), bad_bytes[i].number, bad_bytes[i].place));
    }
    memcpy(bad, two_saved(), TWO_SAVED);
    CHECK(refused_at(load(t, bad, TWO_SAVED + 1), NT2_TOO_LONG, TWO_SAVED));
    memcpy(bad + SECOND, bad + NT2_SAVED_FIRST, NT2_SAVED_ENTRY);
    CHECK(refused_at(load(t, bad, TWO_SAVED), NT2_NAME_HELD, 0));
    check_same(t, same);
    t.marks[15] = NT2_OPEN;
    CHECK(refused_at(load(t, two_saved(), TWO_SAVED), NT2_STATE, 0));
    t.marks[15] = NT2_GREETED + 1;
    CHECK(refused_at(load(t, two_saved(), TWO_SAVED), NT2_UNSOUND, 0));
    t.marks[15] = NT2_CLOSED;
    check_same(t, same);
    free_table(same);
}

/* Over an entry with a longer name: what stands behind names and values, and in the other entries,
 * stays. */
static void a_table_is_loaded(table server, table t, block *out) {
    CHECK(nt2_fresh(SERVER(t)).number == NT2_DONE);
    CHECK(create(t, "gross weight", 12, NT2_BOOLEAN, "\x00", 1, out, 21).number == NT2_DONE);
    bad_tables_are_not_loaded(t);
    table expected = same_table(t);
    nt2_head tare = {4, 1, NT2_BOOLEAN, 2}, lot = {3, 5, NT2_STRING, 1};
    expected.heads[0] = tare;
    expected.heads[1] = lot;
    memcpy(expected.bytes, "tare", 4);
    expected.bytes[NT2_NAME_ROOM] = 1;
    memcpy(expected.bytes + NT2_ENTRY_ROOM, "lot", 3);
    memcpy(expected.bytes + NT2_ENTRY_ROOM + NT2_NAME_ROOM, "\x00\x03" "A-7", 5);
    *expected.count = 2;
    CHECK(answers(load(t, two_saved(), TWO_SAVED), NT2_DONE, TWO_SAVED, 0, 0));
    check_same(t, expected);
    same_entries(server, t);
    free_table(expected);
    CHECK(answers(save(t, out, TWO_SAVED), NT2_DONE, 0, TWO_SAVED, 0));
    CHECK(memcmp(out->bytes, two_saved(), TWO_SAVED) == 0);
    CHECK(answers(load(t, "\x01\x00", 2), NT2_DONE, 2, 0, 0));
    CHECK(*t.count == 0);
}

static void saved_tables(void) {
    table server = filled_table(), copy = filled_table(), loaded = filled_table();
    block out = {NULL, 0};
    a_table_is_saved(server, copy, &out);
    a_table_is_loaded(server, loaded, &out);
    server.heads[1].type_code = 3;
    CHECK(answers(save(server, &out, 0), NT2_UNSOUND, 0, 0, 0));
    CHECK(answers(load(server, "\x01\x00", 2), NT2_UNSOUND, 0, 0, 0));
    CHECK(*server.count == 2);
    free(out.bytes);
    free_table(loaded);
    free_table(copy);
    free_table(server);
}

static void there_and_back(void) {
    static const uint8_t expected[] = {0x10, 0x00, 0x04, 't',  'a',  'r', 'e',
                                       0x00, 0x00, 0x07, 0xFF, 0xFF, 0x01};
    block out = {NULL, 0};
    nt2_fields f;

    for (size_t room = 13; room <= 14; room++) {
        nt2_answer a = encode(NT2_ASSIGNMENT, "tare", 7, 65535, 1, &out, room);
        CHECK(answers(a, NT2_DONE, 0, 13, 0));
        CHECK(memcmp(out.bytes, expected, sizeof expected) == 0);
    }
    f = decode(expected, 13, NT2_BOOLEAN);
    CHECK(f.number == NT2_DONE && f.kind == NT2_ASSIGNMENT && f.type_code == NT2_BOOLEAN);
    CHECK(f.id == 7 && f.entry_number == 65535 && f.revision == 0);
    CHECK(f.taken == 13 && f.name_length == 4 && f.value_length == 1);
    for (size_t length = 0; length < 13; length++)
        CHECK(fields_refused_at(decode(expected, length, NT2_BOOLEAN), NT2_INCOMPLETE, 0));

    CHECK(answers(encode(NT2_UPDATE, "", 7, 2, 1, &out, 7), NT2_DONE, 0, 6, 0));
    f = decode(out.bytes, 7, NT2_BOOLEAN);
    CHECK(f.number == NT2_DONE && f.kind == NT2_UPDATE && f.type_code == 0);
    CHECK(f.id == 7 && f.entry_number == 2 && f.taken == 6 && f.value_length == 1);
    CHECK(fields_refused_at(decode(out.bytes, 6, 3), NT2_TYPE, 0));
    CHECK(encode(0x04, "tare", 0, 0, 1, &out, 13).number == NT2_KIND);
    free(out.bytes);
}

/* A message that is refused, and where: entry 0 is a Boolean. */
typedef struct {
    const char *message;
    size_t length, place;
    uint8_t number;
} bad_message;

static const bad_message bad_messages[] = {
    {"\x10\x00\x02zz\x03", 6, 5, NT2_TYPE},
    {"\x11\x00\x00\x00\x02\x02", 6, 5, NT2_NOT_BOOLEAN},
    {"\x10\x00\x03zz\xFF", 6, 3, NT2_NOT_TEXT},
    {"\x10\x00\x41", 3, 1, NT2_TOO_LONG},
    {"\x11\x00\x00\x00\x02", 5, 0, NT2_INCOMPLETE},
};

static void places_in_messages(table server, table copy, block *out) {
    for (size_t i = 0; i < sizeof bad_messages / sizeof *bad_messages; i++) {
        const bad_message *bad = &bad_messages[i];
        nt2_answer a = receive(server, 0, bad->message, bad->length, out, NT2_LONGEST_ASSIGNMENT);
        CHECK(refused_at(a, bad->number, bad->place));
        nt2_copied c = copy_receive(copy, bad->message, bad->length);
        CHECK(copy_refused_at(c, bad->number, bad->place));
        nt2_fields f = decode(bad->message, bad->length, NT2_BOOLEAN);
        CHECK(fields_refused_at(f, bad->number, bad->place));
    }
    /* A type that is given has no place. */
    nt2_fields f = decode("\x11\x00\x00\x00\x02\x01", 6, 3);
    CHECK(fields_refused_at(f, NT2_TYPE, 0));
}

/* A name and value that are refused, and where. */
typedef struct {
    const char *name, *value;
    size_t length, place;
    uint8_t type_code, number;
} bad_entry;

static const bad_entry bad_entries[] = {
    {"z", "\x01", 1, 0, 3, NT2_TYPE},
    {"z", "\x02", 1, 0, NT2_BOOLEAN, NT2_NOT_BOOLEAN},
    {"z", "\x03\x01\x00\x02", 4, 3, NT2_BOOLEAN_ARRAY, NT2_NOT_BOOLEAN},
    {"z\xFF", "\x01", 1, 0, NT2_BOOLEAN, NT2_NOT_TEXT},
    {"z", "\x00\x02z\xFF", 4, 2, NT2_STRING, NT2_NOT_TEXT},
    {"z", "\x00\xFF", 2, 0, NT2_STRING, NT2_TOO_LONG},
    {"z", "\x20", 1, 0, NT2_DOUBLE_ARRAY, NT2_TOO_LONG},
    {"z", "\x02\x00\x01z\x01\x00", 6, 4, NT2_STRING_ARRAY, NT2_TOO_LONG},
    {"z", "\x01\x00\x00", 3, 1, NT2_BOOLEAN, NT2_TOO_LONG},
};

static void places_in_names_and_values(table server, block *out) {
    for (size_t i = 0; i < sizeof bad_entries / sizeof *bad_entries; i++) {
        const bad_entry *bad = &bad_entries[i];
        nt2_answer a = create(server, bad->name, strlen(bad->name), bad->type_code, bad->value,
                              bad->length, out, NT2_LONGEST_ASSIGNMENT);
        CHECK(refused_at(a, bad->number, bad->place));
        a = encode_value(NT2_ASSIGNMENT, bad->name, bad->type_code, 0, 0, bad->value, bad->length,
                         out, NT2_LONGEST_ASSIGNMENT);
        CHECK(refused_at(a, bad->number, bad->place));
    }
    char name[NT2_NAME_ROOM + 1];
    memset(name, 'z', sizeof name);
    nt2_answer a = create(server, name, sizeof name, NT2_BOOLEAN, "\x02", 1, out, 0);
    CHECK(refused_at(a, NT2_TOO_LONG, 0));
}

/* Entry 0 is a Boolean, entry 1 a String Array. */
static void places_in_written_values(table server, block *out) {
    nt2_answer a = write_value(server, 0, "\x02\x00", 2, out, 0);
    CHECK(refused_at(a, NT2_NOT_BOOLEAN, 0));
    a = write_value(server, 0, "\x01\x00", 2, out, 0);
    CHECK(refused_at(a, NT2_TOO_LONG, 1));
    a = write_value(server, 1, "\x02\x00\x01z\x00\x02z\xFF", 8, out, 0);
    CHECK(refused_at(a, NT2_NOT_TEXT, 6));
    a = write_value(server, 1, "\x02\x00\x01z\x01\x00", 6, out, 0);
    CHECK(refused_at(a, NT2_TOO_LONG, 4));
}

static void places_of_faults(void) {
    table server = new_table(), copy = new_table();
    block out = {NULL, 0};
    CHECK(nt2_fresh(SERVER(server)).number == NT2_DONE);
    CHECK(nt2_copy_fresh(COPY(copy)).number == NT2_DONE);
    nt2_answer a = create(server, "tare", 4, NT2_BOOLEAN, "\x01", 1, &out, 13);
    feed(copy, out.bytes, a.sent);
    a = create(server, "lots", 4, NT2_STRING_ARRAY, "\x00", 1, &out, 13);
    feed(copy, out.bytes, a.sent);
    CHECK(nt2_open(SERVER(server), 0).number == NT2_DONE);
    a = receive(server, 0, hello, sizeof hello, &out, NT2_LONGEST_HELLO_ANSWER);
    CHECK(a.number == NT2_DONE);
    places_in_messages(server, copy, &out);
    places_in_names_and_values(server, &out);
    places_in_written_values(server, &out);
    same_entries(server, copy);
    free(out.bytes);
    free_table(copy);
    free_table(server);
}

int main(void) {
    listing();
    deliveries();
    reasons();
    line_records();
    refused_line_records();
    server_and_copy();
    saved_tables();
    there_and_back();
    places_of_faults();
    puts("example: all calls answered as expected");
    return 0;
}
