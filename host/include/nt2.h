/* A shared table server, NetworkTables revision 2.0: the C interface of libnt2.a.
 *
 * The caller lends all memory. A slice is lent as pointer and length; the slices of one call do not
 * overlap, and no pointer is null. A call stays within them, keeps none of them and always returns.
 * A refusal (1 to 15) changes nothing; of a delivery the messages before the refused one stand, of a
 * line record the records before it. A field that an answer does not use is 0 (false).
 */
#ifndef NT2_H
#define NT2_H

#include <stdbool.h>
#include <stddef.h>
#include <stdint.h>

#ifdef __cplusplus
extern "C" {
#endif

/* Sizes. Entry i's name starts at byte NT2_ENTRY_ROOM * i, its value NT2_NAME_ROOM bytes later. */
enum {
    NT2_ENTRIES = 64,
    NT2_NAME_ROOM = 64,
    NT2_VALUE_ROOM = 256,
    NT2_ENTRY_ROOM = 320,
    NT2_TABLE_BYTES = 20480,
    NT2_CONNECTIONS = 16,
    NT2_LONGEST_ASSIGNMENT = 328,
    NT2_LONGEST_UPDATE = 261,
    NT2_LONGEST_HELLO_ANSWER = 20993,
    NT2_HEADING = 6,            /* before what each message of a delivery sends */
    NT2_DELIVERY_MESSAGES = 64, /* at most, in one delivery */
    NT2_RECORD_DATA = 64,       /* bytes that came in, at most, in one record */
    NT2_SAVED_FIRST = 2,        /* the first record of a saved table */
    NT2_SAVED_ENTRY = 327,      /* each record behind it */
    NT2_LONGEST_SAVED = NT2_SAVED_FIRST + NT2_ENTRIES * NT2_SAVED_ENTRY
};

/* Numbers that a call answers with. */
enum {
    NT2_DONE = 0,
    NT2_INCOMPLETE = 1,         /* message, value, record or saved table not complete */
    NT2_NO_SUCH_CONNECTION = 2, /* connection number above 15 */
    NT2_STATE = 3,              /* connection state does not allow this */
    NT2_KIND = 4,               /* kind of a message or record unknown, or not for this end */
    NT2_ASSIGNMENT_ID = 5,      /* assignment ID not the one allowed */
    NT2_UNKNOWN_ID = 6,         /* ID not in the table */
    NT2_TYPE = 7,               /* type unknown */
    NT2_NOT_BOOLEAN = 8,        /* Boolean byte not 0 or 1 */
    NT2_NOT_TEXT = 9,           /* text not UTF-8 */
    NT2_TOO_LONG = 10,          /* name or value too long, a saved count too great, or bytes left
                                   after a lone value or a saved table */
    NT2_FULL = 11,              /* table full */
    NT2_ROOM = 12,              /* output too short */
    NT2_NAME_HELD = 13,         /* name already there */
    NT2_UNSOUND = 14,           /* lent table unsound or too small */
    NT2_FILLING = 15,           /* filling of a saved name or value is not zero */
    NT2_IGNORED = 16            /* taken, nothing changes, nothing is sent */
};

/* Message kinds. */
enum {
    NT2_KEEP_ALIVE = 0x00,
    NT2_HELLO = 0x01,
    NT2_UNSUPPORTED = 0x02,
    NT2_HELLO_COMPLETE = 0x03,
    NT2_ASSIGNMENT = 0x10,
    NT2_UPDATE = 0x11
};

/* Types of values. */
enum {
    NT2_BOOLEAN = 0x00,
    NT2_DOUBLE = 0x01,
    NT2_STRING = 0x02,
    NT2_BOOLEAN_ARRAY = 0x10,
    NT2_DOUBLE_ARRAY = 0x11,
    NT2_STRING_ARRAY = 0x12
};

/* Connection marks. */
enum { NT2_CLOSED = 0, NT2_OPEN = 1, NT2_GREETED = 2 };

/* What a scalar's `found` says. */
enum { NT2_FOUND_BOOLEAN = 0, NT2_FOUND_DOUBLE = 1, NT2_FOUND_NEITHER = 2 };

/* Records of a line record: a kind byte, a connection byte and, of the last kind, the bytes. */
enum {
    NT2_RECORD_OPENS = 1,
    NT2_RECORD_LEAVES = 2,
    NT2_RECORD_CAME_IN = 63 /* plus how many bytes came in: 64 to 127 */
};

/* The connection of a record with what the plant's own code did. */
enum { NT2_PLANT = 16 };

/* Records of a saved table: one of the first kind with the count (1 byte), and one of the second kind
 * for each entry in the order of IDs. Its fields, with their first byte and their bytes:
 *   0    1    kind
 *   1    1    length of the name
 *   2    64   name, filled with zeros
 *   66   1    type
 *   67   2    number, big endian
 *   69   2    length of the value, big endian
 *   71   256  value, filled with zeros
 */
enum { NT2_SAVED_COUNT_RECORD = 1, NT2_SAVED_ENTRY_RECORD = 2 };

/* How a delivery ended. */
enum { NT2_ENDED_REFUSED = 0, NT2_ENDED_SPENT = 1, NT2_ENDED_MAX_REACHED = 2 };

/* What a reason's `reason` says. */
enum {
    NT2_WHY_REFUSED = 0,    /* refused; number and place tell of it */
    NT2_WHY_KEEP_ALIVE = 1, /* ignored: a keep alive */
    NT2_WHY_NAME_HELD = 2,  /* ignored: the entry with this id has the assignment's name */
    NT2_WHY_EQUAL = 3,      /* ignored: the update's number is the stored one */
    NT2_WHY_OLDER = 4,      /* ignored: the update's number is older, by the distance */
    NT2_WHY_UNDEFINED = 5,  /* ignored: the numbers are 32,768 apart, so neither is greater */
    NT2_WHY_APPLIED = 6,    /* done: the update's number is greater, by the distance */
    NT2_WHY_DONE = 7        /* done: a hello of any revision, or a new assignment */
};

/* One entry head. */
typedef struct {
    uint16_t name_length;
    uint16_t value_length;
    uint16_t type_code;
    uint16_t number;
} nt2_head;

/* Where a fault is: with the numbers 7 to 10 an answer's `place` is that of the first byte of the
 * field that failed, counted from 0 at the start of the message, name or value lent.
 *   7   the type byte
 *   8   the Boolean byte
 *   9   the first byte of the text, behind its length
 *   10  the length of a name, String or element, the count of a Double Array, or the first byte
 *       left after a lone value
 * It is 0 for a lent name, which has no length before it, and for a type given as a number. With
 * every other number it is 0.
 * In a delivery it counts from the start of the refused message, in a saved table from its first byte.
 * There 9 is also at a name's first byte, and 10 at the count, at the length of a name or value, or at
 * the first byte left: in a value that is longer than what it holds, or behind the last record.
 *
 * With a name and a value (nt2_create, and nt2_encode of an assignment), 9 at 0 is the name's, 10 is
 * the name's if that is longer than 64 bytes, and all else but 7 is the value's.
 */

/* Number, recipients (bit c for connection c), bytes taken and sent, and the place of a fault. */
typedef struct {
    uint8_t number;
    uint16_t recipients;
    size_t taken;
    size_t sent;
    size_t place;
} nt2_answer;

/* What came of a delivery: how it ended, the messages taken (those done and those ignored), their
 * bytes, and the bytes written. At a refusal number and place tell of it; the messages before it
 * stand and are reported. Otherwise the number is 0: no input is left (NT2_ENDED_SPENT), or 64
 * messages were taken and input is left (NT2_ENDED_MAX_REACHED).
 */
typedef struct {
    uint8_t number;
    uint8_t ended;
    size_t messages;
    size_t taken;
    size_t written;
    size_t place;
} nt2_delivered;

/* Which check decides a message, and the number that nt2_receive answers with.
 *   id        with NT2_WHY_NAME_HELD the ID of the entry that has the name
 *   distance  with NT2_WHY_OLDER stored minus received number, with NT2_WHY_APPLIED received minus
 *             stored, modulo 65,536: 1 to 32,767; with NT2_WHY_UNDEFINED 32,768
 *   place     with NT2_WHY_REFUSED that of the first byte of the field that failed, counted from 0
 *             at the start of the message: with 7 to 10 as in an answer, and also
 *               NT2_INCOMPLETE     the first field that is not wholly there: a text's length and its
 *                                  bytes are two fields, a Boolean or Double of an array is one
 *               NT2_KIND           the kind, at 0
 *               NT2_ASSIGNMENT_ID  the ID
 *               NT2_UNKNOWN_ID     the ID
 *             It is 0 with NT2_UNSOUND, NT2_NO_SUCH_CONNECTION, NT2_STATE and NT2_FULL.
 * Where nothing is said they are 0.
 */
typedef struct {
    uint8_t reason;
    uint8_t number;
    uint16_t id;
    uint16_t distance;
    size_t place;
} nt2_reason;

/* What came of a line record: 0 or a refusal, and the records that were done before the end or the
 * refusal. */
typedef struct {
    uint8_t number;
    size_t records;
} nt2_replayed;

/* An entry's value as a flag or a number. A NaN is answered as some NaN. */
typedef struct {
    uint8_t number;
    uint8_t found;
    bool flag;
    double value;
} nt2_scalar;

/* The copy's answer: number, revision reported, bytes taken and the place of a fault. */
typedef struct {
    uint8_t number;
    uint16_t revision;
    size_t taken;
    size_t place;
} nt2_copied;

/* A message's fields. A name starts at byte 3, a value ends at byte `taken`. A refusal has number
 * and place alone. */
typedef struct {
    uint8_t number;
    uint8_t kind;
    uint8_t type_code;
    uint16_t revision;
    uint16_t id;
    uint16_t entry_number;
    size_t taken;
    size_t name_length;
    size_t value_length;
    size_t place;
} nt2_fields;

/* A server's table: 64 heads, 20,480 bytes, a count and 16 connection marks, or more of them. */

/* The count is 0 and all connections are closed. */
nt2_answer nt2_fresh(nt2_head *heads, size_t heads_length, uint8_t *bytes, size_t bytes_length,
                     uint16_t *count, uint8_t *marks, size_t marks_length);

/* Opens a closed connection. */
nt2_answer nt2_open(nt2_head *heads, size_t heads_length, uint8_t *bytes, size_t bytes_length,
                    uint16_t *count, uint8_t *marks, size_t marks_length, size_t connection);

/* Closes a connection that is open or greeted. */
nt2_answer nt2_leave(nt2_head *heads, size_t heads_length, uint8_t *bytes, size_t bytes_length,
                     uint16_t *count, uint8_t *marks, size_t marks_length, size_t connection);

/* Takes the first message of a client's bytes. */
nt2_answer nt2_receive(nt2_head *heads, size_t heads_length, uint8_t *bytes, size_t bytes_length,
                       uint16_t *count, uint8_t *marks, size_t marks_length, size_t connection,
                       const uint8_t *message, size_t message_length, uint8_t *out,
                       size_t out_length);

/* Takes a client's messages in order, each as nt2_receive does, until one is refused, no input is
 * left or 64 are taken. The table is judged once. NT2_UNSOUND, NT2_NO_SUCH_CONNECTION and, for a
 * closed connection, NT2_STATE come first, without input too.
 *
 * The output has, for each message that is done, a heading and the bytes to be sent. The heading is
 * the recipients (2 bytes) and the number of these bytes (4 bytes), both big endian. All that was
 * written is to be sent, whatever the answer's number is.
 *
 * A message is refused with NT2_ROOM if heading and bytes do not fit together; one that is ignored
 * needs no room. NT2_HEADING + NT2_LONGEST_HELLO_ANSWER bytes have room for any message, so one that
 * had no room behind others has it in a further delivery.
 */
nt2_delivered nt2_deliver(nt2_head *heads, size_t heads_length, uint8_t *bytes,
                          size_t bytes_length, uint16_t *count, uint8_t *marks,
                          size_t marks_length, size_t connection, const uint8_t *input,
                          size_t input_length, uint8_t *out, size_t out_length);

/* Says why nt2_receive would take, ignore or refuse the first message of a client's bytes: names the
 * check that decides it, and the number. Changes nothing.
 *
 * The number is that of nt2_receive for this table, connection and message, lent
 * NT2_LONGEST_HELLO_ANSWER bytes of output, so NT2_ROOM is never the reason. No check before the one
 * that is named fails. Bytes behind the message are not looked at.
 */
nt2_reason nt2_why(nt2_head *heads, size_t heads_length, uint8_t *bytes, size_t bytes_length,
                   uint16_t *count, uint8_t *marks, size_t marks_length, size_t connection,
                   const uint8_t *message, size_t message_length);

/* Runs a line record again: makes a fresh start, so that any contents will do, and then the calls that
 * the records stand for. Nothing is sent.
 *
 * The bytes that came in from a connection are gathered, and their messages taken as nt2_receive does,
 * with room for whatever it sends. With NT2_INCOMPLETE they are held until more came in. With another
 * refusal all that are held are dropped, and the connection leaves. Leaving, or a hello for another
 * revision, drops them too. Bytes for a closed connection are dropped. An opening or leaving that is
 * refused changes nothing.
 *
 * Bytes of NT2_PLANT are messages too: an assignment with ID 0xFFFF is a call of nt2_create, an update
 * one of nt2_write; their sequence numbers are not looked at. Any other message is refused. With
 * NT2_INCOMPLETE they are held, with another refusal all that are held are dropped.
 *
 * All this is no refusal of the run, nor are bytes held at the end. It is refused with NT2_UNSOUND if
 * memory is too small, which changes nothing; with NT2_KIND at a record of an unknown kind, or with
 * bytes for a connection above NT2_PLANT; with NT2_INCOMPLETE at a record that is cut. The fresh start
 * and the records before that one stand.
 */
nt2_replayed nt2_replay(nt2_head *heads, size_t heads_length, uint8_t *bytes, size_t bytes_length,
                        uint16_t *count, uint8_t *marks, size_t marks_length,
                        const uint8_t *record, size_t record_length);

/* Creates an entry for the plant's own code. */
nt2_answer nt2_create(nt2_head *heads, size_t heads_length, uint8_t *bytes, size_t bytes_length,
                      uint16_t *count, uint8_t *marks, size_t marks_length, const uint8_t *name,
                      size_t name_length, uint8_t type_code, const uint8_t *value,
                      size_t value_length, uint8_t *out, size_t out_length);

/* Writes an entry's value for the plant's own code: NT2_IGNORED where its value has these bytes already,
 * whatever its type. Minus zero differs from plus zero, and a NaN is equal to one with the same bytes
 * only. */
nt2_answer nt2_write(nt2_head *heads, size_t heads_length, uint8_t *bytes, size_t bytes_length,
                     uint16_t *count, uint8_t *marks, size_t marks_length, uint16_t id,
                     const uint8_t *value, size_t value_length, uint8_t *out, size_t out_length);

/* Writes the saved form of a server's table or of a copy. Changes nothing but the output, and that
 * not behind the form.
 *
 * It has NT2_SAVED_FIRST bytes and NT2_SAVED_ENTRY for each entry, at most NT2_LONGEST_SAVED, which
 * `sent` says; with less room it is refused with NT2_ROOM. A table has one saved form, whatever stands
 * behind its names and values, or in entries that it does not use.
 */
nt2_answer nt2_save(nt2_head *heads, size_t heads_length, uint8_t *bytes, size_t bytes_length,
                    uint16_t *count, uint8_t *out, size_t out_length);

/* Loads a saved table in place of the entries that there are. All of it is judged before anything is
 * changed. The entries are those that were saved, with their IDs and numbers.
 *
 * NT2_UNSOUND comes first, then NT2_STATE if a connection is not closed. Then the bytes are judged
 * from the first to the last: a field that is not wholly there is NT2_INCOMPLETE. A value is judged
 * as one of nt2_create, with the length that is saved. NT2_FILLING is judged behind the name or value,
 * NT2_NAME_HELD (an earlier entry has this name) behind the entry's record, and bytes left behind the
 * last record are NT2_TOO_LONG. Done, all bytes are taken.
 *
 * It changes the count, and of the entries below it heads, names and values alone: filling is not
 * stored, so bytes behind names and values stay, and so do other entries and the marks.
 */
nt2_answer nt2_load(nt2_head *heads, size_t heads_length, uint8_t *bytes, size_t bytes_length,
                    uint16_t *count, uint8_t *marks, size_t marks_length, const uint8_t *saved,
                    size_t saved_length);

/* Reads an entry of a server's table or of a copy. Changes nothing. */
nt2_scalar nt2_read(nt2_head *heads, size_t heads_length, uint8_t *bytes, size_t bytes_length,
                    uint16_t *count, uint16_t id);

/* Single messages. */

/* Writes a message from its fields; those that its kind lacks are not looked at. */
nt2_answer nt2_encode(uint8_t kind, uint16_t revision, const uint8_t *name, size_t name_length,
                      uint8_t type_code, uint16_t id, uint16_t entry_number, const uint8_t *value,
                      size_t value_length, uint8_t *out, size_t out_length);

/* Reads a message's fields; an update's type is given. */
nt2_fields nt2_decode(const uint8_t *bytes, size_t bytes_length, uint8_t update_type);

/* A client's copy: 64 heads, 20,480 bytes and a count, or more of them. */

/* The count is 0. */
nt2_answer nt2_copy_fresh(nt2_head *heads, size_t heads_length, uint8_t *bytes,
                          size_t bytes_length, uint16_t *count);

/* Takes the first message of a server's bytes. */
nt2_copied nt2_copy_receive(nt2_head *heads, size_t heads_length, uint8_t *bytes,
                            size_t bytes_length, uint16_t *count, const uint8_t *message,
                            size_t message_length);

#ifdef __cplusplus
}
#endif

#endif
