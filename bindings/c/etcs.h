/* Balise telegrams and radio messages of ETCS: the codec for callers of C and C++.
 *
 *     uint8_t telegram[27] = ..;
 *     etcs_field fields[ETCS_MOST_FIELDS];
 *     etcs_answer answer = {0};
 *     switch (etcs_fields(ETCS_SHORT, telegram, sizeof telegram, fields, ETCS_MOST_FIELDS, &answer)) {
 *     case ETCS_OK:      the variables are fields[0] to fields[answer.written - 1]
 *     case ETCS_REFUSED: bit answer.bit, in variable answer.var, is refused
 *     case ETCS_MORE:    these bytes begin a telegram but hold no whole one
 *     }
 *
 * Each function here is proved to return and to write what its comment describes, with two exceptions: what is written of
 * why a line is refused (etcs_explain_json, etcs_json_reason); and the words of a meaning (etcs_meaning), and whether there
 * are any, unless the number stands for something special. When ETCS_NO_MEMORY is returned isn't proved, except that etcs_refusal never
 * returns it for a refused bit. etcs_help.h has helpers written in C
 * on top of them: names of variables and statuses, look-up of a variable, a reader of pieces.
 *
 * Memory: all buffers are the caller's, and no call keeps a pointer to them. Calls allocate by malloc and free all of it
 * before they return; there is nothing to free, open or close.
 * Threads: each call is a function of its arguments, so any thread may call at any time with buffers of its own.
 *
 * What the caller must ensure, since nothing checks it:
 *   - a pointer points to as many bytes, fields, places or telegrams as its length says, fewer than 2^63 bytes; if its length is
 *     0 it may be null; answer, group and reason are never null;
 *   - a pointer to an answer, a group, a reason, fields, places or telegrams is aligned as its type is;
 *   - out, group, reason and answer overlap neither each other nor what is read;
 *   - no call is made from a signal handler, nor in the forked child of a process with threads;
 *   - there are 32 KiB of stack; for etcs_from_json, etcs_explain_json and etcs_json_reason 64 KiB, since lists and objects
 *     may be nested, up to 127 deep.
 *
 * What stays the same in each version of libetcs.so.1: these calls, the structs with their members, sizes and order, and
 * the numbers of kinds, statuses and variables. Later versions may add calls, statuses and variables after them.
 */
#ifndef ETCS_H
#define ETCS_H

#include <stddef.h>
#include <stdint.h>

/* The version of this header, as a string and as a number that grows: 10,000 for each major version, 100 for each minor. */
#define ETCS_VERSION "0.2.0"
#define ETCS_VERSION_NUMBER 200

#ifdef __cplusplus
extern "C" {
#endif

/* What the bytes hold. */
enum {
    ETCS_LONG = 1,  /* balise telegrams of 830 user bits, 104 bytes */
    ETCS_SHORT = 2, /* of 210, 27 bytes */
    ETCS_RADIO = 3, /* radio messages to the train, at most 1,023 bytes */
    ETCS_TRAIN = 4  /* radio messages from the train to the track, at most 1,023 bytes */
};

/* How a call ended. A status is returned only in the case that its line describes, and ETCS_NO_MEMORY may be returned in
 * place of any but ETCS_UNKNOWN_KIND. The comment of each call lists what it returns with each status. */
enum {
    ETCS_OK = 0,           /* done */
    ETCS_MORE = 1,         /* the bytes begin an item but hold no whole one: call again with more bytes after them */
    ETCS_REFUSED = 2,      /* the bit answer.bit, in variable answer.var, is the first that no item can have */
    ETCS_NO_ROOM = 3,      /* out is shorter than answer.written bytes, fields or places, and is unchanged */
    ETCS_NO_MEMORY = 4,    /* out of memory; out is unchanged */
    ETCS_UNKNOWN_KIND = 5, /* the kind is none of the above; out is unchanged */
    ETCS_BAD_JSON = 6,     /* no item of the kind has this JSON */
    ETCS_BAD_FIELDS = 7,   /* a number doesn't fit its width, or the item that their bits begin with has other fields */
    ETCS_EMPTY_LINE = 8,   /* the line is blank, or a comment */
    ETCS_NO_DIGITS = 9,    /* no digits are found in the line, by the rule of etcs_line_bytes */
    ETCS_ODD_DIGITS = 10,  /* the number of the line's digits is odd: answer.taken of them */
    /* a telegram doesn't belong to the group of those before it */
    ETCS_CLASH_POSITION = 11,  /* its N_PIG is above N_TOTAL */
    ETCS_CLASH_DUPLICATE = 12, /* it is the first with M_DUP 2, or the last with M_DUP 1 */
    ETCS_CLASH_GROUP = 13,     /* its NID_C or NID_BG differs */
    ETCS_CLASH_TOTAL = 14,     /* its N_TOTAL differs */
    ETCS_CLASH_COUNTER = 15,   /* its M_MCOUNT doesn't agree: 254 agrees with none, 255 with all others */
    ETCS_CLASH_DIFFERS = 16    /* another telegram is at its position */
};

/* Room that is enough for any item: for its bytes, and for its fields, each of which has at least a bit. */
#define ETCS_MOST_BYTES 1023
#define ETCS_MOST_FIELDS 8192

typedef uint32_t etcs_kind;
typedef uint32_t etcs_status;

/* What a call returns besides its status: the members that the call's comment names with the status; the others have no
 * meaning. Begin with etcs_answer a = {0}. */
typedef struct etcs_answer {
    size_t taken;   /* how many of the bytes the item takes, or what the call's comment says */
    size_t written; /* how many bytes, fields or places were written, or with ETCS_NO_ROOM would have been */
    size_t bit;     /* the first refused bit, counted from 0, which is the top bit of the first byte */
    char var[32];   /* the name of the variable that holds it, or that the caller named, as a string */
} etcs_answer;

/* A variable of an item. A field has up to 64 of the bits that are kept as they are (FILL, OTHER_DATA, PADDING), or of
 * PAD; the first of them is the highest bit of its number. A run of 150 is three fields, of 64, 64 and 22 bits. */
typedef struct etcs_field {
    uint64_t number;
    uint32_t var;   /* which variable: ETCS_VAR_... of etcs_vars.h */
    uint32_t width; /* how many bits its number takes: a field begins at the sum of the widths before it */
} etcs_field;

/* Where a field of an item is. */
typedef struct etcs_place {
    size_t packet; /* which packet it is of, counted from 1, packet 255 of a telegram among them; 0 if it is of none */
    size_t entry;  /* which entry of a repeated group (after N_ITER, or L_TEXT), counted from 1; 0 if it is in none */
    size_t inner;  /* which entry of a repeated group inside that one, counted from 1; 0 if it is in none */
} etcs_place;

/* A telegram of either size. */
typedef struct etcs_telegram {
    uint32_t kind;      /* ETCS_LONG or ETCS_SHORT */
    uint8_t bytes[104]; /* its bytes; those after the 27 of a short one are ignored */
} etcs_telegram;

/* What telegrams of a balise group make together. */
typedef struct etcs_group {
    uint8_t missing[8];   /* for each of the positions 0 to 7: 1 if it is missing, else 0 */
    uint32_t is_complete; /* 1 if there is a telegram and no position is missing, else 0 */
} etcs_group;

/* Why no number may come that begins with the bits up to a refused one: etcs_reason.cause. */
enum {
    ETCS_SPARE = 0, /* the tables have none, whatever is left of the item */
    ETCS_UNFIT = 1  /* the tables have some, etcs_reason.unfit being one of them, but none of them fits there */
};

/* What comes there, as far as it limits the numbers of the variable: etcs_reason.here. */
enum {
    ETCS_ANY = 0,            /* a variable with any number that it admits (SUBSET-026, 7.5) */
    ETCS_MESSAGE_LENGTH = 1, /* L_MESSAGE of message nid */
    ETCS_PACKET_NUMBER = 2,  /* NID_PACKET, where room bits are left */
    ETCS_PACKET_LENGTH = 3,  /* L_PACKET of packet nid, where room bits are left */
    ETCS_ROW = 4             /* a variable of packet nid after L_PACKET, where room bits are left of the packet */
};

/* Which members of an etcs_reason are there: etcs_reason.has is the sum of theirs. */
enum {
    ETCS_HAS_NUMBER = 1,
    ETCS_HAS_BELOW = 2,
    ETCS_HAS_ABOVE = 4,
    ETCS_HAS_ROOM = 8,
    ETCS_HAS_NID = 16
};

/* Why a bit is refused: no number of its variable may come there that begins with the variable's bits up to it. A member that
 * isn't there is 0. Numbers are as they are sent: of L_PACKET bits, of L_MESSAGE bytes, of a distance without Q_SCALE. */
typedef struct etcs_reason {
    uint64_t bits;   /* the bits of the variable up to and with the refused one, as a number, the first one highest */
    uint64_t count;  /* how many bits these are: at least 1, and at most the variable's width */
    uint64_t number; /* ETCS_HAS_NUMBER: the variable's number, if the bytes, up to 1,023, have all of its bits */
    uint64_t below;  /* ETCS_HAS_BELOW: the greatest number that may come there of those below all that begin with bits */
    uint64_t above;  /* ETCS_HAS_ABOVE: the least number that may come there of those above them */
    uint64_t unfit;  /* with ETCS_UNFIT: a number that begins with bits and that the tables have; else 0 */
    uint64_t room;   /* ETCS_HAS_ROOM: how many bits are left, with the variable, of its packet; for ETCS_PACKET_NUMBER and
                        ETCS_PACKET_LENGTH of the telegram's user bits or the message, from the packet's first bit on */
    uint32_t cause;  /* ETCS_SPARE or ETCS_UNFIT */
    uint32_t here;   /* what comes there: ETCS_ANY and so on */
    uint32_t nid;    /* ETCS_HAS_NID: the number of the message whose length comes there, or of the packet it is in */
    uint32_t has;    /* which members are there */
} etcs_reason;

/* In the comments below, the members of answer, or group, or reason, that a status comes with are named after it. */

/* Whether the bytes begin with an item. Bytes after the item are ignored.
 *     ETCS_OK       they do: taken
 *     ETCS_MORE     they begin an item but hold no whole one
 *     ETCS_REFUSED  no item continues with a bit: bit, var */
etcs_status etcs_check(etcs_kind kind, const uint8_t *bytes, size_t len, etcs_answer *answer);

/* The same, and the item's text, as that of item number item. It is not a string: written bytes, without a zero after them.
 *     ETCS_OK, ETCS_NO_ROOM  taken, written; else as etcs_check, and out is unchanged */
etcs_status etcs_show(etcs_kind kind, uint64_t item, const uint8_t *bytes, size_t len, uint8_t *out, size_t room,
                      etcs_answer *answer);

/* The same, and the item's JSON, a line without its LF. It is not a string either.
 *     ETCS_OK, ETCS_NO_ROOM  taken, written; else as etcs_check, and out is unchanged */
etcs_status etcs_to_json(etcs_kind kind, const uint8_t *bytes, size_t len, uint8_t *out, size_t room,
                         etcs_answer *answer);

/* The same, and all of the item's fields, in the order of sending.
 *     ETCS_OK, ETCS_NO_ROOM  taken, written; else as etcs_check, and out is unchanged */
etcs_status etcs_fields(etcs_kind kind, const uint8_t *bytes, size_t len, etcs_field *out, size_t room,
                        etcs_answer *answer);

/* As etcs_fields, but what is written is the place of each of these fields, in their order: of a packet 5 the first link has
 * entry 0, and a NID_C with entry 2 is that of the third.
 *     ETCS_OK, ETCS_NO_ROOM  taken, written; else as etcs_check, and out is unchanged */
etcs_status etcs_places(etcs_kind kind, const uint8_t *bytes, size_t len, etcs_place *out, size_t room,
                        etcs_answer *answer);

/* The bytes of the item whose JSON this is, at most 1,023. A line may have any length.
 *     ETCS_OK, ETCS_NO_ROOM  written
 *     ETCS_BAD_JSON          no item has this JSON; out is unchanged
 *     ETCS_REFUSED           it is older JSON, with bits of packets that are typed by now, and no item has these bits:
 *                            bit, var; out is unchanged */
etcs_status etcs_from_json(etcs_kind kind, const uint8_t *line, size_t len, uint8_t *out, size_t room,
                           etcs_answer *answer);

/* The bytes of the item that has exactly these fields, in the order of sending, as etcs_fields writes them, with var and
 * width of each. If no item of the kind has these fields, out is unchanged, and the status is one of the last three.
 *     ETCS_OK, ETCS_NO_ROOM  written
 *     ETCS_BAD_FIELDS        a number has more bits than its width, or a width is above 64; or the numbers' bits, one
 *                            after another up to the last whole byte, begin with an item, which has other fields
 *     ETCS_MORE              the fields fit, and these bits begin an item but hold no whole one
 *     ETCS_REFUSED           the fields fit, and no item continues with one of these bits, however many they are: bit, var */
etcs_status etcs_from_fields(etcs_kind kind, const etcs_field *fields, size_t len, uint8_t *out, size_t room,
                             etcs_answer *answer);

/* ---- What numbers mean, the digits of lines, and balise groups. */

/* What a number of a variable means, in the words of `etcs explain`, in ASCII and without a zero after it, and the
 * variable's name. For NID_PACKET and NID_MESSAGE it is what the standard calls the packet, of this kind, or the message. A
 * distance is in metres by scale, the Q_SCALE of its packet or message; if scale is none of 0, 1 and 2, it has no meaning.
 * Many other variables, and bits that are kept, have no meaning either: written is then 0. The words may differ in the next
 * version. Only the words for a number that stands for something special, such as 1023 of T_LOA, are proved; for any other
 * number neither the words are, nor whether there are any.
 *     ETCS_OK, ETCS_NO_ROOM  var; written
 *     ETCS_BAD_FIELDS        no variable has the number var; out is unchanged */
etcs_status etcs_meaning(etcs_kind kind, uint32_t var, uint64_t number, uint32_t scale, uint8_t *out, size_t room,
                         etcs_answer *answer);

/* The bytes that the hexadecimal digits of a line stand for, by the rule of `etcs log`: the digits at its end, in groups or
 * not, with or without `0x`, after whatever is in front of them, such as a time. The line has no LF.
 *     ETCS_OK, ETCS_NO_ROOM  written, which is 1 or more
 *     ETCS_EMPTY_LINE        it is blank, or its first character that isn't a blank is #; out is unchanged
 *     ETCS_NO_DIGITS         the line doesn't end in digits, and there is no run of 20 digits, in groups or not, before its
 *                            end; digits that touch any other letter don't count, since they are part of a word; out is
 *                            unchanged
 *     ETCS_ODD_DIGITS        taken, which is how many digits it has, an odd number; out is unchanged */
etcs_status etcs_line_bytes(const uint8_t *line, size_t len, uint8_t *out, size_t room, etcs_answer *answer);

/* How many bytes are before the digits of a line, those of etcs_line_bytes, not counting blanks, tabs and CRs just before
 * the digits; if it has no digits, how many it has, not counting blanks, tabs and CRs at its end. A byte order mark, EF BB
 * BF, at its start isn't counted either: the bytes begin after it, or at the line's first byte if it begins with none. A
 * comment is treated as any other line: for "# dead" this is 1, since "dead" is four digits. */
size_t etcs_line_front(const uint8_t *line, size_t len);

/* What telegrams of one balise group make together (SUBSET-026, 3.16.2.4), in whatever order they came. Each is added to
 * those before it; one that is equal to the one at its position changes nothing. To put a group together, keep its telegrams
 * in an array, call this with all of them each time that one comes, and remove the last one if it isn't held.
 *     ETCS_OK  each is held: group
 *   Else telegram number taken, from 0, is the first that isn't held, and group is unchanged:
 *     ETCS_REFUSED       no telegram of its kind continues with a bit: bit, var
 *     ETCS_UNKNOWN_KIND  its kind is neither of the two
 *     ETCS_NO_MEMORY     out of memory for it
 *     ETCS_CLASH_..      why it doesn't belong to the group of those before it; if there are several reasons, the first */
etcs_status etcs_assemble(const etcs_telegram *telegrams, size_t count, etcs_group *group, etcs_answer *answer);

/* The version of the library, which may differ from that of the header, as a string with its zero. If the library was built
 * without a proof, " unproved" is its end.
 *     ETCS_OK, ETCS_NO_ROOM  written, which counts the zero */
etcs_status etcs_version(uint8_t *out, size_t room, etcs_answer *answer);

/* ---- Why input is no item. These five write only if it is refused; else out, or reason, is unchanged. */

/* As etcs_check, and why a refused bit is refused: a sentence in UTF-8, without a capital, a full stop or a zero after it,
 * as "message 6 has 10 or 13 to 1023 bytes, not 11". The words may differ in the next version; etcs_refusal has the numbers.
 *     ETCS_OK                     taken; written, which is 0
 *     ETCS_MORE                   written, which is 0
 *     ETCS_REFUSED, ETCS_NO_ROOM  bit, var; written, which is 1 or more */
etcs_status etcs_explain(etcs_kind kind, const uint8_t *bytes, size_t len, uint8_t *out, size_t room,
                         etcs_answer *answer);

/* As etcs_check, and why a refused bit is refused, as numbers: those of which etcs_explain makes its sentence. A refused bit
 * is always reported, also if there is no memory.
 *     ETCS_OK       taken; reason is unchanged
 *     ETCS_MORE     the bytes begin an item but hold no whole one; reason is unchanged
 *     ETCS_REFUSED  bit, var; reason */
etcs_status etcs_refusal(etcs_kind kind, const uint8_t *bytes, size_t len, etcs_reason *reason, etcs_answer *answer);

/* As etcs_check, and for a refused bit the fields of all variables before the one that holds it, in the order of sending, as
 * etcs_fields writes them: they are the first bits of the bytes, from their end to bit are fewer bits than that variable has,
 * and in an item of the kind it follows them.
 *     ETCS_OK                     taken; written, which is 0
 *     ETCS_MORE                   written, which is 0
 *     ETCS_REFUSED, ETCS_NO_ROOM  bit, var; written */
etcs_status etcs_fields_before(etcs_kind kind, const uint8_t *bytes, size_t len, etcs_field *out, size_t room,
                               etcs_answer *answer);

/* As etcs_from_json, but no encoding is written; and if no item has the line as its JSON, why: the path of the first part
 * that is wrong and the reason, as ".packets[0].fields[0]: Q_SRSTOP admits 0 and 1, not 2", or where it stops being JSON.
 *     ETCS_OK        written, which is 0
 *     ETCS_BAD_JSON  written, which is 1 or more
 *     ETCS_REFUSED   bit, var; written, which is 1 or more
 *     ETCS_NO_ROOM   the same as one of the last two */
etcs_status etcs_explain_json(etcs_kind kind, const uint8_t *line, size_t len, uint8_t *out, size_t room,
                              etcs_answer *answer);

/* As etcs_explain_json, but what is written is the reason as data, an object of JSON without blanks, as
 * {"column":null,"expected":"an object","found":"a list","path":".","reason":".: expected an object, found a list"}:
 *     column    a number: the character, counted from 1, at which the line stops being JSON or is nested too deep
 *     expected  what has to be at the path, if that is one thing
 *     found     what is there in its place
 *     path      of the first part that is wrong, as jq writes it
 *     reason    the text that etcs_explain_json writes
 * The first four are null where there is none. The words may differ in the next version. */
etcs_status etcs_json_reason(etcs_kind kind, const uint8_t *line, size_t len, uint8_t *out, size_t room,
                             etcs_answer *answer);

#ifdef __cplusplus
}
#endif

#endif
