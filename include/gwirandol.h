/* Gwirandol: IBM MQ trace-route messages (PCF), checked, listed, composed, read and changed by proved code.
 *
 * Link with libgwirandol.a. No function allocates, keeps state, or reads outside what it is lent, and every function
 * answers for every input: any bytes, any length up to SIZE_MAX, any place, depth, level, options and sheet. Any number of
 * threads may call any of them at any time, as long as no two use the same memory and one of them writes it. A pointer that
 * comes with a size may be null only if the size is 0; every other pointer must be there. What is lent for writing must not
 * overlap anything else that is lent.
 *
 * A message is the first `length` bytes of a lent buffer of `size` bytes. Numbers in it have four bytes, the highest first.
 * A place is counted from the message's first byte. Structures at the top level have depth 1, the members of a group one
 * more than the group.
 *
 * A message has one of two forms, which the caller says and no function guesses. A plain message is a PCF header and its
 * structures, and nothing else. An embedded one (GW_OPTION_EMBEDDED) has an embedded header of 32 bytes, IBM's MQEPH, before
 * the PCF header, and behind the last structure the sender's own data, of any length. The PCF part is the same in both, and
 * whatever is said of a header or a structure below is said of it; it ends where the embedded header's StrucLength says.
 * `length` is the whole message's, user data included.
 *
 * The examples below go on from each other. They are compiled and run by the project's tests, in a function that has
 *
 *     static uint8_t buffer[65536], text[GW_LISTING_BYTES], report[65536];
 *     static const uint32_t sheet[GW_ATTRIBUTES] = GW_IBM_SHEET;
 *     size_t length;
 *
 * and an Activity group in `group`. */
#ifndef GWIRANDOL_H
#define GWIRANDOL_H

#include <stdbool.h>
#include <stddef.h>
#include <stdint.h>

#ifdef __cplusplus
extern "C" {
#endif

#define GW_VERSION_MAJOR 0
#define GW_VERSION_MINOR 5
#define GW_VERSION_PATCH 0
#define GW_VERSION (GW_VERSION_MAJOR * 1000000 + GW_VERSION_MINOR * 1000 + GW_VERSION_PATCH)
#define GW_VERSION_TEXT "0.5.0"

/* THE VERSION of the library that is linked, as GW_VERSION is that of this header.
 *
 *     if (gw_version() != GW_VERSION)
 *         printf("header and library do not belong together\n"); */
uint32_t gw_version(void);

/* ANSWERS. A number answered is a gw_answer: gw_number() of it is 0, or the number of the refusal; gw_value() is what the
 * function gives, or the refusal's place in the message. A refusal changes no byte of anything lent, but for the two results
 * that have a value of their own for it: the counts of gw_tally, all 0, and the part of gw_activity_group, 0 and 0. */
typedef uint64_t gw_answer;

/* 0, or the number of the refusal. */
static inline uint32_t gw_number(gw_answer answer) { return (uint32_t)(answer % 32); }

/* What was given; of a refusal its place, and of GW_REFUSED_MAX_ACTIVITIES, whose place is 0, whether a reply is owed: 1 if
 * Accumulate is GW_MQROUTE_ACCUMULATE_AND_REPLY, else 0. */
static inline uint64_t gw_value(gw_answer answer) { return answer / 32; }

/* THE REFUSALS. Their place is 0 unless another is named. */
enum gw_refusal {
    GW_ACCEPTED = 0,
    GW_REFUSED_LENGTH = 1,                  /* length above the buffer or 65,536, or below 36, embedded 68 */
    GW_REFUSED_HEADER = 2,                  /* StrucLength not 36, Version not 1 to 3, or count of 2^31 or more */
    GW_REFUSED_STRUCTURE = 3,               /* structure: unknown type, length, count, or past the end; its start */
    GW_REFUSED_DEPTH = 4,                   /* group deeper than 8; its start */
    GW_REFUSED_LEFT_OVER = 5,               /* bytes left over; the first one */
    GW_REFUSED_TRACE_HEADER = 6,            /* not a trace-route header */
    GW_REFUSED_TRACE_ROUTE = 7,             /* TraceRoute group absent or repeated */
    GW_REFUSED_ATTRIBUTE = 8,               /* attribute absent, repeated, mistyped or out of range */
    GW_REFUSED_GROUP = 9,                   /* lent Activity group not sound */
    GW_REFUSED_MAX_ACTIVITIES = 10,         /* MaxActivities not 0, and the counters' sum plus one above it */
    GW_REFUSED_COUNTER_FULL = 11,           /* the counter to raise is 2^31 - 1 */
    GW_REFUSED_NO_ROOM = 12,                /* the message would be longer than the buffer or than 65,536 */
    GW_REFUSED_REPORT_TOO_SHORT = 13,       /* a report is due and its buffer is too short */
    GW_REFUSED_UNSUPPORTED_DELIVERY = 14,   /* Deliver has an unknown option, a bit of 0xFFFF0000 */
    GW_REFUSED_UNSUPPORTED_FORWARDING = 15, /* Forward has an unknown option, a bit of 0xFFFF0000 */
    GW_REFUSED_NOT_FORWARDED = 16,          /* Forward "if supported", and the remote manager does not */
    GW_REFUSED_SHEET = 17,                  /* sheet: a number out of range or two equal */
    GW_REFUSED_EMBEDDED_HEADER = 18         /* not "EPH ", Version not 1, or a StrucLength below 68, above the message or
                                               no multiple of 4 */
};

/* Where several apply, the first in this order is given: 17 where there is a sheet; 1; 18 where the message is embedded; 2; of
 * 3 and 4 the one at the lowest place, 3 before 4 at one structure; 5 to 13, by their numbers. 14, 15 and 16 come last, as
 * gw_forward says. By function:
 *
 *   gw_compose, gw_compose_plain  17  8  12
 *   gw_check, gw_tally, gw_list   1  18  2  3 and 4  5
 *   gw_step                       1  18  3  4
 *   gw_read                       17  1  18  2  3 and 4  5  6  7  8
 *   gw_forward                    gw_read's  14  15  16
 *   gw_arrive                     gw_read's  14
 *   gw_discontinuity              gw_read's  10  11
 *   gw_activity                   gw_read's  9  10  11  12  13
 *
 * gw_activity_group and gw_named_string have no number: where gw_read refuses, they find nothing. */

/* A REFUSAL IN WORDS, for people: writes the words of a number and a zero byte behind them to the start of the text, where
 * they always fit; what is behind stays. Gives how many bytes the words have, the zero byte not counted. 0 is "accepted", and
 * a number above 18 is "no refusal has this number".
 *
 *     char words[GW_WORDS_BYTES];
 *     gw_words(GW_REFUSED_SHEET, words);
 *     printf("%s\n", words); */
#define GW_WORDS_BYTES 128
size_t gw_words(uint32_t refusal, char text[GW_WORDS_BYTES]);

/* The same as a value, for a line such as
 *
 *     printf("%s\n", gw_in_words(GW_ACCEPTED).text); */
typedef struct gw_text {
    char text[GW_WORDS_BYTES];
} gw_text;

static inline gw_text gw_in_words(uint32_t refusal)
{
    gw_text words = {{0}};
    gw_words(refusal, words.text);
    return words;
}

/* IBM's feedback codes, for the Feedback field of a message descriptor. */
enum gw_feedback_code {
    GW_MQFB_MAX_ACTIVITIES = 282,
    GW_MQFB_NOT_FORWARDED = 283,
    GW_MQFB_UNSUPPORTED_FORWARDING = 285,
    GW_MQFB_UNSUPPORTED_DELIVERY = 286
};

/* THE FEEDBACK CODE that goes with a refusal's number: 10, 16, 15 and 14 have one, in the order above; any other gives 0.
 *
 *     printf("feedback %u\n", (unsigned)gw_feedback(GW_REFUSED_MAX_ACTIVITIES)); */
uint32_t gw_feedback(uint32_t refusal);

/* THE EIGHT ATTRIBUTES of a trace, as positions in a sheet and in a list of values. */
#define GW_ATTRIBUTES 8
enum gw_attribute {
    GW_ATTR_DETAIL = 0,
    GW_ATTR_RECORDED_ACTIVITIES = 1,
    GW_ATTR_UNRECORDED_ACTIVITIES = 2,
    GW_ATTR_DISCONTINUITY_COUNT = 3,
    GW_ATTR_MAX_ACTIVITIES = 4,
    GW_ATTR_ACCUMULATE = 5,
    GW_ATTR_FORWARD = 6,
    GW_ATTR_DELIVER = 7
};

/* Their values that IBM has names for. Detail and Accumulate are one of their three. Of Forward's two bits exactly one is
 * set, and of Deliver's; other bits may be set beside it. The counters and MaxActivities are below 2^31. */
enum gw_route {
    GW_MQROUTE_DETAIL_LOW = 2,
    GW_MQROUTE_DETAIL_MEDIUM = 8,
    GW_MQROUTE_DETAIL_HIGH = 32,
    GW_MQROUTE_UNLIMITED_ACTIVITIES = 0,
    GW_MQROUTE_ACCUMULATE_NONE = 0x10003,
    GW_MQROUTE_ACCUMULATE_IN_MSG = 0x10004,
    GW_MQROUTE_ACCUMULATE_AND_REPLY = 0x10005,
    GW_MQROUTE_FORWARD_ALL = 0x100,
    GW_MQROUTE_FORWARD_IF_SUPPORTED = 0x200,
    GW_MQROUTE_DELIVER_YES = 0x1000,
    GW_MQROUTE_DELIVER_NO = 0x2000
};

/* THE LEVEL of an activity is a value of Detail: GW_LEVEL_LOW and GW_MQROUTE_DETAIL_LOW are the same number, and so on. What
 * programs do is of the low level, what channel agents do of the medium one; the high one is for what a program tells beyond
 * that. gw_activity says which levels a Detail records. */
enum gw_level {
    GW_LEVEL_LOW = 2,
    GW_LEVEL_MEDIUM = 8,
    GW_LEVEL_HIGH = 32
};

/* THE OPTIONS of a call are one value, the sum (or |) of those that hold. Every function that has options looks at
 * GW_OPTION_EMBEDDED, and else at the bits that it names; it ignores all others, those without a name included. */
enum gw_option {
    GW_OPTION_REPORTS_ASKED = 1,         /* the message's descriptor asks for activity reports */
    GW_OPTION_ACTIVITY_RECORDING = 2,    /* this queue manager does activity recording */
    GW_OPTION_TRACE_ROUTE_MESSAGING = 4, /* this queue manager does trace-route messaging */
    GW_OPTION_REMOTE_SUPPORTS = 8,       /* the remote queue manager supports trace-route messaging */
    GW_OPTION_EMBEDDED = 16              /* the message is embedded; without it, plain */
};

/* A SHEET has the identifiers of the eight attributes: eight different numbers from 1 to 2^31 - 1. These are IBM's. */
#define GW_IBM_SHEET {1234, 1235, 1257, 1237, 1236, 1238, 1259, 1239}

/* THE FIELDS of an embedded header that no function judges, as positions: what the sender says of the user data. With them
 * goes Format, eight bytes. */
#define GW_FIELDS 3
#define GW_FORMAT_BYTES 8
enum gw_field {
    GW_FIELD_ENCODING = 0,
    GW_FIELD_CODED_CHAR_SET_ID = 1,
    GW_FIELD_FLAGS = 2
};

/* COMPOSE: refusals 17, 8, 12. Writes a trace-route message to the start of the buffer and gives its length; what is behind
 * it stays. A plain message has 180 bytes; fields, format and user data play no part in it, though `fields` and `format` must
 * be there: gw_compose_plain() does without them. An embedded one has 212 bytes, with the fields and the format in its embedded
 * header, and then the user data.
 *
 *     uint32_t values[GW_ATTRIBUTES] = {0};
 *     values[GW_ATTR_DETAIL] = GW_MQROUTE_DETAIL_MEDIUM;
 *     values[GW_ATTR_MAX_ACTIVITIES] = 5;
 *     values[GW_ATTR_ACCUMULATE] = GW_MQROUTE_ACCUMULATE_IN_MSG;
 *     values[GW_ATTR_FORWARD] = GW_MQROUTE_FORWARD_ALL;
 *     values[GW_ATTR_DELIVER] = GW_MQROUTE_DELIVER_YES;
 *     length = gw_value(gw_compose_plain(sheet, values, buffer, sizeof buffer));
 *     printf("%zu bytes\n", length);
 *
 * The same message, embedded, with five bytes of user data:
 *
 *     static uint8_t around[65536];
 *     const uint32_t fields[GW_FIELDS] = {273, 819, 0};
 *     const uint8_t format[GW_FORMAT_BYTES] = {'M', 'Q', 'S', 'T', 'R', ' ', ' ', ' '};
 *     size_t whole = gw_value(gw_compose(sheet, values, GW_OPTION_EMBEDDED, fields, format, (const uint8_t *)"hello", 5,
 *                                        around, sizeof around));
 *     printf("%zu bytes, embedded\n", whole); */
gw_answer gw_compose(const uint32_t sheet[8], const uint32_t values[8], uint32_t options, const uint32_t fields[GW_FIELDS],
                     const uint8_t format[GW_FORMAT_BYTES], const uint8_t *user, size_t user_size, uint8_t *buffer,
                     size_t size);

/* COMPOSE A PLAIN MESSAGE: as gw_compose does for one, with nothing else to hand over. */
gw_answer gw_compose_plain(const uint32_t sheet[8], const uint32_t values[8], uint8_t *buffer, size_t size);

/* CHECK: refusals 1, 18, and 2 to 5. Gives the number of structures, nested ones included. User data are not judged.
 *
 *     gw_answer checked = gw_check(buffer, sizeof buffer, length, 0);
 *     if (gw_number(checked) == GW_ACCEPTED)
 *         printf("%u structures\n", (unsigned)gw_value(checked));
 *     else
 *         printf("refused at byte %u: %s\n", (unsigned)gw_value(checked), gw_in_words(gw_number(checked)).text); */
gw_answer gw_check(const uint8_t *buffer, size_t size, size_t length, uint32_t options);

/* TALLY: answers as gw_check does, and counts[k] is the number of structures of type k, nested ones included. All counts
 * are 0 if the message is refused.
 *
 *     uint32_t counts[27];
 *     if (gw_number(gw_tally(buffer, sizeof buffer, length, 0, counts)) == GW_ACCEPTED)
 *         printf("%u groups\n", (unsigned)counts[20]); */
gw_answer gw_tally(const uint8_t *buffer, size_t size, size_t length, uint32_t options, uint32_t counts[27]);

/* LIST: refusals 1, 18, and 2 to 5. Writes the listing's text, which always fits, and gives its length; what is behind it
 * stays. The length in its first line is the whole message's.
 *
 *     gw_answer listed = gw_list(buffer, sizeof buffer, length, 0, text);
 *     if (gw_number(listed) == GW_ACCEPTED)
 *         fwrite(text, 1, gw_value(listed), stdout); */
#define GW_LISTING_BYTES 131072
gw_answer gw_list(const uint8_t *buffer, size_t size, size_t length, uint32_t options, uint8_t text[GW_LISTING_BYTES]);

/* READ: refusals 17, 1, 18, then 2 to 8. Gives the place of the user data, which go on to the message's end, and writes the
 * eight values, and the fields and the format of the embedded header. A plain message has no user data, so that their place is
 * its length, and zeros for the rest. Refused, all three stay.
 *
 *     uint32_t read[GW_ATTRIBUTES], read_fields[GW_FIELDS];
 *     uint8_t read_format[GW_FORMAT_BYTES];
 *     if (gw_number(gw_read(buffer, sizeof buffer, length, sheet, 0, read, read_fields, read_format)) == GW_ACCEPTED)
 *         printf("at most %u activities\n", (unsigned)read[GW_ATTR_MAX_ACTIVITIES]);
 *     gw_answer user = gw_read(around, sizeof around, whole, sheet, GW_OPTION_EMBEDDED, read, read_fields, read_format);
 *     if (gw_number(user) == GW_ACCEPTED)
 *         printf("%.8s: %.*s\n", (const char *)read_format, (int)(whole - gw_value(user)),
 *                (const char *)around + gw_value(user)); */
gw_answer gw_read(const uint8_t *buffer, size_t size, size_t length, const uint32_t sheet[8], uint32_t options,
                  uint32_t values[8], uint32_t fields[GW_FIELDS], uint8_t format[GW_FORMAT_BYTES]);

enum gw_decision {
    GW_DECIDED_FORWARD = 1,
    GW_DECIDED_PUT = 2,
    GW_DECIDED_WITHHOLD = 3
};

/* FORWARDING to a remote queue manager, which supports trace-route messaging if the options have GW_OPTION_REMOTE_SUPPORTS,
 * and does not if they have not: refusals as gw_read's, then 14, 15 and 16. Gives GW_DECIDED_FORWARD. In three steps:
 *
 *   1. A manager without support: 14 if Deliver has an unknown option; else Deliver yes forwards the message, and Forward is
 *   not looked at.
 *   2. Not decided yet: 15 if Forward has an unknown option.
 *   3. Not decided yet: forwarded, but for a manager without support where Forward says "if supported", which gives 16.
 *
 *     gw_answer forward = gw_forward(buffer, sizeof buffer, length, sheet, GW_OPTION_REMOTE_SUPPORTS);
 *     if (gw_number(forward) == GW_ACCEPTED)
 *         printf("forwarded\n");
 *     else
 *         printf("not forwarded, with feedback %u\n", (unsigned)gw_feedback(gw_number(forward))); */
gw_answer gw_forward(const uint8_t *buffer, size_t size, size_t length, const uint32_t sheet[8], uint32_t options);

/* ARRIVAL: refusals as gw_read's, then 14 if Deliver has an unknown option. Gives GW_DECIDED_PUT for Deliver yes, and
 * GW_DECIDED_WITHHOLD for Deliver no.
 *
 *     gw_answer arrival = gw_arrive(buffer, sizeof buffer, length, sheet, 0);
 *     if (gw_number(arrival) == GW_ACCEPTED)
 *         printf("%s\n", gw_value(arrival) == GW_DECIDED_PUT ? "put on the queue" : "withheld"); */
gw_answer gw_arrive(const uint8_t *buffer, size_t size, size_t length, const uint32_t sheet[8], uint32_t options);

/* WHAT AN ACCEPTED EVENT DID: which counter rose (GW_ATTR_RECORDED_ACTIVITIES, GW_ATTR_UNRECORDED_ACTIVITIES or
 * GW_ATTR_DISCONTINUITY_COUNT), whether the group was appended (1 or 0), the report's length or 0, the message's length
 * now. */
typedef struct gw_done {
    uint64_t counter;
    uint64_t appended;
    uint64_t report_length;
    uint64_t message_length;
} gw_done;

/* A DISCONTINUITY: refusals as gw_read's, then 10 and 11. Gives the message's length, which does not change. Accepted,
 * DiscontinuityCount is one higher and no other byte of the buffer changes; refused, buffer and `done` stay.
 *
 *     gw_done done;
 *     if (gw_number(gw_discontinuity(buffer, sizeof buffer, length, sheet, 0, &done)) == GW_ACCEPTED)
 *         printf("counter %u rose\n", (unsigned)done.counter); */
gw_answer gw_discontinuity(uint8_t *buffer, size_t size, size_t length, const uint32_t sheet[8], uint32_t options,
                           gw_done *done);

/* AN ACTIVITY: refusals as gw_read's, then 9 to 13. Gives the message's new length. Refused, both buffers and `done` stay.
 *
 * The lent group is one whole Activity group (8005) of 16 to 65,500 bytes, sound as at the top level, with nothing behind
 * it; any other is 9, whether or not it would be used.
 *
 * An activity whose level is higher than Detail is unrecorded, whatever the options are. The nine pairs:
 *
 *   level             Detail low       Detail medium    Detail high
 *   GW_LEVEL_LOW      recordable       recordable       recordable
 *   GW_LEVEL_MEDIUM   unrecorded       recordable       recordable
 *   GW_LEVEL_HIGH     unrecorded       unrecorded       recordable
 *
 * A level that is none of the three counts as GW_LEVEL_LOW, so that it is recordable under every Detail. A recordable
 * activity is
 *
 *   - reported if the options have GW_OPTION_REPORTS_ASKED and GW_OPTION_ACTIVITY_RECORDING: a message, of a header of 36
 *   bytes and the group, is written to the start of the report buffer, and what is behind it stays; it is always plain;
 *   - appended if Accumulate is not GW_MQROUTE_ACCUMULATE_NONE and the options have GW_OPTION_TRACE_ROUTE_MESSAGING: the
 *   group is written behind the PCF part, and the header's ParameterCount rises by one; of an embedded message the user data
 *   move back by the group's length, unharmed, and the embedded header's StrucLength rises by as much;
 *   - recorded if it is reported or appended: RecordedActivities rises by one. Else it is unrecorded too.
 *
 * Of an unrecorded activity UnrecordedActivities rises by one, and nothing else happens. 12 comes only if the group is to be
 * appended, 13 only if it is to be reported. No other byte of the buffers changes.
 *
 *     uint32_t options = GW_OPTION_REPORTS_ASKED | GW_OPTION_ACTIVITY_RECORDING | GW_OPTION_TRACE_ROUTE_MESSAGING;
 *     gw_answer applied = gw_activity(buffer, sizeof buffer, length, sheet, options, GW_LEVEL_LOW, group, sizeof group,
 *                                     report, sizeof report, &done);
 *     if (gw_number(applied) == GW_ACCEPTED) {
 *         length = gw_value(applied);
 *         printf("%zu bytes now, a report of %u\n", length, (unsigned)done.report_length);
 *     } else if (gw_number(applied) == GW_REFUSED_MAX_ACTIVITIES && gw_value(applied) == 1) {
 *         printf("the limit is reached, and a reply is owed\n");
 *     } */
gw_answer gw_activity(uint8_t *buffer, size_t size, size_t length, const uint32_t sheet[8], uint32_t options, uint32_t level,
                      const uint8_t *group, size_t group_size, uint8_t *report, size_t report_size, gw_done *done);

/* A PART of a message. */
typedef struct gw_part {
    uint64_t place;
    uint64_t length;
} gw_part;

/* THE N-TH ACTIVITY GROUP, from 0, with all that is in it: the part of the message that it is; place 0 and length 0 if there
 * is none, or if message or sheet is refused as in gw_read.
 *
 *     gw_part part;
 *     gw_activity_group(buffer, sizeof buffer, length, sheet, 0, 0, &part);
 *     printf("%u bytes from byte %u on\n", (unsigned)part.length, (unsigned)part.place); */
void gw_activity_group(const uint8_t *buffer, size_t size, size_t length, const uint32_t sheet[8], uint32_t options, size_t n,
                       gw_part *part);

/* A NAMED STRING: the first direct string with the identifier in the n-th Activity group. True, and the part of the message
 * that it is, without its trailing blanks and zero bytes, in any mixture; or false, and the part as it was: there is no such
 * string, or message or sheet is refused as in gw_read, and the caller takes its substitute, whole. A string of nothing but
 * blanks and zero bytes is there, with length 0. Before another byte they stay: a name may have zero bytes in it, so that the
 * part's length tells where it ends, and nothing else.
 *
 *     if (gw_named_string(buffer, sizeof buffer, length, sheet, 0, 0, 3012, &part))
 *         fwrite(buffer + part.place, 1, (size_t)part.length, stdout);
 *     else
 *         printf("unknown");
 *     printf("\n"); */
bool gw_named_string(const uint8_t *buffer, size_t size, size_t length, const uint32_t sheet[8], uint32_t options, size_t n,
                     uint32_t identifier, gw_part *part);

/* A STRUCTURE: depth, place, type, parameter, length; how many structures follow inside it (a group's count, else 0); and
 * the place behind this one structure, which for a group is the place of its first member. */
typedef struct gw_row {
    uint64_t depth;
    uint64_t place;
    uint64_t type;
    uint64_t parameter;
    uint64_t length;
    uint64_t members;
    uint64_t next;
} gw_row;

/* ONE STRUCTURE at any place, taken to have any depth. Gives 0 and the row, or refuses with 1, 18, 3 or 4: the place of 3 and
 * 4 is the one asked for, and gw_value() is 0. Refused, the row stays. The PCF header is not looked at. The first structure
 * stands at 36, of an embedded message at 68. Where the PCF part ends there is none, though user data may follow: the step there
 * gives 3. Of an embedded message that place is the embedded header's StrucLength, the number at byte 8; of a trace gw_read gives
 * it too.
 *
 * The depth is the caller's to know. Here `due[d]` is how many members are still to come in the open group of depth d, or of
 * the message where d is 0. A group with members is gone into; behind the last member its group is left, and with it
 * perhaps the group around that one. No group is deeper than 8, so that nine numbers suffice.
 *
 *     uint64_t due[9] = {UINT64_MAX};
 *     uint32_t depth = 1;
 *     gw_row row;
 *     for (size_t place = 36; place < length; place = row.next) {
 *         if (gw_number(gw_step(buffer, sizeof buffer, length, 0, place, depth, &row)) != GW_ACCEPTED)
 *             break;
 *         printf("%u: type %u at byte %u\n", (unsigned)depth, (unsigned)row.type, (unsigned)row.place);
 *         due[depth - 1]--;
 *         if (row.members > 0)
 *             due[depth++] = row.members;
 *         while (due[depth - 1] == 0)
 *             depth--;
 *     } */
gw_answer gw_step(const uint8_t *buffer, size_t size, size_t length, uint32_t options, size_t place, uint32_t depth,
                  gw_row *row);

#ifdef __cplusplus
}
#endif

#endif
