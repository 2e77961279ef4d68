/* Calls every function of gwirandol.h in each way and in both forms of a message, tries the traps that numbers without a type
 * leave open, and says what went wrong. Compiled with warnings as errors, as C and as C++. */
#include "gwirandol.h"

#include <stdio.h>
#include <string.h>

/* A form of messages: the option that names it, how many bytes stand before the PCF header, and how many bytes of user data
 * behind the PCF part. */
struct form {
    const char *name;
    uint32_t options;
    size_t before;
    size_t user;
};

static const struct form forms[] = {{"plain", 0, 0, 0},
                                    {"embedded, without user data", GW_OPTION_EMBEDDED, 32, 0},
                                    {"embedded, with one byte of user data", GW_OPTION_EMBEDDED, 32, 1},
                                    {"embedded, with user data that are longer than the group", GW_OPTION_EMBEDDED, 32, 150}};

enum { FORMS = sizeof forms / sizeof forms[0], PCF_PART = 180, MOST = 65536 };

static int failures = 0;
static const char *tried = "any form";

static void expect(bool holds, const char *what)
{
    if (!holds) {
        printf("not so (%s): %s\n", tried, what);
        failures++;
    }
}

static const uint32_t sheet[GW_ATTRIBUTES] = GW_IBM_SHEET;
static const uint32_t values[GW_ATTRIBUTES] = {GW_MQROUTE_DETAIL_LOW, 0, 0, 0, 2, GW_MQROUTE_ACCUMULATE_AND_REPLY,
                                               GW_MQROUTE_FORWARD_ALL, GW_MQROUTE_DELIVER_NO};
static const uint32_t fields[GW_FIELDS] = {0x01020304, 0xFFFFFFFF, 0x80000001};
static const uint8_t format[GW_FORMAT_BYTES] = {'M', 'Q', 'S', 'T', 'R', ' ', 0, 0xFF};

/* An Activity group of one string, 3012, "hop 1" and blanks, from byte 36 on. */
static const uint8_t group[] = {
    0, 0, 0, 20, 0, 0, 0, 16, 0, 0, 0x1f, 0x45, 0, 0, 0, 1,
    0, 0, 0, 4,  0, 0, 0, 28, 0, 0, 0x0b, 0xc4, 0, 0, 0, 0, 0, 0, 0, 8, 'h', 'o', 'p', ' ', '1', ' ', ' ', ' '};

static uint8_t message[600];
static uint8_t report[100];
static uint8_t text[GW_LISTING_BYTES];
static uint8_t user_data[MOST];

static void put_word(uint8_t *at, uint32_t value)
{
    for (int k = 0; k < 4; k++)
        at[k] = (uint8_t)(value >> (24 - 8 * k));
}

/* User data that read like structures, for who would go on behind the PCF part: integers, each with another value, so that a byte
 * at a wrong place shows. */
static void make_user_data(void)
{
    for (uint32_t k = 0; k < MOST / 16; k++) {
        put_word(user_data + 16 * k, 3);
        put_word(user_data + 16 * k + 4, 16);
        put_word(user_data + 16 * k + 8, 1234);
        put_word(user_data + 16 * k + 12, k);
    }
}

static size_t length_of(const struct form *f)
{
    return f->before + PCF_PART + f->user;
}

/* Every bit but the named ones, in this form. */
static uint32_t all_but(const struct form *f, uint32_t named)
{
    return (~named & ~(uint32_t)GW_OPTION_EMBEDDED) | f->options;
}

/* A composed trace with one value of its own, in a buffer of its own. */
static gw_answer composed(const struct form *f, enum gw_attribute attribute, uint32_t value, uint8_t *buffer, size_t size)
{
    uint32_t changed[GW_ATTRIBUTES];
    memcpy(changed, values, sizeof changed);
    changed[attribute] = value;
    return gw_compose(sheet, changed, f->options, fields, format, user_data, f->user, buffer, size);
}

/* What compose must write: a plain message, or one with the embedded header before it and the user data behind it. */
static void put_together(const struct form *f, const uint8_t plain[PCF_PART], uint8_t *buffer)
{
    memcpy(buffer + f->before, plain, PCF_PART);
    memcpy(buffer + f->before + PCF_PART, user_data, f->user);
    if (f->before != 0) {
        memcpy(buffer, "EPH ", 4);
        put_word(buffer + 4, 1);
        put_word(buffer + 8, 32 + PCF_PART);
        put_word(buffer + 12, fields[GW_FIELD_ENCODING]);
        put_word(buffer + 16, fields[GW_FIELD_CODED_CHAR_SET_ID]);
        memcpy(buffer + 20, format, GW_FORMAT_BYTES);
        put_word(buffer + 28, fields[GW_FIELD_FLAGS]);
    }
}

static void composing(const struct form *f)
{
    static uint8_t plain[PCF_PART], due[sizeof message];
    size_t length = length_of(f);
    memset(message, 0xEE, sizeof message);
    memset(due, 0xEE, sizeof due);
    expect(gw_compose(values, values, f->options, fields, format, user_data, f->user, message, 0) == GW_REFUSED_SHEET, "values are no sheet");
    expect(gw_compose(sheet, sheet, f->options, fields, format, user_data, f->user, message, 0) == GW_REFUSED_ATTRIBUTE, "a sheet is no values");
    expect(gw_compose(sheet, values, f->options, fields, format, user_data, f->user, message, length - 1) == GW_REFUSED_NO_ROOM, "one byte too few");
    expect(memcmp(message, due, sizeof message) == 0, "refused, nothing is written");
    expect(gw_compose(sheet, values, f->options, fields, format, user_data, f->user, message, length) == length * 32, "and room enough");
    expect(gw_compose_plain(sheet, values, plain, sizeof plain - 1) == GW_REFUSED_NO_ROOM, "the short way has its refusals");
    expect(gw_compose_plain(sheet, values, plain, sizeof plain) == PCF_PART * 32, "the short way is plain");
    put_together(f, plain, due);
    expect(memcmp(message, due, sizeof message) == 0, "header, PCF part and user data, and what is behind them stays");
}

/* What only compose is given. */
static void compose_arguments(void)
{
    static uint8_t longest[MOST + 1];
    const uint32_t embedded = GW_OPTION_EMBEDDED;
    const size_t most = MOST - 32 - PCF_PART;
    expect(gw_compose(sheet, values, 0, fields, format, user_data, MOST, longest, PCF_PART) == PCF_PART * 32, "plain, user data are not looked at");
    expect(memcmp(longest + 4, "\0\0\0\x24", 4) == 0 && longest[PCF_PART] == 0, "nor written");
    expect(gw_compose(sheet, values, ~embedded, fields, format, NULL, 0, longest, sizeof longest) == PCF_PART * 32, "no other bit makes it embedded");
    expect(gw_compose(sheet, values, UINT32_MAX, fields, format, NULL, 0, longest, sizeof longest) == (32 + PCF_PART) * 32, "nor plain");
    expect(gw_compose(sheet, values, embedded, fields, format, user_data, most, longest, MOST) == MOST * 32, "65,536 bytes are a message");
    expect(gw_check(longest, sizeof longest, MOST, embedded) == 9 * 32, "and a sound one");
    expect(gw_compose(sheet, values, embedded, fields, format, user_data, most + 1, longest, sizeof longest) == GW_REFUSED_NO_ROOM, "one more are none");
}

static void structures(const struct form *f)
{
    uint32_t counts[27];
    gw_row row;
    const size_t length = length_of(f), size = sizeof message, first = f->before + 36, end = f->before + PCF_PART;
    char line[40];
    snprintf(line, sizeof line, "pcf 10 75 1 %u\n", (unsigned)length);
    expect(gw_check(message, size, length, f->options) == 9 * 32, "a composed message has nine structures");
    expect(gw_tally(message, size, length, f->options, counts) == 9 * 32 && counts[3] == 8 && counts[20] == 1, "eight integers and a group");
    gw_answer listed = gw_list(message, size, length, f->options, text);
    expect(gw_number(listed) == 0 && memcmp(text, line, strlen(line)) == 0, "the listing's first line has the whole length");
    snprintf(line, sizeof line, "1 %u 20 8003 16\n", (unsigned)first);
    expect(memcmp(text + 16, line, strlen(line)) == 0, "places count from the message's first byte");
    expect(memcmp(text + gw_value(listed) - 6, "end 9\n", 6) == 0, "the listing's last line");
    expect(gw_step(message, size, length, f->options, first, 1, &row) == 0 && row.place == first && row.type == 20 && row.members == 8 && row.next == first + 16, "the first structure");
    expect(gw_step(message, size, length, f->options, end, 1, &row) == GW_REFUSED_STRUCTURE && row.type == 20, "none at the end, and the row stays");
    expect(gw_step(message, size, length, f->options, end + 16, 1, &row) == GW_REFUSED_STRUCTURE && row.type == 20, "nor in user data");
    expect(gw_step(message, size, length, f->options, first, 9, &row) == GW_REFUSED_DEPTH && row.depth == 1, "a group of depth 9");
}

static void traces(const struct form *f)
{
    static const uint32_t no_fields[GW_FIELDS] = {0, 0, 0};
    static const uint8_t no_format[GW_FORMAT_BYTES] = {0, 0, 0, 0, 0, 0, 0, 0};
    const bool embedded = f->before != 0;
    const size_t length = length_of(f), size = sizeof message;
    uint32_t read[GW_ATTRIBUTES], read_fields[GW_FIELDS] = {7, 7, 7};
    uint8_t read_format[GW_FORMAT_BYTES] = {7, 7, 7, 7, 7, 7, 7, 7};
    gw_part part = {7, 7};
    gw_answer answer = gw_read(message, size, length, sheet, f->options, read, read_fields, read_format);
    expect(answer == (f->before + PCF_PART) * 32, "the user data's place is read, plain the message's length");
    expect(memcmp(read, values, sizeof values) == 0, "the values are read back");
    expect(memcmp(read_fields, embedded ? fields : no_fields, sizeof fields) == 0, "the fields are read back, plain they are zeros");
    expect(memcmp(read_format, embedded ? format : no_format, sizeof format) == 0, "and so is the format");
    expect(memcmp(message + gw_value(answer), user_data, length - gw_value(answer)) == 0, "and the user data are there");
    expect(gw_arrive(message, size, length, sheet, f->options) == GW_DECIDED_WITHHOLD * 32, "deliver no withholds");
    gw_activity_group(message, size, length, sheet, f->options, 0, &part);
    expect(part.place == 0 && part.length == 0, "no Activity group yet");
    expect(!gw_named_string(message, size, length, sheet, f->options, 0, 3012, &part), "so no name");
    static uint8_t medium[sizeof message];
    expect(composed(f, GW_ATTR_DETAIL, GW_LEVEL_MEDIUM, medium, size) == length * 32, "a level's number is a value of Detail");
    answer = gw_read(medium, size, length, sheet, f->options, read, read_fields, read_format);
    expect(gw_number(answer) == 0 && read[GW_ATTR_DETAIL] == GW_MQROUTE_DETAIL_MEDIUM, "and composes a medium trace");
}

static void forwarding(const struct form *f)
{
    static uint8_t only[sizeof message], put[sizeof message];
    const size_t length = length_of(f), size = sizeof message;
    const uint32_t supports = GW_OPTION_REMOTE_SUPPORTS;
    expect(gw_forward(message, size, length, sheet, f->options) == GW_DECIDED_FORWARD * 32, "all are forwarded");
    composed(f, GW_ATTR_FORWARD, GW_MQROUTE_FORWARD_IF_SUPPORTED, only, size);
    expect(gw_forward(only, size, length, sheet, f->options | supports) == GW_DECIDED_FORWARD * 32, "if supported, to one that supports");
    expect(gw_forward(only, size, length, sheet, f->options) == GW_REFUSED_NOT_FORWARDED, "and not to one that does not");
    expect(gw_forward(only, size, length, sheet, all_but(f, supports)) == GW_REFUSED_NOT_FORWARDED, "all other bits are ignored");
    expect(gw_forward(only, size, length, sheet, all_but(f, 0)) == GW_DECIDED_FORWARD * 32, "beside the one that counts too");
    composed(f, GW_ATTR_DELIVER, GW_MQROUTE_DELIVER_YES, put, size);
    expect(gw_arrive(put, size, length, sheet, f->options) == GW_DECIDED_PUT * 32, "deliver yes puts");
}

/* What an activity must leave of a composed message: the group between PCF part and user data, which move back, its header's
 * count and its RecordedActivities one higher, and the embedded header's StrucLength higher by the group's length. */
static void append_by_hand(const struct form *f, uint8_t *buffer)
{
    uint8_t *end = buffer + f->before + PCF_PART;
    memmove(end + sizeof group, end, f->user);
    memcpy(end, group, sizeof group);
    put_word(buffer + f->before + 32, 2);
    put_word(buffer + f->before + 52 + GW_ATTR_RECORDED_ACTIVITIES * 16 + 12, 1);
    if (f->before != 0)
        put_word(buffer + 8, 32 + PCF_PART + sizeof group);
}

/* Goes on with the message that was composed. */
static void events(const struct form *f)
{
    static uint8_t due[sizeof message];
    gw_done done;
    gw_part part;
    const size_t before = length_of(f), size = sizeof message;
    const uint32_t options = f->options | GW_OPTION_REPORTS_ASKED | GW_OPTION_ACTIVITY_RECORDING | GW_OPTION_TRACE_ROUTE_MESSAGING;
    memcpy(due, message, sizeof due);
    expect(gw_activity(message, before + sizeof group - 1, before, sheet, options, GW_LEVEL_LOW, group, sizeof group, report, sizeof report, &done) == GW_REFUSED_NO_ROOM, "no room for the group");
    expect(gw_activity(message, size, before, sheet, options, GW_LEVEL_LOW, group, sizeof group, report, 36 + sizeof group - 1, &done) == GW_REFUSED_REPORT_TOO_SHORT, "nor for the report");
    expect(gw_activity(message, size, before, sheet, options, GW_LEVEL_LOW, NULL, 0, report, sizeof report, &done) == GW_REFUSED_GROUP, "no group");
    expect(memcmp(message, due, sizeof due) == 0, "refused, nothing changes");
    gw_answer answer = gw_activity(message, before + sizeof group, before, sheet, options, GW_LEVEL_LOW, group, sizeof group, report, sizeof report, &done);
    const size_t length = gw_value(answer);
    expect(gw_number(answer) == 0 && length == before + sizeof group, "an activity is appended");
    append_by_hand(f, due);
    expect(memcmp(message, due, sizeof due) == 0, "between PCF part and user data, and no other byte changes");
    expect(done.counter == GW_ATTR_RECORDED_ACTIVITIES && done.appended == 1 && done.report_length == 36 + sizeof group && done.message_length == length, "what it did");
    expect(gw_check(report, sizeof report, done.report_length, 0) == 2 * 32, "its report is a message, and plain");
    gw_activity_group(message, size, length, sheet, f->options, 0, &part);
    expect(part.place == f->before + PCF_PART && part.length == sizeof group, "the group is there");
    expect(gw_named_string(message, size, length, sheet, f->options, 0, 3012, &part) && part.length == 5 && memcmp(message + part.place, "hop 1", 5) == 0, "a name");
    expect(gw_discontinuity(message, size, length, sheet, f->options, &done) == length * 32 && done.counter == GW_ATTR_DISCONTINUITY_COUNT, "a discontinuity is counted");
    put_word(due + f->before + 52 + GW_ATTR_DISCONTINUITY_COUNT * 16 + 12, 1);
    expect(memcmp(message, due, sizeof due) == 0, "and no other byte changes");
    expect(gw_discontinuity(message, size, length, sheet, f->options, &done) == 32 + GW_REFUSED_MAX_ACTIVITIES, "the limit is reached, and a reply is owed");
    expect(memcmp(message, due, sizeof due) == 0, "which changes nothing");
}

/* 65,536 bytes are the whole message's, user data included. */
static void longest_message(void)
{
    static uint8_t longest[MOST + 1];
    const uint32_t options = GW_OPTION_EMBEDDED | GW_OPTION_TRACE_ROUTE_MESSAGING;
    for (size_t more = 0; more < 2; more++) {
        gw_done done = {9, 9, 9, 9};
        const size_t user = MOST - 32 - PCF_PART - sizeof group + more;
        size_t length = gw_value(gw_compose(sheet, values, options, fields, format, user_data, user, longest, sizeof longest));
        gw_answer answer = gw_activity(longest, sizeof longest, length, sheet, options, GW_LEVEL_LOW, group, sizeof group, NULL, 0, &done);
        if (more == 0) {
            expect(answer == (gw_answer)MOST * 32, "a group is appended up to 65,536 bytes");
            length = MOST;
        } else {
            expect(answer == GW_REFUSED_NO_ROOM, "and not beyond");
        }
        expect(memcmp(longest + length - user, user_data, user) == 0, "and the user data are unharmed");
    }
}

/* Eight bytes of a string's structure: the first of them are its data, and the first of these its name. */
static void names(const struct form *f)
{
    static const struct { char bytes[9]; uint8_t data, name; } strings[] = {
        {"        ", 8, 0}, {"\0\0\0\0\0\0\0\0", 8, 0}, {" \0\0 \0  \0", 8, 0}, {"A \0 \0\0 \0", 8, 1},
        {"A\0B\0 \0  ", 8, 3}, {"A B \0  \0", 8, 3}, {"\0 A\0\0\0\0\0", 8, 3}, {" \0 \0 \0 A", 8, 8},
        {"A\x1f\0 \x21   ", 8, 5}, {"AAAAAAAA", 0, 0}, {"A  AAAAA", 3, 1}, {"A\0\0AAAAA", 3, 1}};
    const uint32_t recorded = f->options | GW_OPTION_ACTIVITY_RECORDING | GW_OPTION_TRACE_ROUTE_MESSAGING;
    const size_t length = length_of(f) + sizeof group, place = f->before + PCF_PART + 36;
    for (size_t k = 0; k < sizeof strings / sizeof strings[0]; k++) {
        static uint8_t named[sizeof group], trace[sizeof message];
        gw_done done;
        gw_part part = {7, 7};
        memcpy(named, group, sizeof group);
        named[35] = strings[k].data;
        memcpy(named + 36, strings[k].bytes, 8);
        composed(f, GW_ATTR_DETAIL, GW_MQROUTE_DETAIL_LOW, trace, sizeof trace);
        gw_answer answer = gw_activity(trace, sizeof trace, length_of(f), sheet, recorded, GW_LEVEL_LOW, named, sizeof named, report, sizeof report, &done);
        expect(gw_number(answer) == 0 && done.appended == 1, "a group is appended, whatever is in its strings");
        expect(gw_named_string(trace, sizeof trace, length, sheet, f->options, 0, 3012, &part), "a string is there, whatever its bytes");
        expect(part.place == place && part.length == strings[k].name, "a name ends before its trailing blanks and zero bytes");
        expect(!gw_named_string(trace, sizeof trace, length, sheet, f->options, 0, 3013, &part), "a string of another name is not");
        expect(part.place == place && part.length == strings[k].name, "and the part stays");
    }
}

/* What an activity with these options and this level does to a trace of this Detail. */
static gw_done entered(const struct form *f, uint32_t detail, uint32_t options, uint32_t level)
{
    static uint8_t trace[sizeof message];
    gw_done done = {9, 9, 9, 9};
    composed(f, GW_ATTR_DETAIL, detail, trace, sizeof trace);
    gw_activity(trace, sizeof trace, length_of(f), sheet, options, level, group, sizeof group, report, sizeof report, &done);
    return done;
}

static void levels(const struct form *f)
{
    const uint32_t every = f->options | GW_OPTION_REPORTS_ASKED | GW_OPTION_ACTIVITY_RECORDING | GW_OPTION_TRACE_ROUTE_MESSAGING;
    static const uint32_t details[3] = {GW_MQROUTE_DETAIL_LOW, GW_MQROUTE_DETAIL_MEDIUM, GW_MQROUTE_DETAIL_HIGH};
    static const uint32_t given[3] = {GW_LEVEL_LOW, GW_LEVEL_MEDIUM, GW_LEVEL_HIGH};
    /* each level under Detail low, medium and high */
    static const bool recorded[3][3] = {{true, true, true}, {false, true, true}, {false, false, true}};
    static const uint32_t others[] = {0, 1, 3, 4, 7, 9, 16, 31, 33, 0x80000008u, UINT32_MAX};
    for (int level = 0; level < 3; level++)
        for (int detail = 0; detail < 3; detail++) {
            expect(given[level] == details[level], "a level is Detail's value");
            gw_done done = entered(f, details[detail], every, given[level]);
            expect(done.counter == (recorded[level][detail] ? GW_ATTR_RECORDED_ACTIVITIES : GW_ATTR_UNRECORDED_ACTIVITIES)
                       && done.appended == recorded[level][detail] && (done.report_length != 0) == recorded[level][detail],
                   "the nine pairs of level and Detail");
        }
    expect(entered(f, GW_MQROUTE_DETAIL_MEDIUM, every, 8).appended == 1, "a level of 8 is medium");
    expect(entered(f, GW_MQROUTE_DETAIL_LOW, every, 8).appended == 0, "and not low");
    for (size_t k = 0; k < sizeof others / sizeof others[0]; k++)
        expect(entered(f, GW_MQROUTE_DETAIL_LOW, every, others[k]).appended == 1, "any other number counts as low");
}

static void options(const struct form *f)
{
    const uint32_t none = all_but(f, GW_OPTION_REPORTS_ASKED | GW_OPTION_ACTIVITY_RECORDING | GW_OPTION_TRACE_ROUTE_MESSAGING);
    for (uint32_t bits = 0; bits < 8; bits++)
        for (int more = 0; more < 2; more++) {
            gw_done done = entered(f, GW_MQROUTE_DETAIL_LOW, bits | (more ? none : f->options), GW_LEVEL_LOW);
            bool reported = (bits & GW_OPTION_REPORTS_ASKED) && (bits & GW_OPTION_ACTIVITY_RECORDING);
            bool appended = (bits & GW_OPTION_TRACE_ROUTE_MESSAGING) != 0;
            expect((done.report_length != 0) == reported, "reported where it is asked for and recorded");
            expect((done.appended == 1) == appended, "appended where trace routes are messaged; other bits are ignored");
            expect(done.counter == (reported || appended ? GW_ATTR_RECORDED_ACTIVITIES : GW_ATTR_UNRECORDED_ACTIVITIES), "recorded if either");
        }
}

/* A message that each function refuses with a number, at place 0, or finds nothing in; and no byte of anything lent changes, but
 * for the counts and the part that have a value of their own for it. */
struct refused {
    const uint8_t *bytes;
    size_t size;
    size_t length;
    uint32_t options;
    uint32_t number;
    const char *why;
};

static void structures_refused(const struct refused *m)
{
    static uint8_t marked[GW_LISTING_BYTES];
    uint32_t counts[27];
    gw_row row = {7, 7, 7, 7, 7, 7, 7};
    memset(text, '#', sizeof text);
    memset(marked, '#', sizeof marked);
    memset(counts, 0xFF, sizeof counts);
    expect(gw_check(m->bytes, m->size, m->length, m->options) == m->number, m->why);
    expect(gw_tally(m->bytes, m->size, m->length, m->options, counts) == m->number, m->why);
    for (int k = 0; k < 27; k++)
        expect(counts[k] == 0, "a refused tally is zero");
    expect(gw_list(m->bytes, m->size, m->length, m->options, text) == m->number && memcmp(text, marked, sizeof text) == 0, m->why);
    expect(m->number == GW_REFUSED_HEADER || gw_step(m->bytes, m->size, m->length, m->options, 68, 1, &row) == m->number, m->why);
    expect(row.depth == 7 && row.place == 7 && row.next == 7, "and the row stays");
}

static void traces_refused(const struct refused *m)
{
    uint32_t read[GW_ATTRIBUTES] = {7, 7, 7, 7, 7, 7, 7, 7}, read_fields[GW_FIELDS] = {7, 7, 7};
    uint8_t read_format[GW_FORMAT_BYTES] = {7, 7, 7, 7, 7, 7, 7, 7};
    gw_part part = {7, 7};
    expect(gw_read(m->bytes, m->size, m->length, sheet, m->options, read, read_fields, read_format) == m->number, m->why);
    for (int k = 0; k < 8; k++)
        expect(read[k] == 7 && read_fields[k % 3] == 7 && read_format[k] == 7, "values, fields and format stay");
    expect(gw_read(m->bytes, m->size, m->length, values, m->options, read, read_fields, read_format) == GW_REFUSED_SHEET, "the sheet comes first");
    expect(gw_forward(m->bytes, m->size, m->length, sheet, m->options) == m->number, m->why);
    expect(gw_arrive(m->bytes, m->size, m->length, sheet, m->options) == m->number, m->why);
    expect(!gw_named_string(m->bytes, m->size, m->length, sheet, m->options, 0, 3012, &part) && part.place == 7 && part.length == 7, "no name");
    gw_activity_group(m->bytes, m->size, m->length, sheet, m->options, 0, &part);
    expect(part.place == 0 && part.length == 0, "and no group");
}

static void events_refused(const struct refused *m)
{
    static uint8_t left[sizeof message], marked[sizeof report];
    gw_done done = {7, 7, 7, 7};
    const uint32_t every = m->options | GW_OPTION_REPORTS_ASKED | GW_OPTION_ACTIVITY_RECORDING | GW_OPTION_TRACE_ROUTE_MESSAGING;
    memset(report, '#', sizeof report);
    memset(marked, '#', sizeof marked);
    memcpy(left, m->bytes, m->size);
    expect(gw_discontinuity(left, m->size, m->length, sheet, m->options, &done) == m->number, m->why);
    expect(gw_activity(left, m->size, m->length, sheet, every, GW_LEVEL_LOW, group, sizeof group, report, sizeof report, &done) == m->number, m->why);
    expect(gw_activity(left, m->size, m->length, sheet, every, GW_LEVEL_LOW, NULL, 0, NULL, 0, &done) == m->number, "also where the group is none");
    expect(memcmp(left, m->bytes, m->size) == 0 && memcmp(report, marked, sizeof report) == 0, "message and report stay");
    expect(done.counter == 7 && done.appended == 7 && done.report_length == 7 && done.message_length == 7, "and what was done");
}

static void refused(const uint8_t *bytes, size_t size, size_t length, uint32_t option, uint32_t number, const char *why)
{
    const struct refused m = {bytes, size, length, option, number, why};
    structures_refused(&m);
    traces_refused(&m);
    events_refused(&m);
}

static void lengths(const struct form *f)
{
    const size_t least = f->before + 36, length = length_of(f), size = sizeof message;
    static const uint8_t nothing[1] = {0};
    composed(f, GW_ATTR_DETAIL, GW_LEVEL_LOW, message, size);
    refused(message, size, least - 1, f->options, GW_REFUSED_LENGTH, "35 bytes are too few, embedded 67");
    refused(message, size, 0, f->options, GW_REFUSED_LENGTH, "no bytes are too few");
    refused(message, length - 1, length, f->options, GW_REFUSED_LENGTH, "a message is no longer than its buffer");
    refused(message, size, SIZE_MAX, f->options, GW_REFUSED_LENGTH, "nor than any");
    refused(nothing, 0, 0, f->options, GW_REFUSED_LENGTH, "an empty buffer");
    expect(gw_check(NULL, 0, 0, f->options) == GW_REFUSED_LENGTH, "which may be a null pointer");
    put_word(message + f->before + 32, 0);
    if (f->before != 0)
        put_word(message + 8, 68);
    expect(gw_check(message, size, least, f->options) == 0, "36 bytes are a message without structures, embedded 68");
}

/* The embedded header's three fields that are judged, each with every number of a list; the message is else sound. */
static void embedded_headers(const struct form *f)
{
    const uint32_t length = (uint32_t)length_of(f), next = (length + 4) / 4 * 4;
    const uint32_t identifiers[] = {0, 0x45504800, 0x00504820, 0x45004820, 0x45500020, 0x65706820, 0xC5D7C840, 0x20485045};
    const uint32_t versions[] = {0, 2, 36, 0x01000000, 0x80000001, UINT32_MAX};
    const uint32_t ends[] = {0, 4, 32, 36, 64, 65, 66, 67, 69, 70, 71, 32 + PCF_PART - 1, 32 + PCF_PART + 2, next, next + 4,
                             MOST, MOST + 4, 0x80000000, 0x80000000 + 32 + PCF_PART, UINT32_MAX - 3, UINT32_MAX, 0xD4000000};
    static uint8_t wrong[sizeof message];
    const struct { size_t place; const uint32_t *numbers; size_t count; const char *why; } causes[] = {
        {0, identifiers, sizeof identifiers / sizeof identifiers[0], "an identifier that is not EPH and a blank"},
        {4, versions, sizeof versions / sizeof versions[0], "a version that is not 1"},
        {8, ends, sizeof ends / sizeof ends[0], "a length below 68, above the message or no multiple of 4"}};
    for (size_t cause = 0; cause < 3; cause++)
        for (size_t k = 0; k < causes[cause].count; k++) {
            composed(f, GW_ATTR_DETAIL, GW_LEVEL_LOW, wrong, sizeof wrong);
            put_word(wrong + causes[cause].place, causes[cause].numbers[k]);
            refused(wrong, sizeof wrong, length, f->options, GW_REFUSED_EMBEDDED_HEADER, causes[cause].why);
            refused(wrong, sizeof wrong, 67, f->options, GW_REFUSED_LENGTH, "but the length comes first");
            put_word(wrong + 36, 35);
            refused(wrong, sizeof wrong, length, f->options, GW_REFUSED_EMBEDDED_HEADER, "and the PCF header later");
        }
}

/* The PCF part's end is the embedded header's, and not the message's. */
static void embedded_ends(void)
{
    const struct form *f = &forms[3];
    const size_t length = length_of(f), size = sizeof message;
    const uint32_t end = 32 + PCF_PART;
    composed(f, GW_ATTR_DETAIL, GW_LEVEL_LOW, message, size);
    put_word(message + 36, 35);
    refused(message, size, length, f->options, GW_REFUSED_HEADER, "a PCF header of 35 bytes");
    composed(f, GW_ATTR_DETAIL, GW_LEVEL_LOW, message, size);
    put_word(message + 8, end + 16);
    expect(gw_check(message, size, length, f->options) == end * 32 + GW_REFUSED_LEFT_OVER, "user data inside the PCF part are left over");
    put_word(message + f->before + 32, 2);
    expect(gw_check(message, size, length, f->options) == 10 * 32, "or a structure, if they are counted");
    put_word(message + 8, end);
    expect(gw_check(message, size, length, f->options) == end * 32 + GW_REFUSED_STRUCTURE, "but not from behind the PCF part");
    put_word(message + f->before + 32, 1);
    put_word(message + 8, end - 4);
    expect(gw_check(message, size, length, f->options) == (end - 16) * 32 + GW_REFUSED_STRUCTURE, "nor goes a structure on there");
}

/* No function guesses. */
static void the_other_form(void)
{
    composed(&forms[0], GW_ATTR_DETAIL, GW_LEVEL_LOW, message, sizeof message);
    refused(message, sizeof message, length_of(&forms[0]), GW_OPTION_EMBEDDED, GW_REFUSED_EMBEDDED_HEADER, "plain, but read as embedded");
    composed(&forms[3], GW_ATTR_DETAIL, GW_LEVEL_LOW, message, sizeof message);
    refused(message, sizeof message, length_of(&forms[3]), 0, GW_REFUSED_HEADER, "embedded, but read as plain");
}

static void feedbacks(void)
{
    for (uint32_t number = 0; number < 300; number++) {
        uint32_t due = number == GW_REFUSED_MAX_ACTIVITIES ? 282
            : number == GW_REFUSED_NOT_FORWARDED ? 283
            : number == GW_REFUSED_UNSUPPORTED_FORWARDING ? 285
            : number == GW_REFUSED_UNSUPPORTED_DELIVERY ? 286 : 0;
        expect(gw_feedback(number) == due, "IBM's feedback codes, and 0 for all other numbers");
    }
    expect(GW_MQFB_MAX_ACTIVITIES == 282 && GW_MQFB_NOT_FORWARDED == 283, "their names");
    expect(GW_MQFB_UNSUPPORTED_FORWARDING == 285 && GW_MQFB_UNSUPPORTED_DELIVERY == 286, "their names, too");
    expect(gw_feedback(UINT32_MAX) == 0, "none for the highest number");
}

/* The number's words in a text that was filled before: a zero byte behind them, and the filling behind that. */
static void said(uint32_t number)
{
    char lent[GW_WORDS_BYTES];
    memset(lent, '#', sizeof lent);
    size_t bytes = gw_words(number, lent);
    expect(bytes > 0 && bytes < GW_WORDS_BYTES && strlen(lent) == bytes, "words, and a zero byte behind them");
    for (size_t at = bytes + 1; at < sizeof lent; at++)
        expect(lent[at] == '#', "what is behind the words stays");
    expect(strcmp(gw_in_words(number).text, lent) == 0, "the same words as a value");
}

static void words(void)
{
    const char *unknown = "no refusal has this number";
    for (uint32_t number = 0; number < 40; number++) {
        said(number);
        expect((strcmp(gw_in_words(number).text, unknown) == 0) == (number > GW_REFUSED_EMBEDDED_HEADER), "0 to 18 have words, and no others");
        for (uint32_t other = 0; other < number && number <= 18; other++)
            expect(strcmp(gw_in_words(number).text, gw_in_words(other).text) != 0, "every refusal has words of its own");
    }
    said(UINT32_MAX);
    expect(strcmp(gw_in_words(GW_ACCEPTED).text, "accepted") == 0, "0 is accepted");
    expect(strcmp(gw_in_words(19).text, unknown) == 0, "19 is no refusal");
    expect(strcmp(gw_in_words(UINT32_MAX).text, unknown) == 0, "nor is the highest number");
    expect(strcmp(gw_in_words(GW_REFUSED_NO_ROOM).text,
                  "there is no room: the message would be longer than the buffer or than 65,536 bytes") == 0, "12 fits every function");
}

static void version(void)
{
    char written[32];
    expect(gw_version() == GW_VERSION, "header and library have one version");
    snprintf(written, sizeof written, "%d.%d.%d", GW_VERSION_MAJOR, GW_VERSION_MINOR, GW_VERSION_PATCH);
    expect(strcmp(written, GW_VERSION_TEXT) == 0, "and the text says the same");
}

/* Every function in one form. */
static void all_in(const struct form *f)
{
    struct form noisy = *f;
    noisy.options = all_but(f, 0);
    tried = f->name;
    composing(f);
    composing(&noisy);
    structures(f);
    structures(&noisy);
    traces(f);
    traces(&noisy);
    forwarding(f);
    events(f);
    names(f);
    levels(f);
    options(f);
    lengths(f);
    if (f->before != 0)
        embedded_headers(f);
    tried = "any form";
}

int main(void)
{
    make_user_data();
    for (int k = 0; k < FORMS; k++)
        all_in(&forms[k]);
    compose_arguments();
    longest_message();
    embedded_ends();
    the_other_form();
    feedbacks();
    words();
    version();
    if (failures == 0) {
        printf("every function does what it should\n");
    }
    return failures != 0;
}
