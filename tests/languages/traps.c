/* Tries the header's traps from C: traps VERSION, the version that pkg-config says. See run. */
#include <gwirandol.h>

#include <stdio.h>
#include <string.h>

static int failures = 0;

static void expect(bool holds, const char *what)
{
    if (!holds) {
        printf("not so from C: %s\n", what);
        failures++;
    }
}

static const uint32_t sheet[GW_ATTRIBUTES] = GW_IBM_SHEET;
static const uint32_t three = GW_OPTION_REPORTS_ASKED | GW_OPTION_ACTIVITY_RECORDING | GW_OPTION_TRACE_ROUTE_MESSAGING;

/* An Activity group (8005) of one string, 3024, "C" and blanks. */
static const uint8_t group[] = {0, 0, 0, 20, 0, 0,    0,    16, 0, 0, 0x1f, 0x45, 0, 0, 0, 1,   0,   0,   0,   4,
                                0, 0, 0, 24, 0, 0, 0x0b, 0xd0, 0, 0, 0,    0,    0, 0, 0, 4, 'C', ' ', ' ', ' '};

static uint8_t buffer[1000];
static uint8_t report[1000];

/* A sound trace but for the one value that is asked for; gives its length, or 0. */
static size_t trace(enum gw_attribute attribute, uint32_t value)
{
    uint32_t values[GW_ATTRIBUTES] = {
        [GW_ATTR_DETAIL] = GW_LEVEL_LOW,
        [GW_ATTR_ACCUMULATE] = GW_MQROUTE_ACCUMULATE_IN_MSG,
        [GW_ATTR_FORWARD] = GW_MQROUTE_FORWARD_ALL,
        [GW_ATTR_DELIVER] = GW_MQROUTE_DELIVER_NO,
    };
    values[attribute] = value;
    gw_answer answer = gw_compose_plain(sheet, values, buffer, sizeof buffer);
    return gw_number(answer) == GW_ACCEPTED ? gw_value(answer) : 0;
}

static gw_done activity(size_t length, uint32_t options, uint32_t level)
{
    gw_done done = {99, 99, 99, 99};
    gw_activity(buffer, sizeof buffer, length, sheet, options, level, group, sizeof group, report, sizeof report, &done);
    return done;
}

/* What a plain trace of this length reads as. */
static const uint32_t *values_of(size_t length)
{
    static uint32_t read[GW_ATTRIBUTES];
    uint32_t fields[GW_FIELDS];
    uint8_t format[GW_FORMAT_BYTES];
    memset(read, 0, sizeof read);
    gw_read(buffer, sizeof buffer, length, sheet, 0, read, fields, format);
    return read;
}

static void positions(void)
{
    const uint32_t *read = values_of(trace(GW_ATTR_DETAIL, GW_LEVEL_MEDIUM));
    expect(read[GW_ATTR_DETAIL] == GW_MQROUTE_DETAIL_MEDIUM, "a medium trace is composed");
    read = values_of(trace(GW_ATTR_MAX_ACTIVITIES, 7));
    expect(GW_ATTR_MAX_ACTIVITIES == 4 && read[4] == 7, "the limit has its position");
    read = values_of(trace(GW_ATTR_FORWARD, GW_MQROUTE_FORWARD_IF_SUPPORTED));
    expect(GW_ATTR_FORWARD == 6 && read[6] == GW_MQROUTE_FORWARD_IF_SUPPORTED, "forwarding has its position");
}

static void levels(void)
{
    expect(activity(trace(GW_ATTR_DETAIL, 8), three, 2).counter == GW_ATTR_RECORDED_ACTIVITIES, "low is recorded under medium");
    expect(activity(trace(GW_ATTR_DETAIL, 8), three, 8).counter == GW_ATTR_RECORDED_ACTIVITIES, "and so is medium");
    expect(activity(trace(GW_ATTR_DETAIL, 2), three, 8).counter == GW_ATTR_UNRECORDED_ACTIVITIES, "but not under low");
    expect(activity(trace(GW_ATTR_DETAIL, 8), three, 32).counter == GW_ATTR_UNRECORDED_ACTIVITIES, "nor is high under medium");
    expect(activity(trace(GW_ATTR_DETAIL, 2), three, 0).counter == GW_ATTR_RECORDED_ACTIVITIES, "any other number counts as low");
}

static void options(void)
{
    const uint32_t others = ~(three | GW_OPTION_EMBEDDED);
    static uint8_t before[sizeof buffer];
    gw_done plain = activity(trace(GW_ATTR_MAX_ACTIVITIES, 0), three, GW_LEVEL_LOW);
    memcpy(before, buffer, sizeof buffer);
    gw_done noisy = activity(trace(GW_ATTR_MAX_ACTIVITIES, 0), others | three, GW_LEVEL_LOW);
    expect(memcmp(&plain, &noisy, sizeof plain) == 0 && plain.appended == 1, "beside the form an activity looks at three bits");
    expect(memcmp(before, buffer, sizeof buffer) == 0, "and leaves the same message");
    const uint32_t alone[] = {0, GW_OPTION_REPORTS_ASKED, GW_OPTION_ACTIVITY_RECORDING};
    for (size_t i = 0; i < 3; i++) {
        gw_done silent = activity(trace(GW_ATTR_MAX_ACTIVITIES, 0), others | alone[i], GW_LEVEL_LOW);
        expect(silent.counter == GW_ATTR_UNRECORDED_ACTIVITIES && silent.report_length == 0, "no other bit makes up for it");
    }
    size_t length = trace(GW_ATTR_FORWARD, GW_MQROUTE_FORWARD_IF_SUPPORTED);
    gw_answer supported = gw_forward(buffer, sizeof buffer, length, sheet, GW_OPTION_REMOTE_SUPPORTS);
    gw_answer unsupported = gw_forward(buffer, sizeof buffer, length, sheet,
                                       ~(uint32_t)(GW_OPTION_REMOTE_SUPPORTS | GW_OPTION_EMBEDDED));
    expect(supported == GW_DECIDED_FORWARD * 32, "forwarding looks at its bit");
    expect(unsupported == GW_REFUSED_NOT_FORWARDED, "and at no other");
}

/* The form is a bit too: forgotten at one call, that call refuses. */
static void embedded(void)
{
    const uint32_t values[GW_ATTRIBUTES] = {GW_LEVEL_LOW, 0, 0, 0, 0, GW_MQROUTE_ACCUMULATE_IN_MSG, GW_MQROUTE_FORWARD_ALL,
                                            GW_MQROUTE_DELIVER_NO};
    const uint32_t fields[GW_FIELDS] = {[GW_FIELD_ENCODING] = 273, [GW_FIELD_CODED_CHAR_SET_ID] = 819, [GW_FIELD_FLAGS] = 1};
    const uint8_t format[GW_FORMAT_BYTES] = {'M', 'Q', 'S', 'T', 'R', ' ', ' ', ' '};
    static const uint8_t user[] = {'h', 'e', 'l', 'l', 'o'};
    uint32_t read[GW_ATTRIBUTES], read_fields[GW_FIELDS] = {0};
    uint8_t read_format[GW_FORMAT_BYTES] = {0};
    gw_answer composed = gw_compose(sheet, values, GW_OPTION_EMBEDDED, fields, format, user, sizeof user, buffer, sizeof buffer);
    size_t length = gw_value(composed);
    expect(composed == 217 * 32, "212 bytes and the user data");
    expect(gw_check(buffer, sizeof buffer, length, 0) == GW_REFUSED_HEADER, "what is embedded is not plain");
    expect(activity(length, three, GW_LEVEL_LOW).counter == 99, "nor for an activity");
    length = activity(length, three | GW_OPTION_EMBEDDED, GW_LEVEL_LOW).message_length;
    gw_answer place = gw_read(buffer, sizeof buffer, length, sheet, GW_OPTION_EMBEDDED, read, read_fields, read_format);
    expect(place == (212 + sizeof group) * 32 && length - gw_value(place) == sizeof user, "the user data have moved");
    expect(memcmp(buffer + gw_value(place), user, sizeof user) == 0, "unharmed");
    expect(memcmp(read_fields, fields, sizeof fields) == 0, "and so are the fields");
    expect(memcmp(read_format, format, sizeof format) == 0, "and the format");
    length = trace(GW_ATTR_DETAIL, GW_LEVEL_LOW);
    expect(gw_check(buffer, sizeof buffer, length, GW_OPTION_EMBEDDED) == GW_REFUSED_EMBEDDED_HEADER, "plain is not embedded");
}

static void feedbacks(void)
{
    expect(GW_MQFB_MAX_ACTIVITIES == 282 && gw_feedback(GW_REFUSED_MAX_ACTIVITIES) == 282, "the limit's feedback");
    expect(GW_MQFB_NOT_FORWARDED == 283 && gw_feedback(GW_REFUSED_NOT_FORWARDED) == 283, "not forwarded");
    expect(GW_MQFB_UNSUPPORTED_FORWARDING == 285 && gw_feedback(GW_REFUSED_UNSUPPORTED_FORWARDING) == 285, "forwarding");
    expect(GW_MQFB_UNSUPPORTED_DELIVERY == 286 && gw_feedback(GW_REFUSED_UNSUPPORTED_DELIVERY) == 286, "delivery");
    expect(gw_feedback(GW_ACCEPTED) == 0 && gw_feedback(GW_REFUSED_NO_ROOM) == 0 && gw_feedback(282) == 0, "others have none");
}

static void words(void)
{
    char text[GW_WORDS_BYTES];
    memset(text, '#', sizeof text);
    expect(gw_words(GW_ACCEPTED, text) == 8 && strcmp(text, "accepted") == 0 && text[9] == '#', "0 is accepted");
    expect(strcmp(gw_in_words(GW_ACCEPTED).text, "accepted") == 0, "by value too");
    expect(strcmp(gw_in_words(19).text, "no refusal has this number") == 0, "19 is no refusal");
    for (uint32_t number = 0; number < 19; number++) {
        size_t length = gw_words(number, text);
        expect(length > 0 && strlen(text) == length && length < GW_WORDS_BYTES, "every refusal has words");
        expect(strcmp(text, gw_in_words(19).text) != 0, "of its own");
    }
}

static void version(const char *installed)
{
    expect(gw_version() == GW_VERSION, "library and header have one version");
    expect(strcmp(installed, GW_VERSION_TEXT) == 0, "and pkg-config has it");
    char text[40];
    snprintf(text, sizeof text, "%d.%d.%d", GW_VERSION_MAJOR, GW_VERSION_MINOR, GW_VERSION_PATCH);
    expect(strcmp(text, GW_VERSION_TEXT) == 0, "its numbers are its text");
}

int main(int argc, char **argv)
{
    positions();
    levels();
    options();
    embedded();
    feedbacks();
    words();
    version(argc > 1 ? argv[1] : "");
    return failures != 0;
}
