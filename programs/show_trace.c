/* Shows a trace-route message, an activity report or any other PCF message to people. All that is known of where structures
 * begin and end is asked of the library, and nothing of a message is read before the library has accepted it. */
#include "ending.h"
#include "show_trace.h"

#include <inttypes.h>
#include <stdio.h>
#include <string.h>

enum { MOST = 65536 };

/* One byte more than any message has, so that a longer input is refused and not cut. */
static uint8_t buffer[MOST + 1];

static const char help[] =
    "usage: show_trace [--embedded] [--summary] [FILE]\n"
    "Shows a PCF message, from FILE or standard input: a trace-route message with its attributes first, an activity\n"
    "report, or any other.\n"
    "  -e, --embedded  the message is embedded: an embedded header (MQEPH) before the PCF header, and user data behind\n"
    "                  the last parameter; without it the message is plain\n"
    "  --summary       one line for each activity: number, queue manager, application, operations, date and time\n"
    "  --help          this text\n"
    "  --version       the version\n"
    "Exit status: 0 shown, 1 refused, 2 usage, or reading or writing failed.\n";

static int misused(const char *what, const char *argument)
{
    fprintf(stderr, "show_trace: %s: %s\n%s", what, argument, help);
    return ENDED_FAILED;
}

static int refused(const char *what, gw_answer answer, const char *advice)
{
    fprintf(stderr, "show_trace: %s with %" PRIu32 " at byte %" PRIu64 ": %s%s\n", what, gw_number(answer), gw_value(answer),
            gw_in_words(gw_number(answer)).text, advice);
    return ENDED_REFUSED;
}

/* What to do about a refused message that is sound in the other form. No message is sound in both: its second number is the
 * PCF header's length in the one, and the embedded header's version in the other. */
static const char *advice(const struct message *m)
{
    gw_answer otherwise = gw_check(m->bytes, m->size, m->length, m->options ^ GW_OPTION_EMBEDDED);
    if (gw_number(otherwise) != GW_ACCEPTED) {
        return "";
    }
    return is_embedded(m) ? "; read as plain it is sound: try without --embedded"
                          : "; read as embedded it is sound: try --embedded";
}

/* What the message is, and the embedded header of one that has it. */
static void show_title(const struct message *m, const char *article, const char *what)
{
    printf("%s %s of %zu bytes\n\n", is_embedded(m) ? "An embedded" : article, what, m->length);
    if (is_embedded(m)) {
        show_embedded_header(m);
        printf("\n");
    }
}

static void show_header(const struct message *m)
{
    size_t at = pcf_header(m);
    bool report = number_at(m, at) == 12 && number_at(m, at + 12) == 69;
    show_title(m, report ? "An" : "A", report ? "activity report" : "PCF message");
    show_header_field(m, "Type", at, MQN_HEADER_TYPES);
    show_header_field(m, "Version", at + 8, MQN_NO_VALUES);
    show_header_field(m, "Command", at + 12, MQN_COMMANDS);
    show_header_field(m, "MsgSeqNumber", at + 16, MQN_NO_VALUES);
    show_header_field(m, "Control", at + 20, MQN_CONTROLS);
    show_header_field(m, "CompCode", at + 24, MQN_COMP_CODES);
    show_header_field(m, "Reason", at + 28, MQN_REASONS);
    show_header_field(m, "ParameterCount", at + 32, MQN_NO_VALUES);
}

/* All of a message, from its first byte to its last. */
static void show_whole(const struct message *m, bool trace, const uint32_t values[GW_ATTRIBUTES])
{
    if (trace) {
        show_title(m, "A", "trace-route message");
        show_attributes(m, values);
    } else {
        show_header(m);
    }
    size_t end = show_structures(m, trace);
    if (is_embedded(m)) {
        show_user_data(m, end);
    }
}

/* A message with a trace's header that is refused as a trace is shown like any other, for who must mend it, and refused. What
 * the embedded header says is shown from its bytes, since only a trace can be read. */
static int show(const struct message *m, bool summary)
{
    uint32_t values[GW_ATTRIBUTES], fields[GW_FIELDS];
    uint8_t format[GW_FORMAT_BYTES];
    gw_answer checked = gw_check(m->bytes, m->size, m->length, m->options);
    if (gw_number(checked) != GW_ACCEPTED) {
        return refused("refused", checked, advice(m));
    }
    gw_answer read = gw_read(m->bytes, m->size, m->length, ibm_sheet, m->options, values, fields, format);
    bool trace = gw_number(read) == GW_ACCEPTED;
    if (summary) {
        show_summary(m);
    } else {
        show_whole(m, trace, values);
    }
    return trace || gw_number(read) == GW_REFUSED_TRACE_HEADER ? ENDED_WELL : refused("as a trace refused", read, "");
}

static int show_file(const char *name, bool summary, uint32_t options)
{
    FILE *file = name ? fopen(name, "rb") : stdin;
    const char *called = name ? name : "standard input";
    if (!file) {
        perror(called);
        return ENDED_FAILED;
    }
    struct message m = {buffer, sizeof buffer, fread(buffer, 1, sizeof buffer, file), options};
    if (ferror(file)) {
        perror(called);
        return ENDED_FAILED;
    }
    return show(&m, summary);
}

int main(int argc, char **argv)
{
    const char *name = NULL;
    bool summary = false;
    uint32_t options = 0;
    for (int i = 1; i < argc; i++) {
        if (strcmp(argv[i], "--help") == 0) {
            printf("%s", help);
            return ended("show_trace", ENDED_WELL);
        }
        if (strcmp(argv[i], "--version") == 0) {
            printf("show_trace %s\n", GW_VERSION_TEXT);
            return ended("show_trace", ENDED_WELL);
        }
        if (strcmp(argv[i], "--summary") == 0) {
            summary = true;
        } else if (strcmp(argv[i], "-e") == 0 || strcmp(argv[i], "--embedded") == 0) {
            options = GW_OPTION_EMBEDDED;
        } else if (argv[i][0] == '-') {
            return misused("there is no such option", argv[i]);
        } else if (name) {
            return misused("one file only", argv[i]);
        } else {
            name = argv[i];
        }
    }
    return ended("show_trace", show_file(name, summary, options));
}
