/* What a program on the path of trace-route messages does around the library. A real one gets the message with MQGET and puts
 * message, reply and report with MQPUT, all in one unit of work; this one reads and writes files.
 *
 *     forwarder new MESSAGE LIMIT        composes a trace-route message with this limit of activities
 *     forwarder on MESSAGE REPORT        enters its activity and says whether the message goes on
 *     forwarder arrive MESSAGE REPORT    enters its activity and says whether the message is put to its queue
 *
 * With --embedded or -e in front of these words the message is embedded, and a new one has the bytes of one more file behind it,
 * as user data:
 *
 *     forwarder --embedded new MESSAGE LIMIT DATA
 *
 * The exit status is 0 if it goes on or is put, 1 if not, and 2 for wrong usage or a file that does not work. */

#include "gwirandol.h"

#include <inttypes.h>
#include <stdio.h>
#include <stdlib.h>
#include <string.h>

enum { MOST = 65536 };

/* IBM's MQFB_NOT_DELIVERED: the sender wants no delivery. The library does not refuse such a message, it withholds it. */
enum { NOT_DELIVERED = 284 };

/* A real program has the first from the descriptor (MQRO_ACTIVITY in its Report field), the next two from its queue manager
 * (ACTIVREC, ROUTEREC), and the last from its partner. That a message is embedded, GW_OPTION_EMBEDDED, it has from the
 * descriptor too: its Format is MQHEPCF then. Each function looks only at the bits that concern it. */
static uint32_t options = GW_OPTION_REPORTS_ASKED | GW_OPTION_ACTIVITY_RECORDING | GW_OPTION_TRACE_ROUTE_MESSAGING |
                          GW_OPTION_REMOTE_SUPPORTS;

static const uint32_t sheet[GW_ATTRIBUTES] = GW_IBM_SHEET;

/* What is read has room for one byte more than any message has, so that a longer file is refused and not cut. */
static uint8_t message[MOST + 1];
static uint8_t data[MOST + 1];
static uint8_t report[MOST];

/* The activity of this program: an Activity group (8005) with one string, the application's name (3024). */
static const uint8_t activity[] = {
    0, 0, 0, 20, 0, 0, 0, 16, 0, 0, 0x1f, 0x45, 0, 0, 0, 1,
    0, 0, 0, 4,  0, 0, 0, 32, 0, 0, 0x0b, 0xd0, 0, 0, 0, 0,
    0, 0, 0, 12, 'f', 'o', 'r', 'w', 'a', 'r', 'd', 'e', 'r', ' ', ' ', ' '};

static void fail(const char *name)
{
    perror(name);
    exit(2);
}

static size_t load(const char *name, uint8_t bytes[MOST + 1])
{
    FILE *file = fopen(name, "rb");
    if (!file) {
        fail(name);
    }
    size_t length = fread(bytes, 1, MOST + 1, file);
    if (ferror(file)) {
        fail(name);
    }
    fclose(file);
    return length;
}

static void save(const char *name, const uint8_t *bytes, size_t length)
{
    FILE *file = fopen(name, "wb");
    if (!file || fwrite(bytes, 1, length, file) != length || fclose(file) != 0) {
        fail(name);
    }
}

/* Of a plain message, which has no user data, the name of their file is null. */
static int compose(const char *name, uint32_t limit, const char *data_name)
{
    /* what the embedded header says of the user data: numbers with their highest byte first, and text in ISO 8859-1 */
    static const uint32_t fields[GW_FIELDS] = {[GW_FIELD_ENCODING] = 273, [GW_FIELD_CODED_CHAR_SET_ID] = 819};
    static const uint8_t format[GW_FORMAT_BYTES] = {'M', 'Q', 'S', 'T', 'R', ' ', ' ', ' '};
    /* programs and channel agents are to be seen, nothing is counted yet, accumulated in the message with a reply, to be
     * forwarded to all, not delivered */
    uint32_t values[GW_ATTRIBUTES] = {GW_MQROUTE_DETAIL_MEDIUM, 0, 0, 0, limit, GW_MQROUTE_ACCUMULATE_AND_REPLY,
                                      GW_MQROUTE_FORWARD_ALL, GW_MQROUTE_DELIVER_NO};
    size_t data_length = data_name ? load(data_name, data) : 0;
    gw_answer answer = gw_compose(sheet, values, options, fields, format, data, data_length, message, sizeof message);
    if (gw_number(answer) != GW_ACCEPTED) {
        printf("refused with %" PRIu32 ": %s\n", gw_number(answer), gw_in_words(gw_number(answer)).text);
        return 1;
    }
    save(name, message, gw_value(answer));
    printf("%s: a trace-route message of %" PRIu64 " bytes\n", name, gw_value(answer));
    return 0;
}

/* A reply is owed where a message ends, be it rejected or put to a queue, if it asks for one and the queue manager does
 * trace-route messaging. */
static const char *reply(size_t length)
{
    uint32_t values[GW_ATTRIBUTES], fields[GW_FIELDS];
    uint8_t format[GW_FORMAT_BYTES];
    gw_answer answer = gw_read(message, sizeof message, length, sheet, options, values, fields, format);
    bool owed = (options & GW_OPTION_TRACE_ROUTE_MESSAGING) != 0 &&
                gw_number(answer) == GW_ACCEPTED && values[GW_ATTR_ACCUMULATE] == GW_MQROUTE_ACCUMULATE_AND_REPLY;
    return owed ? "a reply is owed" : "no reply is owed";
}

/* A refused message. Where IBM has a feedback for the refusal, it goes into the message's descriptor, and the report options
 * there say what becomes of the message. The other refusals say that it is no trace, or that the activity does not fit into
 * it; it is then treated like any other message. */
static int reject(gw_answer answer, size_t length)
{
    uint32_t feedback = gw_feedback(gw_number(answer));
    printf("%s: %s\n", feedback != 0 ? "the message is rejected" : "no activity is entered", gw_in_words(gw_number(answer)).text);
    if (feedback != 0) {
        printf("its feedback is %" PRIu32 "; %s\n", feedback, reply(length));
    }
    return 1;
}

/* What the library decides about a message that our activity is in. */
static int decide(size_t length, bool arrived)
{
    gw_answer answer = arrived ? gw_arrive(message, sizeof message, length, sheet, options)
                               : gw_forward(message, sizeof message, length, sheet, options);
    if (gw_number(answer) != GW_ACCEPTED) {
        return reject(answer, length);
    }
    if (gw_value(answer) == GW_DECIDED_FORWARD) {
        printf("the message goes on\n");
        return 0;
    }
    if (gw_value(answer) == GW_DECIDED_PUT) {
        printf("the message is put to its queue; %s\n", reply(length));
        return 0;
    }
    printf("the message is kept from its queue\nits feedback is %d; %s\n", NOT_DELIVERED, reply(length));
    return 1;
}

/* The order is the one that IBM's manuals give to programs: count the activity, reject what is above the limit, write the
 * Activity group, only then decide where the message goes, and put the report last. The first three are one call. So the
 * activity of a message that is rejected afterwards has been performed, is counted in it and can be seen in its reply.
 *
 * The message is kept as the call left it, rejected or not, and before the report is: a report that was put while its message
 * is still the old one would tell of an activity that the message's counters do not know. A refusal of the call changes
 * nothing, so that there is nothing to keep and no report. */
static int handle(const char *name, const char *report_name, bool arrived)
{
    size_t length = load(name, message);
    gw_done done;
    /* a program's own activities are of the low level, which can be recorded under every Detail */
    gw_answer answer = gw_activity(message, sizeof message, length, sheet, options, GW_LEVEL_LOW, activity, sizeof activity,
                                   report, sizeof report, &done);
    if (gw_number(answer) != GW_ACCEPTED) {
        return reject(answer, length);
    }
    printf("entered as %s activity; the message now has %" PRIu64 " bytes\n",
           done.counter == GW_ATTR_RECORDED_ACTIVITIES ? "a recorded" : "an unrecorded", done.message_length);
    int status = decide(done.message_length, arrived);
    save(name, message, done.message_length);
    if (done.report_length > 0) {
        save(report_name, report, done.report_length);
        printf("%s: a report of %" PRIu64 " bytes\n", report_name, done.report_length);
    }
    return status;
}

int main(int argc, char **argv)
{
    bool embedded = argc > 1 && (strcmp(argv[1], "-e") == 0 || strcmp(argv[1], "--embedded") == 0);
    if (embedded) {
        options |= GW_OPTION_EMBEDDED;
        argc--;
        argv++;
    }
    if (argc == (embedded ? 5 : 4) && strcmp(argv[1], "new") == 0) {
        char *end;
        unsigned long limit = strtoul(argv[3], &end, 10);
        if (end != argv[3] && *end == '\0' && limit <= INT32_MAX) {
            return compose(argv[2], (uint32_t)limit, embedded ? argv[4] : NULL);
        }
    }
    if (argc == 4 && strcmp(argv[1], "on") == 0) {
        return handle(argv[2], argv[3], false);
    }
    if (argc == 4 && strcmp(argv[1], "arrive") == 0) {
        return handle(argv[2], argv[3], true);
    }
    fprintf(stderr, "usage: forwarder new MESSAGE LIMIT | on MESSAGE REPORT | arrive MESSAGE REPORT\n"
                    "       forwarder --embedded new MESSAGE LIMIT DATA | on MESSAGE REPORT | arrive MESSAGE REPORT\n");
    return 2;
}
