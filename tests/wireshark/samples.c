/* Writes the messages that are handed to Wireshark, each to a file of its own below a folder: samples FOLDER. All of them are
 * composed and changed by the library; only the Activity groups that it is lent are made here. */
#include "gwirandol.h"

#include <stdio.h>
#include <stdlib.h>
#include <string.h>

enum { MOST = 65536 };

enum identifiers {
    TRACE_ACTIVITY = 8005,
    OPERATION = 8004,
    OTHER_GROUP = 8007,
    APPL_TYPE = 1,
    APPL_NAME = 3024,
    OPERATION_TYPE = 1240,
    Q_NAME = 2016
};

static const uint32_t sheet[GW_ATTRIBUTES] = GW_IBM_SHEET;
static uint8_t message[MOST], report[MOST];
static size_t length;

/* The Activity group that is being made. */
static uint8_t group[MOST];
static size_t made;

static void word(uint32_t value)
{
    for (int shift = 24; shift >= 0; shift -= 8) {
        group[made++] = (uint8_t)(value >> shift);
    }
}

static void words(size_t count, const uint32_t values[])
{
    for (size_t i = 0; i < count; i++) {
        word(values[i]);
    }
}

#define WORDS(...) words(sizeof(uint32_t[]){__VA_ARGS__} / sizeof(uint32_t), (uint32_t[]){__VA_ARGS__})

/* Data, and what is missing to a multiple of four bytes. */
static void data(const char *bytes, size_t count)
{
    memcpy(group + made, bytes, count);
    made += count;
    while (made % 4 != 0) {
        group[made++] = 0;
    }
}

static void group_of(uint32_t identifier, uint32_t count)
{
    WORDS(20, 16, identifier, count);
}

static void integer(uint32_t identifier, uint32_t value)
{
    WORDS(3, 16, identifier, value);
}

static void string(uint32_t identifier, const char *text)
{
    uint32_t count = (uint32_t)strlen(text);
    WORDS(4, 20 + (count + 3) / 4 * 4, identifier, 819, count);
    data(text, count);
}

static void operation(uint32_t type, const char *queue)
{
    group_of(OPERATION, 2);
    integer(OPERATION_TYPE, type);
    string(Q_NAME, queue);
}

static void activity(uint32_t members)
{
    made = 0;
    group_of(TRACE_ACTIVITY, members);
}

/* One structure of each type but the group, empty lists and padding included. */
static void one_of_each(void)
{
    activity(14);
    integer(APPL_TYPE, 28);
    integer(1405, 0xFFFFFFFF);
    string(APPL_NAME, "forwarder   ");
    string(3025, "");
    WORDS(5, 28, 1116, 3, 11, 9, 0x7FFFFFFF);
    WORDS(5, 16, 1117, 0);
    WORDS(6, 40, 3065, 819, 3, 5);
    data("one  two  three", 15);
    WORDS(6, 24, 3066, 819, 0, 8);
    WORDS(9, 32, 7001, 5); /* eight bytes more than the data needs */
    data("\x01\x02\x03\x04\x05", 5);
    WORDS(0, 0);
    WORDS(13, 20, 1019, 2, 7);
    WORDS(14, 32, Q_NAME, 2, 819, 8);
    data("Q.FILTER", 8);
    WORDS(15, 28, 7001, 2, 8);
    data("\x01\x02\x03\x04\x05\x06\x07\x08", 8);
    WORDS(23, 24, 1500, 0, 0x11223344, 0x55667788);
    WORDS(25, 32, 1501, 2, 0, 5, 0x80000000, 0);
}

static void plain(void)
{
    activity(2);
    integer(APPL_TYPE, 28);
    string(APPL_NAME, "plain");
}

/* Groups in the group, all behind the other members. */
static void operations(void)
{
    activity(4);
    integer(APPL_TYPE, 28);
    string(APPL_NAME, "forwarder");
    operation(1, "SYSTEM.CLUSTER.TRANSMIT.QUEUE");
    operation(2, "Q");
}

/* Groups within groups down to depth 8. */
static void deep(void)
{
    activity(1);
    for (int depth = 2; depth <= 8; depth++) {
        group_of(OTHER_GROUP, 1);
    }
    integer(APPL_TYPE, 8);
}

/* Groups within groups, and something behind them at each depth. */
static void between(void)
{
    activity(3);
    integer(APPL_TYPE, 1);
    group_of(OPERATION, 3);
    integer(OPERATION_TYPE, 2);
    group_of(OTHER_GROUP, 2);
    integer(3, 3);
    integer(4, 4);
    integer(5, 5);
    integer(6, 6);
}

static void must(gw_answer answer, const char *what)
{
    if (gw_number(answer) != GW_ACCEPTED) {
        fprintf(stderr, "samples: %s: %s\n", what, gw_in_words(gw_number(answer)).text);
        exit(1);
    }
}

static void compose(uint32_t detail)
{
    const uint32_t values[GW_ATTRIBUTES] = {
        [GW_ATTR_DETAIL] = detail,
        [GW_ATTR_RECORDED_ACTIVITIES] = 3,
        [GW_ATTR_UNRECORDED_ACTIVITIES] = 2147483646,
        [GW_ATTR_ACCUMULATE] = GW_MQROUTE_ACCUMULATE_AND_REPLY,
        [GW_ATTR_FORWARD] = GW_MQROUTE_FORWARD_IF_SUPPORTED | 0x10000,
        [GW_ATTR_DELIVER] = GW_MQROUTE_DELIVER_YES,
    };
    gw_answer answer = gw_compose_plain(sheet, values, message, sizeof message);
    must(answer, "compose");
    length = gw_value(answer);
}

/* An activity of level medium, recorded or not. */
static size_t enter(void (*make)(void), bool recorded)
{
    gw_done done;
    make();
    must(gw_activity(message, sizeof message, length, sheet,
                     GW_OPTION_REPORTS_ASKED | GW_OPTION_ACTIVITY_RECORDING | GW_OPTION_TRACE_ROUTE_MESSAGING, GW_LEVEL_MEDIUM,
                     group, made, report, sizeof report, &done),
         "activity");
    if ((done.counter == GW_ATTR_RECORDED_ACTIVITIES) != recorded) {
        fprintf(stderr, "samples: an activity %s recorded\n", recorded ? "is not" : "is");
        exit(1);
    }
    length = done.message_length;
    return done.report_length;
}

static void save(const char *folder, const char *name, const uint8_t *bytes, size_t count)
{
    char path[4096];
    snprintf(path, sizeof path, "%s/%s", folder, name);
    FILE *file = fopen(path, "wb");
    if (!file || fwrite(bytes, 1, count, file) != count || fclose(file) != 0) {
        perror(path);
        exit(1);
    }
}

int main(int argc, char **argv)
{
    if (argc != 2) {
        fprintf(stderr, "usage: samples FOLDER\n");
        return 2;
    }
    compose(GW_MQROUTE_DETAIL_MEDIUM);
    save(argv[1], "composed", message, length);

    gw_done done;
    must(gw_discontinuity(message, sizeof message, length, sheet, 0, &done), "discontinuity");
    save(argv[1], "after a discontinuity", message, length);

    compose(GW_MQROUTE_DETAIL_LOW);
    enter(plain, false);
    save(argv[1], "after an unrecorded activity", message, length);

    compose(GW_MQROUTE_DETAIL_MEDIUM);
    enter(one_of_each, true);
    enter(plain, true);
    save(argv[1], "after two activities", message, length);
    size_t reported = enter(operations, true);
    save(argv[1], "after three, the last with operations", message, length);
    save(argv[1], "report of an activity with operations", report, reported);
    enter(plain, true);
    save(argv[1], "after one more", message, length);

    compose(GW_MQROUTE_DETAIL_MEDIUM);
    reported = enter(deep, true);
    save(argv[1], "groups down to depth 8", message, length);
    save(argv[1], "report of groups down to depth 8", report, reported);

    compose(GW_MQROUTE_DETAIL_MEDIUM);
    reported = enter(between, true);
    save(argv[1], "members behind groups of groups", message, length);
    save(argv[1], "report of the same", report, reported);
    return 0;
}
