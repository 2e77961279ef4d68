/* Measures how much stack each function uses: it runs on a stack of its own that is filled with a pattern, and what is no
 * longer the pattern was used. The message has groups to depth 8, the deepest that there can be; that with user data has none,
 * but the group that is put before them has. */
#include "gwirandol.h"

#include <pthread.h>
#include <stdio.h>
#include <stdlib.h>
#include <string.h>

enum { STACK = 1 << 20, PATTERN = 0xa5, DEPTH = 8, USER = 65000 };

static const uint32_t sheet[8] = GW_IBM_SHEET;
static const uint32_t values[8] = {GW_MQROUTE_DETAIL_LOW, 0, 0, 0, 0, GW_MQROUTE_ACCUMULATE_IN_MSG, GW_MQROUTE_FORWARD_ALL,
                                   GW_MQROUTE_DELIVER_YES};
static uint8_t message[1024], copy[1024], embedded[65536], report[1024], text[GW_LISTING_BYTES];
static size_t length, embedded_length, group_length;

static void put(uint8_t *at, uint32_t kind, uint32_t parameter, uint32_t last)
{
    const uint32_t fields[4] = {kind, 16, parameter, last};
    for (int k = 0; k < 16; k++)
        at[k] = (uint8_t)(fields[k / 4] >> (24 - k % 4 * 8));
}

/* A composed trace, and behind it an Activity group with seven groups one in another and an integer in the last; and an embedded
 * one with user data. */
static void compose(void)
{
    const uint32_t fields[GW_FIELDS] = {273, 819, 0};
    const uint8_t format[GW_FORMAT_BYTES] = {'M', 'Q', 'S', 'T', 'R', ' ', ' ', ' '};
    gw_answer made = gw_compose(sheet, values, GW_OPTION_EMBEDDED, fields, format, text, USER, embedded, sizeof embedded);
    embedded_length = gw_value(made);
    length = gw_value(gw_compose_plain(sheet, values, message, sizeof message));
    for (int depth = 1; depth <= DEPTH; depth++, length += 16)
        put(message + length, 20, depth == 1 ? 8005 : 8006, 1);
    put(message + length, 3, 1, 1);
    length += 16;
    message[35] = 2;
    group_length = length - 180;
}

static void nothing(void) {}
static void check(void) { gw_check(message, sizeof message, length, 0); }
static void list(void) { gw_list(message, sizeof message, length, 0, text); }
static void forward(void) { gw_forward(message, sizeof message, length, sheet, GW_OPTION_REMOTE_SUPPORTS); }
static void arrive(void) { gw_arrive(message, sizeof message, length, sheet, 0); }
static void composed(void) { gw_compose_plain(sheet, values, copy, sizeof copy); }

static void tally(void)
{
    static uint32_t counts[27];
    gw_tally(message, sizeof message, length, 0, counts);
}

static void step(void)
{
    static gw_row row;
    gw_step(message, sizeof message, length, 0, 180, 1, &row);
}

static void read_values(void)
{
    static uint32_t found[8], fields[GW_FIELDS];
    static uint8_t format[GW_FORMAT_BYTES];
    gw_read(message, sizeof message, length, sheet, 0, found, fields, format);
}

static void activity_group(void)
{
    static gw_part part;
    gw_activity_group(message, sizeof message, length, sheet, 0, 0, &part);
}

static void named_string(void)
{
    static gw_part part;
    gw_named_string(message, sizeof message, length, sheet, 0, 0, 3012, &part);
}

static void discontinuity(void)
{
    static gw_done done;
    memcpy(copy, message, sizeof copy);
    gw_discontinuity(copy, sizeof copy, length, sheet, 0, &done);
}

/* What writes most: the group behind the message's part, and a report. */
static void append(uint8_t *buffer, size_t size, size_t before, uint32_t form)
{
    static gw_done done;
    uint32_t options = GW_OPTION_REPORTS_ASKED | GW_OPTION_ACTIVITY_RECORDING | GW_OPTION_TRACE_ROUTE_MESSAGING | form;
    gw_answer applied = gw_activity(buffer, size, before, sheet, options, GW_LEVEL_LOW, message + 180, group_length, report,
                                    sizeof report, &done);
    /* a refusal leaves what was done as it was, which may be from the call before */
    if (gw_number(applied) != GW_ACCEPTED || done.appended != 1)
        abort();
}

static void activity(void)
{
    memcpy(copy, message, sizeof copy);
    append(copy, sizeof copy, length, 0);
}

static void moving(void) { append(embedded, sizeof embedded, embedded_length, GW_OPTION_EMBEDDED); }

static void *call(void *function)
{
    (*(void (**)(void))function)();
    return NULL;
}

/* The bytes of the stack that a function changed. */
static size_t used(uint8_t *stack, void (*function)(void))
{
    pthread_t thread;
    pthread_attr_t attributes;
    memset(stack, PATTERN, STACK);
    pthread_attr_init(&attributes);
    if (pthread_attr_setstack(&attributes, stack, STACK) != 0 || pthread_create(&thread, &attributes, call, &function) != 0) {
        perror("a thread with its own stack");
        exit(1);
    }
    pthread_join(thread, NULL);
    size_t low = 0;
    while (low < STACK && stack[low] == PATTERN)
        low++;
    return STACK - low;
}

int main(void)
{
    static const struct {
        const char *name;
        void (*function)(void);
    } all[] = {{"check", check}, {"tally", tally}, {"list", list}, {"one structure", step}, {"compose, plain", composed},
               {"read", read_values}, {"forward", forward}, {"arrive", arrive}, {"Activity group", activity_group},
               {"name", named_string}, {"discontinuity", discontinuity}, {"activity", activity},
               {"activity, 65,000 bytes of user data moved", moving}};
    uint8_t *stack = aligned_alloc(1 << 12, STACK);
    compose();
    /* what a thread needs by itself, once all that is set up at first use is there */
    used(stack, nothing);
    size_t without = used(stack, nothing);
    printf("| entry | bytes of stack |\n|---|---:|\n");
    for (size_t k = 0; k < sizeof all / sizeof *all; k++)
        printf("| %s | %zu |\n", all[k].name, used(stack, all[k].function) - without);
    free(stack);
    return 0;
}
