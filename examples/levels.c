/* Which activities a trace records: enters one of each level into a trace of each Detail, and prints what became of them. */

#include "gwirandol.h"

#include <stdio.h>

/* An Activity group (8005) without members. */
static const uint8_t group[] = {0, 0, 0, 20, 0, 0, 0, 16, 0, 0, 0x1f, 0x45, 0, 0, 0, 0};

/* What becomes of an activity of this level in a new trace of this Detail. */
static const char *entered(uint32_t level, uint32_t detail)
{
    static const uint32_t sheet[GW_ATTRIBUTES] = GW_IBM_SHEET;
    const uint32_t values[GW_ATTRIBUTES] = {[GW_ATTR_DETAIL] = detail,
                                            [GW_ATTR_ACCUMULATE] = GW_MQROUTE_ACCUMULATE_IN_MSG,
                                            [GW_ATTR_FORWARD] = GW_MQROUTE_FORWARD_ALL,
                                            [GW_ATTR_DELIVER] = GW_MQROUTE_DELIVER_NO};
    uint8_t buffer[256];
    size_t length = gw_value(gw_compose_plain(sheet, values, buffer, sizeof buffer));
    gw_done done;
    gw_answer answer = gw_activity(buffer, sizeof buffer, length, sheet, GW_OPTION_TRACE_ROUTE_MESSAGING, level, group,
                                   sizeof group, NULL, 0, &done);
    if (gw_number(answer) != GW_ACCEPTED) {
        return "refused";
    }
    return done.counter == GW_ATTR_RECORDED_ACTIVITIES ? "recorded" : "unrecorded";
}

int main(void)
{
    static const char *const names[] = {"low", "medium", "high"};
    static const uint32_t levels[] = {GW_LEVEL_LOW, GW_LEVEL_MEDIUM, GW_LEVEL_HIGH};
    printf("%-9s%-13s%-16s%s\n", "level", "Detail low", "Detail medium", "Detail high");
    for (int i = 0; i < 3; i++) {
        printf("%-9s%-13s%-16s%s\n", names[i], entered(levels[i], GW_MQROUTE_DETAIL_LOW),
               entered(levels[i], GW_MQROUTE_DETAIL_MEDIUM), entered(levels[i], GW_MQROUTE_DETAIL_HIGH));
    }
    return 0;
}
