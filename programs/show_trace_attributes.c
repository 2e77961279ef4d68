/* The eight attributes of a trace. What becomes of the message is not worked out here: the library is asked. */
#include "show_trace.h"

#include <inttypes.h>
#include <stdio.h>

static void show_attribute(const char *name, uint32_t value, enum mqn_set set)
{
    printf("%-21s ", name);
    show_integer(value, set);
    printf("\n");
}

/* Forward and Deliver are bits, of which those in the upper half are options that not every queue manager knows. */
static void show_options(const char *name, uint32_t value, enum mqn_set set)
{
    printf("%-21s 0x%08" PRIX32, name, value);
    show_words(value, set);
    if (value & 0xFFFF0000) {
        printf(", unrecognized options 0x%08" PRIX32, value & 0xFFFF0000);
    }
    printf("\n");
}

/* A decision of the library, or the feedback that it rejects the message with. */
static void show_decision(const char *where, gw_answer answer)
{
    uint32_t feedback = gw_feedback(gw_number(answer));
    printf("  %-19s ", where);
    if (gw_number(answer) != GW_ACCEPTED) {
        printf("rejected with feedback %" PRIu32, feedback);
        show_words(feedback, MQN_FEEDBACKS);
        printf("\n");
    } else {
        printf("%s\n", gw_value(answer) == GW_DECIDED_FORWARD ? "forwarded"
                       : gw_value(answer) == GW_DECIDED_PUT   ? "put to its queue"
                                                              : "kept from its queue");
    }
}

void show_attributes(const struct message *m, const uint32_t values[GW_ATTRIBUTES])
{
    uint64_t used = (uint64_t)values[GW_ATTR_RECORDED_ACTIVITIES] + values[GW_ATTR_UNRECORDED_ACTIVITIES] +
                    values[GW_ATTR_DISCONTINUITY_COUNT];
    show_attribute("Detail", values[GW_ATTR_DETAIL], MQN_DETAILS);
    show_attribute("RecordedActivities", values[GW_ATTR_RECORDED_ACTIVITIES], MQN_NO_VALUES);
    show_attribute("UnrecordedActivities", values[GW_ATTR_UNRECORDED_ACTIVITIES], MQN_NO_VALUES);
    show_attribute("DiscontinuityCount", values[GW_ATTR_DISCONTINUITY_COUNT], MQN_NO_VALUES);
    printf("%-21s ", "MaxActivities");
    show_integer(values[GW_ATTR_MAX_ACTIVITIES], MQN_LIMITS);
    printf(", %" PRIu64 " used\n", used);
    show_attribute("Accumulate", values[GW_ATTR_ACCUMULATE], MQN_ACCUMULATES);
    show_options("Forward", values[GW_ATTR_FORWARD], MQN_FORWARDS);
    show_decision("where supported",
                  gw_forward(m->bytes, m->size, m->length, ibm_sheet, m->options | GW_OPTION_REMOTE_SUPPORTS));
    show_decision("where not supported", gw_forward(m->bytes, m->size, m->length, ibm_sheet, m->options));
    show_options("Deliver", values[GW_ATTR_DELIVER], MQN_DELIVERS);
    show_decision("on arrival", gw_arrive(m->bytes, m->size, m->length, ibm_sheet, m->options));
}
