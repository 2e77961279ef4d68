/* One line for each activity: its number, the queue manager, the application, the operations, and the first operation's date
 * and time. A dash stands for what is not there, or empty. */
#include "show_trace.h"

#include <inttypes.h>
#include <stdio.h>

/* The first string with an identifier among a group's own members, or, if asked for, among those of its Operation groups:
 * IBM has the queue manager, date and time there. Further in there are names of other things under the same identifiers, as
 * that of the application that put the message. */
static bool find_string(const struct message *m, const gw_row *group, uint32_t identifier, bool in_operations, gw_row *found)
{
    size_t place = group->next;
    for (uint64_t left = group->members; left > 0 && step(m, place, group->depth + 1, found); left--) {
        gw_row member = *found;
        if (member.type == STRING && member.parameter == identifier) {
            return true;
        }
        if (in_operations && is_group(&member, OPERATION_GROUP) && find_string(m, &member, identifier, false, found)) {
            return true;
        }
        place = behind(m, &member);
    }
    return false;
}

/* A column of the line, at least so wide. */
static void show_column(const struct message *m, const gw_row *activity, uint32_t identifier, bool in_operations, size_t width)
{
    gw_row found;
    size_t shown = 0;
    if (find_string(m, activity, identifier, in_operations, &found)) {
        shown = show_plain(m, found.place + 20, number_at(m, found.place + 16));
    }
    if (shown == 0) {
        shown = (size_t)printf("-");
    }
    for (; shown < width; shown++) {
        printf(" ");
    }
}

/* The type of an operation, with what stands before it; gives the number of characters shown. */
static size_t show_operation(const struct message *m, const gw_row *operation, const char *before)
{
    size_t place = operation->next;
    gw_row row;
    for (uint64_t left = operation->members; left > 0 && step(m, place, operation->depth + 1, &row); left--) {
        if (row.type == INTEGER && row.parameter == OPERATION_TYPE) {
            uint32_t type = number_at(m, row.place + 12);
            const struct mqn_value *value = mqn_value_of(MQN_OPERATIONS, type, NULL);
            return (size_t)(value ? printf("%s%s", before, value->words) : printf("%s%" PRIu32, before, type));
        }
        place = behind(m, &row);
    }
    return (size_t)printf("%s?", before);
}

static void show_operations(const struct message *m, const gw_row *activity, size_t width)
{
    size_t place = activity->next, shown = 0;
    gw_row row;
    for (uint64_t left = activity->members; left > 0 && step(m, place, activity->depth + 1, &row); left--) {
        if (is_group(&row, OPERATION_GROUP)) {
            shown += show_operation(m, &row, shown == 0 ? "" : ", ");
        }
        place = behind(m, &row);
    }
    if (shown == 0) {
        shown = (size_t)printf("-");
    }
    for (; shown < width; shown++) {
        printf(" ");
    }
}

void show_summary(const struct message *m)
{
    uint64_t activities = 0;
    gw_row row;
    for (size_t place = first_structure(m); step(m, place, 1, &row); place = behind(m, &row)) {
        if (!is_group(&row, ACTIVITY_GROUP)) {
            continue;
        }
        printf("%3" PRIu64 "  ", ++activities);
        show_column(m, &row, Q_MGR_NAME, true, 12);
        printf("  ");
        show_column(m, &row, APPL_NAME, false, 16);
        printf("  ");
        show_operations(m, &row, 14);
        printf("  ");
        show_column(m, &row, OPERATION_DATE, true, 0);
        printf("  ");
        show_column(m, &row, OPERATION_TIME, true, 0);
        printf("\n");
    }
}
