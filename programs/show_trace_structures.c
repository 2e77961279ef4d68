/* The structures of a message, each on a line of its own, and what is inside a group two columns further in. */
#include "show_trace.h"

#include <inttypes.h>
#include <stdio.h>

const uint32_t ibm_sheet[GW_ATTRIBUTES] = GW_IBM_SHEET;

size_t first_structure(const struct message *m)
{
    return pcf_header(m) + 36;
}

/* The structure at a place; false where the PCF part ends, also if user data follow. */
bool step(const struct message *m, size_t place, uint64_t depth, gw_row *row)
{
    return gw_number(gw_step(m->bytes, m->size, m->length, m->options, place, (uint32_t)depth, row)) == GW_ACCEPTED;
}

/* The place behind a structure and all that is inside it. Groups are at most 8 deep, and so are these calls. */
size_t behind(const struct message *m, const gw_row *row)
{
    size_t place = row->next;
    gw_row member;
    for (uint64_t left = row->members; left > 0 && step(m, place, row->depth + 1, &member); left--) {
        place = behind(m, &member);
    }
    return place;
}

bool is_group(const gw_row *row, uint32_t identifier)
{
    return row->type == GROUP && row->parameter == identifier;
}

/* IBM's name of a structure; where IBM has none, its number. */
static void show_name(const gw_row *row)
{
    const struct mqn_name *name = mqn_name_of(row->parameter, mqn_kind_of(row->type));
    if (name) {
        printf("%s", name->name);
    } else {
        printf("%s%" PRIu64, row->type == GROUP ? "Group " : "", row->parameter);
    }
}

static void show_structure(const struct message *m, const gw_row *row)
{
    printf("%*s", (int)(row->depth - 1) * 2, "");
    show_name(row);
    if (row->type != GROUP) {
        printf(": ");
        show_fields(m, row);
    }
    printf("\n");
}

static void show_members(const struct message *m, const gw_row *group)
{
    size_t place = group->next;
    gw_row row;
    for (uint64_t left = group->members; left > 0 && step(m, place, group->depth + 1, &row); left--) {
        show_structure(m, &row);
        show_members(m, &row);
        place = behind(m, &row);
    }
}

static bool is_attribute(const gw_row *row)
{
    for (int i = 0; i < GW_ATTRIBUTES; i++) {
        if (row->parameter == ibm_sheet[i]) {
            return true;
        }
    }
    return false;
}

/* A trace's TraceRoute group without its eight attributes, which were shown first; mostly nothing is left then. */
static void show_further(const struct message *m, const gw_row *group)
{
    size_t place = group->next;
    gw_row row;
    if (group->members == GW_ATTRIBUTES) {
        return;
    }
    printf("\nTraceRoute at byte %" PRIu64 ", further parameters\n", group->place);
    for (uint64_t left = group->members; left > 0 && step(m, place, 2, &row); left--) {
        if (!is_attribute(&row)) {
            show_structure(m, &row);
            show_members(m, &row);
        }
        place = behind(m, &row);
    }
}

/* All structures of a message; gives the place behind them. Activity groups are numbered as in the summary. */
size_t show_structures(const struct message *m, bool trace)
{
    size_t place = first_structure(m);
    uint64_t activities = 0;
    bool after_group = true;
    gw_row row;
    for (; step(m, place, 1, &row); place = behind(m, &row)) {
        if (trace && is_group(&row, TRACE_ROUTE_GROUP)) {
            show_further(m, &row);
        } else if (row.type == GROUP) {
            printf("\n");
            show_name(&row);
            if (row.parameter == ACTIVITY_GROUP) {
                printf(" %" PRIu64, ++activities);
            }
            printf(" at byte %" PRIu64 "\n", row.place);
            show_members(m, &row);
        } else {
            printf("%s", after_group ? "\n" : "");
            show_structure(m, &row);
        }
        after_group = row.type == GROUP;
    }
    return place;
}
