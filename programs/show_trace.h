/* What the parts of show_trace share. */
#ifndef SHOW_TRACE_H
#define SHOW_TRACE_H

#include "gwirandol.h"
#include "mq_names.h"
#include "mq_values.h"

#include <stdbool.h>
#include <stddef.h>
#include <stdint.h>

/* IBM's identifiers that show_trace looks for. */
enum {
    TRACE_ROUTE_GROUP = 8003,
    OPERATION_GROUP = 8004,
    ACTIVITY_GROUP = 8005,
    OPERATION_TYPE = 1240,
    Q_MGR_NAME = 2015,
    APPL_NAME = 3024,
    OPERATION_DATE = 3132,
    OPERATION_TIME = 3133,
    FORMAT_NAME = 3533
};

/* Types of structures. */
enum {
    INTEGER = 3,
    STRING = 4,
    INTEGER_LIST = 5,
    STRING_LIST = 6,
    BYTE_STRING = 9,
    INTEGER_FILTER = 13,
    STRING_FILTER = 14,
    BYTE_FILTER = 15,
    GROUP = 20,
    INTEGER_64 = 23,
    INTEGER_64_LIST = 25
};

/* A message that gw_check accepted, in the form that its options name: GW_OPTION_EMBEDDED or none. Its headers and the fields
 * of its structures may then be read without looking at lengths again; where a structure begins and ends is always asked of
 * the library. */
struct message {
    const uint8_t *bytes;
    size_t size;
    size_t length;
    uint32_t options;
};

/* show_trace_fields.c: numbers, text and bytes. */
uint32_t number_at(const struct message *m, size_t place);
bool is_printable(uint8_t byte);
void show_integer(uint32_t value, enum mqn_set set);
void show_words(uint32_t value, enum mqn_set set);
void show_header_field(const struct message *m, const char *name, size_t place, enum mqn_set set);
size_t show_plain(const struct message *m, size_t place, size_t length);
void show_format(const struct message *m, size_t place, size_t length, uint32_t character_set);
void show_fields(const struct message *m, const gw_row *row);

/* show_trace_embedded.c: the two forms, and what an embedded message has around its PCF part. */
bool is_embedded(const struct message *m);
size_t pcf_header(const struct message *m);
void show_embedded_header(const struct message *m);
void show_user_data(const struct message *m, size_t place);

/* show_trace_structures.c: structures, and what is inside groups. */
size_t first_structure(const struct message *m);
bool step(const struct message *m, size_t place, uint64_t depth, gw_row *row);
size_t behind(const struct message *m, const gw_row *row);
bool is_group(const gw_row *row, uint32_t identifier);
size_t show_structures(const struct message *m, bool trace);

/* show_trace_attributes.c: the eight attributes of a trace, and what the library decides about it. */
void show_attributes(const struct message *m, const uint32_t values[GW_ATTRIBUTES]);

/* show_trace_summary.c: one line for each activity. */
void show_summary(const struct message *m);

/* The identifiers under which the attributes are looked for: IBM's. */
extern const uint32_t ibm_sheet[GW_ATTRIBUTES];

#endif
