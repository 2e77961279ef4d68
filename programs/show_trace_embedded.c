/* The two forms of a message, and what an embedded one has around its PCF part: the embedded header, IBM's MQEPH, in front of it,
 * and the sender's own data behind it. */
#include "show_trace.h"

#include <stdio.h>

/* The embedded header's length, and the places of what it says of the user data. */
enum { ENCODING = 12, CODED_CHAR_SET_ID = 16, FORMAT = 20, FLAGS = 28, EMBEDDED_HEADER = 32 };

/* A dump's bytes to a line. Longer user data than WHOLE are shown as if they had only so many: their start, and their END. */
enum { LINE = 16, WHOLE = 256, END = 64 };

bool is_embedded(const struct message *m)
{
    return (m->options & GW_OPTION_EMBEDDED) != 0;
}

size_t pcf_header(const struct message *m)
{
    return is_embedded(m) ? EMBEDDED_HEADER : 0;
}

/* The Format is told in no character set that the message names. */
void show_embedded_header(const struct message *m)
{
    show_header_field(m, "Encoding", ENCODING, MQN_ENCODINGS);
    show_header_field(m, "CodedCharSetId", CODED_CHAR_SET_ID, MQN_CHAR_SETS);
    printf("%-21s ", "Format");
    show_format(m, FORMAT, GW_FORMAT_BYTES, 0);
    printf("\n");
    show_header_field(m, "Flags", FLAGS, MQN_EMBEDDED_FLAGS);
}

/* The bytes as digits and as text, as MQ's sample browser shows them, behind their place. */
static void dump_line(const struct message *m, size_t place, size_t length)
{
    printf("  %5zu: ", place);
    for (size_t i = 0; i < LINE; i++) {
        if (i < length) {
            printf("%02X", m->bytes[place + i]);
        } else {
            printf("  ");
        }
        printf("%s", i % 2 == 1 ? " " : "");
    }
    printf("'");
    for (size_t i = 0; i < length; i++) {
        printf("%c", is_printable(m->bytes[place + i]) ? m->bytes[place + i] : '.');
    }
    printf("'\n");
}

static void dump(const struct message *m, size_t place, size_t end)
{
    for (; place < end; place += LINE) {
        dump_line(m, place, end - place < LINE ? end - place : LINE);
    }
}

void show_user_data(const struct message *m, size_t place)
{
    size_t length = m->length - place;
    if (length == 0) {
        printf("\nNo user data\n");
        return;
    }
    printf("\nUser data at byte %zu, %zu byte%s\n", place, length, length == 1 ? "" : "s");
    if (length <= WHOLE) {
        dump(m, place, m->length);
        return;
    }
    dump(m, place, place + WHOLE - END);
    printf("         .. %zu more, not shown ..\n", length - WHOLE);
    dump(m, m->length - END, m->length);
}
