/* The fields of one structure: numbers, text and bytes, as people read them. */
#include "show_trace.h"

#include <inttypes.h>
#include <stdio.h>

uint32_t number_at(const struct message *m, size_t place)
{
    const uint8_t *b = m->bytes + place;
    return (uint32_t)b[0] << 24 | (uint32_t)b[1] << 16 | (uint32_t)b[2] << 8 | b[3];
}

/* What a value means, in brackets; nothing if IBM has no name for it. */
void show_words(uint32_t value, enum mqn_set set)
{
    const char *before = " (";
    for (const struct mqn_value *row = NULL; (row = mqn_value_of(set, value, row)) != NULL; before = ", ") {
        printf("%s%s", before, row->words);
    }
    if (before[0] == ',') {
        printf(")");
    }
}

/* IBM's integers have a sign. */
void show_integer(uint32_t value, enum mqn_set set)
{
    int64_t with_sign = value < 0x80000000u ? (int64_t)value : (int64_t)value - 0x100000000;
    printf("%" PRId64, with_sign);
    show_words(value, set);
}

/* A field of a header, on a line of its own. */
void show_header_field(const struct message *m, const char *name, size_t place, enum mqn_set set)
{
    printf("%-21s ", name);
    show_integer(number_at(m, place), set);
    printf("\n");
}

static void show_integer_64(const struct message *m, size_t place)
{
    uint64_t value = (uint64_t)number_at(m, place) << 32 | number_at(m, place + 4);
    bool negative = value >> 63;
    printf("%s%" PRIu64, negative ? "-" : "", negative ? 0 - value : value);
}

/* How much of a text is left without its trailing blanks and zero bytes, which clients fill a name with. */
static size_t trimmed(const struct message *m, size_t place, size_t length)
{
    while (length > 0 && (m->bytes[place + length - 1] == ' ' || m->bytes[place + length - 1] == '\0')) {
        length--;
    }
    return length;
}

bool is_printable(uint8_t byte)
{
    return byte >= 0x20 && byte < 0x7F;
}

/* Text without its trailing blanks and zero bytes. A byte that is no printable ASCII is shown as \xNN, and a backslash or a
 * quote has a backslash before it, so that two texts that differ before their end never look alike. Gives the number of
 * characters shown. */
size_t show_plain(const struct message *m, size_t place, size_t length)
{
    size_t shown = 0;
    length = trimmed(m, place, length);
    for (size_t i = 0; i < length; i++) {
        uint8_t byte = m->bytes[place + i];
        if (!is_printable(byte)) {
            shown += (size_t)printf("\\x%02X", byte);
        } else if (byte == '\'' || byte == '\\') {
            shown += (size_t)printf("\\%c", byte);
        } else {
            shown += (size_t)printf("%c", byte);
        }
    }
    return shown;
}

/* Text in quotes. Where what is shown has bytes that are not printable, its character set is named: it may be EBCDIC. */
static void show_text(const struct message *m, size_t place, size_t length, uint32_t character_set)
{
    printf("'");
    show_plain(m, place, length);
    printf("'");
    length = trimmed(m, place, length);
    for (size_t i = 0; i < length; i++) {
        if (!is_printable(m->bytes[place + i]) && character_set != 0) {
            printf(" (character set %" PRIu32 ")", character_set);
            return;
        }
    }
}

static void show_bytes(const struct message *m, size_t place, size_t length)
{
    printf("X'");
    for (size_t i = 0; i < length; i++) {
        printf("%02X", m->bytes[place + i]);
    }
    printf("'");
}

/* The name of a format, and what it means. */
void show_format(const struct message *m, size_t place, size_t length, uint32_t character_set)
{
    const struct mqn_format *format = mqn_format_of(m->bytes + place, trimmed(m, place, length));
    show_text(m, place, length, character_set);
    if (format) {
        printf(" (%s)", format->words);
    }
}

static void show_string(const struct message *m, const gw_row *row)
{
    size_t place = row->place + 20, length = number_at(m, row->place + 16);
    uint32_t character_set = number_at(m, row->place + 12);
    if (row->parameter == FORMAT_NAME) {
        show_format(m, place, length, character_set);
    } else {
        show_text(m, place, length, character_set);
    }
}

/* Strings of no bytes take no room, so that a list may say it has two thousand million of them. */
static void show_string_list(const struct message *m, const gw_row *row)
{
    uint32_t character_set = number_at(m, row->place + 12), count = number_at(m, row->place + 16);
    size_t length = number_at(m, row->place + 20);
    if (count == 0 || length == 0) {
        printf("%" PRIu32 " empty strings", count);
        return;
    }
    for (size_t i = 0; i < count; i++) {
        printf("%s", i == 0 ? "" : ", ");
        show_text(m, row->place + 24 + i * length, length, character_set);
    }
}

static void show_integer_list(const struct message *m, const gw_row *row)
{
    uint32_t count = number_at(m, row->place + 12);
    printf("%s", count == 0 ? "no integers" : "");
    for (size_t i = 0; i < count; i++) {
        printf("%s", i == 0 ? "" : ", ");
        if (row->type == INTEGER_LIST) {
            show_integer(number_at(m, row->place + 16 + 4 * i), mqn_values_of(row->parameter));
        } else {
            show_integer_64(m, row->place + 16 + 8 * i);
        }
    }
}

static void show_filter(const struct message *m, const gw_row *row)
{
    printf("operator %" PRIu32 ", ", number_at(m, row->place + 12));
    if (row->type == INTEGER_FILTER) {
        show_integer(number_at(m, row->place + 16), mqn_values_of(row->parameter));
    } else if (row->type == STRING_FILTER) {
        show_text(m, row->place + 24, number_at(m, row->place + 20), number_at(m, row->place + 16));
    } else {
        show_bytes(m, row->place + 20, number_at(m, row->place + 16));
    }
}

/* What a structure that is no group holds. */
void show_fields(const struct message *m, const gw_row *row)
{
    switch (row->type) {
    case INTEGER: show_integer(number_at(m, row->place + 12), mqn_values_of(row->parameter)); break;
    case STRING: show_string(m, row); break;
    case INTEGER_LIST: case INTEGER_64_LIST: show_integer_list(m, row); break;
    case STRING_LIST: show_string_list(m, row); break;
    case BYTE_STRING: show_bytes(m, row->place + 16, number_at(m, row->place + 12)); break;
    case INTEGER_FILTER: case STRING_FILTER: case BYTE_FILTER: show_filter(m, row); break;
    case INTEGER_64: show_integer_64(m, row->place + 16); break;
    default: printf("type %" PRIu64 ", %" PRIu64 " bytes", row->type, row->length); break;
    }
}
