/* Turns a hex dump of a message, as MQ's sample browser prints it, into the message's bytes: standard input to standard
 * output. It gives either all the bytes that the dump says the message has, or none and the number of the line that is at
 * fault; a message that is silently short would be worse than no message. */
#include "ending.h"
#include "gwirandol.h"

#include <stdbool.h>
#include <stdint.h>
#include <stdlib.h>
#include <string.h>

enum { LINE = 512, MOST = 65536, BYTES_OF_A_LINE = 16, OFFSET_DIGITS = 8 };

static const char help[] =
    "usage: undump [N]\n"
    "Writes the bytes of the N-th hex dump on standard input, the first if N is not given.\n"
    "A dump is a line with 'length - L of L bytes', and lines of an offset, a colon, eight words of four digits (the last\n"
    "line may have fewer, and one of two), and the bytes as text. Other lines are passed over. Letters O of a scan are\n"
    "zeros, of a five-digit word the last four digits count, and of a nine-digit offset the first eight.\n"
    "  --help     this text\n"
    "  --version  the version\n"
    "Exit status: 0 written, 1 no such dump, or it is not sound, 2 usage, or reading or writing failed.\n";

/* The dump that is wanted, as far as it was read. */
struct dump {
    long number;      /* of the dump that is read now */
    bool stated;      /* its length was stated */
    bool begun;       /* and a line of it was seen */
    bool has_text;    /* the first line has the bytes as text too */
    size_t length;    /* the stated one */
    size_t filled;    /* bytes so far */
    uint8_t bytes[MOST];
};

static int fault(size_t line, const char *what)
{
    fprintf(stderr, "undump: line %zu: %s\n", line, what);
    return ENDED_REFUSED;
}

static int digit(char c)
{
    static const char known[] = "0123456789ABCDEFabcdef";
    const char *at = c == 'O' || c == 'o' ? known : strchr(known, c);
    if (c == '\0' || !at) {
        return -1;
    }
    return at - known < 16 ? (int)(at - known) : (int)(at - known) - 6;
}

static size_t digits(const char *s)
{
    size_t n = 0;
    while (digit(s[n]) >= 0) {
        n++;
    }
    return n;
}

static size_t value(const char *s, size_t n)
{
    size_t v = 0;
    for (size_t i = 0; i < n; i++) {
        v = v * 16 + (size_t)digit(s[i]);
    }
    return v;
}

/* A word: two, four or five digits with a blank or the line's end behind them. Gives its number of digits, or 0. */
static size_t word(const char *s)
{
    size_t n = digits(s);
    bool ends = s[n] == '\0' || s[n] == ' ' || s[n] == '\t';
    return ends && (n == 2 || n == 4 || n == 5) ? n : 0;
}

/* What is behind the words of a line: the bytes as text. It may have lost its quote in a scan, but where it reads like a word
 * nobody knows whether it is data, and where only some lines have text it was taken for data in the others. */
static int pass_text(struct dump *d, const char *s, size_t line)
{
    bool has_text = *s != '\0';
    if (word(s) != 0) {
        return fault(line, "behind the line's bytes there is another word, or text without its quote");
    }
    if (d->filled <= BYTES_OF_A_LINE) {
        d->has_text = has_text;
    }
    return d->has_text == has_text ? ENDED_WELL : fault(line, "some lines have a text column and some have none");
}

/* The words of a line. The stated length says how many bytes they must be. */
static int take_words(struct dump *d, const char *s, size_t line)
{
    size_t wanted = d->length - d->filled;
    wanted = wanted < BYTES_OF_A_LINE ? wanted : BYTES_OF_A_LINE;
    for (s += strspn(s, " \t"); wanted > 0; s += strspn(s, " \t")) {
        size_t n = word(s);
        if (n == 0) {
            return fault(line, *s == '\0' || *s == '\'' ? "a word is missing" : "a malformed word");
        }
        if (n == 2 && wanted > 1) {
            return fault(line, "a word has two digits, and more bytes are due");
        }
        if (n != 2 && wanted == 1) {
            return fault(line, "there are more bytes than the stated length");
        }
        for (const char *pair = n == 5 ? s + 1 : s; pair < s + n; pair += 2, wanted--) {
            d->bytes[d->filled++] = (uint8_t)value(pair, 2);
        }
        s += n;
    }
    return pass_text(d, s, line);
}

/* A line with an offset. */
static int take_line(struct dump *d, long wanted, const char *s, size_t line)
{
    size_t n = digits(s), offset = value(s, OFFSET_DIGITS);
    if (offset == 0 && (d->begun || !d->stated)) {
        d->number++;
        d->stated = false;
    }
    d->begun = true;
    if (d->number != wanted) {
        return ENDED_WELL;
    }
    if (!d->stated) {
        return fault(line, "no line 'length - L of L bytes' before the dump says how long it is");
    }
    if (offset != d->filled) {
        fprintf(stderr, "undump: line %zu: the offset is %zu, but %zu bytes came before; is a line missing?\n", line, offset,
                d->filled);
        return ENDED_REFUSED;
    }
    if (d->filled == d->length) {
        return fault(line, "there are more bytes than the stated length");
    }
    return take_words(d, s + n + 1, line);
}

/* A line that states a length, 'length - L of L bytes', begins a dump. */
static int take_length(struct dump *d, long wanted, const char *s, size_t line)
{
    char *end;
    unsigned long shown = strtoul(s, &end, 10), whole;
    if (end == s || strncmp(end, " of ", 4) != 0) {
        return ENDED_WELL;
    }
    s = end + 4;
    whole = strtoul(s, &end, 10);
    if (end == s || strncmp(end, " bytes", 6) != 0) {
        return ENDED_WELL;
    }
    d->number++;
    d->stated = true;
    d->begun = false;
    if (d->number != wanted) {
        return ENDED_WELL;
    }
    if (shown != whole) {
        return fault(line, "the dump has only a part of the message");
    }
    if (whole > MOST) {
        return fault(line, "a message has at most 65,536 bytes");
    }
    d->length = whole;
    return ENDED_WELL;
}

/* One line, without its end and without what no line of a dump is long enough to have; false behind the last one. */
static bool next_line(char text[LINE])
{
    size_t n = 0;
    int c = getchar();
    if (c == EOF) {
        return false;
    }
    for (; c != EOF && c != '\n'; c = getchar()) {
        if (n < LINE - 1) {
            text[n++] = c == '\0' || c == '\r' ? ' ' : (char)c;
        }
    }
    text[n] = '\0';
    return true;
}

static int undump(long wanted)
{
    static struct dump d;
    char text[LINE];
    size_t line = 0;
    int status = ENDED_WELL;
    while (status == ENDED_WELL && d.number <= wanted && next_line(text)) {
        const char *s = text + strspn(text, " \t"), *length = strstr(text, "length - ");
        size_t n = digits(s);
        line++;
        if ((n == OFFSET_DIGITS || n == OFFSET_DIGITS + 1) && s[n] == ':') {
            status = take_line(&d, wanted, s, line);
        } else if (length) {
            status = take_length(&d, wanted, length + strlen("length - "), line);
        }
    }
    if (ferror(stdin)) {
        perror("undump: standard input");
        return ENDED_FAILED;
    }
    if (status != ENDED_WELL) {
        return status;
    }
    if (d.number < wanted) {
        fprintf(stderr, "undump: there is no dump of number %ld\n", wanted);
        return ENDED_REFUSED;
    }
    if (d.filled != d.length) {
        fprintf(stderr, "undump: line %zu: the dump ends here with %zu of %zu bytes\n", line, d.filled, d.length);
        return ENDED_REFUSED;
    }
    fwrite(d.bytes, 1, d.filled, stdout);
    return ENDED_WELL;
}

int main(int argc, char **argv)
{
    char *end = "";
    long wanted = 1;
    if (argc == 2 && strcmp(argv[1], "--help") == 0) {
        printf("%s", help);
        return ended("undump", ENDED_WELL);
    }
    if (argc == 2 && strcmp(argv[1], "--version") == 0) {
        printf("undump %s\n", GW_VERSION_TEXT);
        return ended("undump", ENDED_WELL);
    }
    if (argc == 2) {
        wanted = strtol(argv[1], &end, 10);
    }
    if (argc > 2 || *end != '\0' || wanted < 1) {
        fprintf(stderr, "undump: neither an option nor the number of a dump: %s\n%s", argv[argc - 1], help);
        return ENDED_FAILED;
    }
    return ended("undump", undump(wanted));
}
