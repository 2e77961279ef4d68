/* CHECK in plain C, written by hand from the rules and proved by nobody: what a careful program would have.
 * It answers in the library's form: what is given times 32, or a refusal's place times 32 and its number. */
#include <stdbool.h>
#include <stddef.h>
#include <stdint.h>

#define HEADER_BYTES 36
#define MESSAGE_BYTES 65536
#define DEEPEST 8
#define COUNT_BOUND (UINT32_C(1) << 31)
#define GROUP 20

uint64_t plain_check(const uint8_t *buffer, size_t size, size_t length);

static inline uint32_t word(const uint8_t *at) {
    return (uint32_t)at[0] << 24 | (uint32_t)at[1] << 16 | (uint32_t)at[2] << 8 | (uint32_t)at[3];
}

static inline uint64_t refused(uint64_t number, uint64_t place) { return place * 32 + number; }

/* Data of this many bytes behind a fixed part. A structure has 65,500 bytes at most, so that a length that fits in it is
 * far below the bound. */
static inline bool holds(uint32_t length, uint32_t fixed, uint64_t data) {
    return length >= fixed && data <= length - fixed;
}

/* Whether the structure's fields agree with its length, which lies inside the message and is 16 at least. */
static inline bool fields_agree(const uint8_t *at, uint32_t length) {
    switch (word(at)) {
    case 3:
        return length == 16;
    case 4:
        return length >= 20 && holds(length, 20, word(at + 16));
    case 5:
        return length == 16 + 4 * (uint64_t)word(at + 12);
    case 6: {
        if (length < 24) return false;
        uint32_t count = word(at + 16), each = word(at + 20);
        return count < COUNT_BOUND && each < COUNT_BOUND && holds(length, 24, (uint64_t)count * each);
    }
    case 9:
        return holds(length, 16, word(at + 12));
    case 13:
        return length == 20;
    case 14:
        return length >= 24 && holds(length, 24, word(at + 20));
    case 15:
        return length >= 20 && holds(length, 20, word(at + 16));
    case GROUP:
        return length == 16 && word(at + 12) < COUNT_BOUND;
    case 23:
        return length == 24;
    case 25:
        return length == 16 + 8 * (uint64_t)word(at + 12);
    default:
        return false;
    }
}

/* The structure's length, or 0 for a fault. */
static inline uint32_t sound_length(const uint8_t *at, size_t left) {
    if (left < 16) return 0;
    uint32_t length = word(at + 4);
    if (length < 16 || length > left || length % 4 != 0) return 0;
    return fields_agree(at, length) ? length : 0;
}

/* Walks over all structures: due[d] are still to come in the open group of depth d, due[0] in the header's count. */
static uint64_t walk(const uint8_t *message, size_t length) {
    uint32_t due[DEEPEST + 1] = {word(message + 32)};
    unsigned open = 0;
    size_t place = HEADER_BYTES;
    uint64_t structures = 0;
    for (;;) {
        while (due[open] == 0) {
            if (open == 0) return place < length ? refused(5, place) : structures * 32;
            open--;
        }
        const uint8_t *at = message + place;
        uint32_t bytes = sound_length(at, length - place);
        if (bytes == 0) return refused(3, place);
        due[open]--;
        structures++;
        if (word(at) == GROUP) {
            if (open == DEEPEST) return refused(4, place);
            due[++open] = word(at + 12);
        }
        place += bytes;
    }
}

uint64_t plain_check(const uint8_t *buffer, size_t size, size_t length) {
    if (length > size || length > MESSAGE_BYTES || length < HEADER_BYTES) return refused(1, 0);
    uint32_t version = word(buffer + 8);
    if (word(buffer + 4) != HEADER_BYTES || version < 1 || version > 3 || word(buffer + 32) >= COUNT_BOUND)
        return refused(2, 0);
    return walk(buffer, length);
}
