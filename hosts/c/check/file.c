#include "file.h"

#include <string.h>

/* A buffer's bytes, from where the file begins. */
static uint8_t *bytes(double buffers[BUFFERS][MOST], const Call *call) { return (uint8_t *)buffers[BYTES] + call->file_at; }

static void put(uint8_t *into, size_t width, uint64_t number) {
    for (size_t k = 0; k < width; k++) {
        into[k] = (uint8_t)(number >> 8 * (width - 1 - k));
    }
}

static void put_words(uint8_t *into, const void *words, size_t count) {
    for (size_t k = 0; k < count; k++) {
        uint64_t bits;
        memcpy(&bits, (const char *)words + 8 * k, sizeof bits);
        put(into + 8 * k, 8, bits);
    }
}

static void put_count_and_version(uint8_t *file, uint64_t count) {
    put(file, 4, count);
    put(file + 4, 1, 1);
}

/* The file that must be written is lent, and kept. */
static void hold_wanted(void) { memcpy(given[BYTES], wanted[BYTES], sizeof given[BYTES]); }

void hold_bytes(const Call *call, size_t at, size_t width, uint64_t number) {
    put(bytes(given, call) + at, width, number);
    put(bytes(wanted, call) + at, width, number);
}

void want_file(const Call *call) {
    const uint64_t nx = call->settings.nx, ny = call->settings.ny;
    uint8_t *file = bytes(wanted, call);
    put_count_and_version(file, 9 + 72 * nx * ny);
    put(file + 5, 2, nx);
    put(file + 7, 2, ny);
    put(file + 9, 4, call->step);
    put_words(file + 13, given[F], 9 * nx * ny);
}

void hold_file(const Call *call) {
    want_file(call);
    hold_wanted();
}

void want_tally_file(const Call *call, const uint64_t tally[TALLY_NUMBERS]) {
    uint8_t *file = bytes(wanted, call);
    put_count_and_version(file, 81);
    put_words(file + 5, tally, TALLY_NUMBERS);
}

void hold_tally_file(const Call *call, const uint64_t tally[TALLY_NUMBERS]) {
    want_tally_file(call, tally);
    hold_wanted();
}
