/* The tally of a buffer, an entry that is written with it, and its file. */
#include "file.h"
#include "values.h"

#include <string.h>

static const uint64_t GRIDS[][2] = {{3, 2}, {2, 3}, {1, 1}, {7, 1}, {1, 7}};

/* Zero and minus zero, one bit, 1.0, a signalling NaN with a payload, and all bits. */
static const uint64_t PATTERNS[] = {UINT64_C(0x0000000000000000), UINT64_C(0x8000000000000000), UINT64_C(0x0000000000000001),
                                    UINT64_C(0x3ff0000000000000), UINT64_C(0x7ff4deadbeef0001), UINT64_C(0xffffffffffffffff)};

/* The tally of a cell in whose populations no two bytes are alike. Their sum is 0x24b545d666f788188, so it wraps twice. */
static const uint64_t TALLY_OF_A_CELL[TALLY_NUMBERS] = {
    UINT64_C(0x4b545d666f788188), UINT64_C(0x0102030405060708), UINT64_C(0x1112131415161718), UINT64_C(0x2122232425262728),
    UINT64_C(0x3132333435363738), UINT64_C(0x4142434445464748), UINT64_C(0x5152535455565758), UINT64_C(0x6162636465666768),
    UINT64_C(0x7172737475767778), UINT64_C(0x8182838485868788)};

/* Its file, as the rules have it byte by byte: the count is 81. */
static const uint8_t FILE_OF_A_TALLY[TALLY_FILE] = {
    0x00, 0x00, 0x00, 0x51, 0x01,                    /* count and version */
    0x4b, 0x54, 0x5d, 0x66, 0x6f, 0x78, 0x81, 0x88,  /* all */
    0x01, 0x02, 0x03, 0x04, 0x05, 0x06, 0x07, 0x08,  /* plane 0 */
    0x11, 0x12, 0x13, 0x14, 0x15, 0x16, 0x17, 0x18,  /* plane 1 */
    0x21, 0x22, 0x23, 0x24, 0x25, 0x26, 0x27, 0x28,  /* plane 2 */
    0x31, 0x32, 0x33, 0x34, 0x35, 0x36, 0x37, 0x38,  /* plane 3 */
    0x41, 0x42, 0x43, 0x44, 0x45, 0x46, 0x47, 0x48,  /* plane 4 */
    0x51, 0x52, 0x53, 0x54, 0x55, 0x56, 0x57, 0x58,  /* plane 5 */
    0x61, 0x62, 0x63, 0x64, 0x65, 0x66, 0x67, 0x68,  /* plane 6 */
    0x71, 0x72, 0x73, 0x74, 0x75, 0x76, 0x77, 0x78,  /* plane 7 */
    0x81, 0x82, 0x83, 0x84, 0x85, 0x86, 0x87, 0x88}; /* plane 8 */

/* The cell's tally; and its file, which begins at each byte of a word, written and read. */
static void a_cell(size_t at) {
    Call call = begin(1, 1, "a cell, the file %u bytes past a multiple of 8", (unsigned)at);
    call.file_at = at;
    hold_patterns(F, &TALLY_OF_A_CELL[1], DIRECTIONS);
    memcpy(wanted_answer, TALLY_OF_A_CELL, sizeof TALLY_OF_A_CELL);
    done(&TALLY, &call);

    hold_patterns(SUMS, TALLY_OF_A_CELL, TALLY_NUMBERS);
    memcpy((uint8_t *)wanted[BYTES] + at, FILE_OF_A_TALLY, TALLY_FILE);
    done(&WRITE_TALLY, &call);

    memcpy(given[BYTES], wanted[BYTES], sizeof given[BYTES]);
    memset(given[SUMS], 0xa5, sizeof TALLY_OF_A_CELL);
    done(&READ_TALLY, &call);
}

static Call on(const uint64_t grid[2], const char *what, size_t k) {
    return begin(grid[0], grid[1], "%u by %u, %s %u", (unsigned)grid[0], (unsigned)grid[1], what, (unsigned)k);
}

/* The tally of what f is given, by the plain reading; and its file, there and back. */
static void tally_and_file(Call call) {
    uint64_t tally[TALLY_NUMBERS];
    tally_of(&call.settings, given[F], tally);
    memcpy(wanted_answer, tally, sizeof tally);
    done(&TALLY, &call);

    call.length[BYTES] = TALLY_FILE;
    hold_patterns(SUMS, tally, TALLY_NUMBERS);
    want_tally_file(&call, tally);
    done(&WRITE_TALLY, &call);

    hold_tally_file(&call, tally);
    memset(given[SUMS], 0xa5, sizeof tally);
    done(&READ_TALLY, &call);
}

/* Every entry another, as canaries are; and every entry alike. */
static void tallies(const uint64_t grid[2]) {
    tally_and_file(on(grid, "canaries", 0));
    for (size_t k = 0; k < COUNT(PATTERNS); k++) {
        Call call = on(grid, "every entry is pattern", k);
        for (size_t entry = 0; entry < call.length[F]; entry++) {
            memcpy(&given[F][entry], &PATTERNS[k], sizeof PATTERNS[k]);
        }
        memcpy(wanted[F], given[F], sizeof given[F]);
        tally_and_file(call);
    }
}

/* A number of the tally moves by so much. */
static void move(size_t number, uint64_t by) {
    uint64_t sum;
    memcpy(&sum, &given[SUMS][number], sizeof sum);
    sum += by;
    memcpy(&wanted[SUMS][number], &sum, sizeof sum);
}

/* One entry is written, with canaries for a tally, which are any ten numbers; then with the buffer's own, which becomes the one
 * worked out afresh. */
static void write_entry(const uint64_t grid[2], size_t entry, uint64_t was, uint64_t bits) {
    Call call = on(grid, "entry", entry);
    const size_t cells = cells_of(&call.settings);
    uint64_t tally[TALLY_NUMBERS];
    call.x = entry % grid[0];
    call.y = entry % cells / grid[0];
    call.direction = entry / cells;
    call.pattern = bits;
    memcpy(&given[F][entry], &was, sizeof was);
    memcpy(&wanted[F][entry], &bits, sizeof bits);
    move(0, bits - was);
    move(1 + call.direction, bits - was);
    done(&WRITE_ENTRY, &call);

    tally_of(&call.settings, given[F], tally);
    memcpy(given[SUMS], tally, sizeof tally);
    tally_of(&call.settings, wanted[F], tally);
    memcpy(wanted[SUMS], tally, sizeof tally);
    done(&WRITE_ENTRY, &call);
}

static void write_entries(const uint64_t grid[2]) {
    for (size_t entry = 0; entry < DIRECTIONS * grid[0] * grid[1]; entry++) {
        for (size_t k = 0; k < COUNT(PATTERNS) * COUNT(PATTERNS); k++) {
            write_entry(grid, entry, PATTERNS[k / COUNT(PATTERNS)], PATTERNS[k % COUNT(PATTERNS)]);
        }
    }
}

/* The cell's file with each bit turned by itself. */
static void turned_bits(void) {
    for (size_t bit = 0; bit < 8 * TALLY_FILE; bit++) {
        const size_t at = bit / 8;
        Call call = begin(1, 1, "bit %u of byte %u is turned", (unsigned)(bit % 8), (unsigned)at);
        hold_tally_file(&call, TALLY_OF_A_CELL);
        hold_bytes(&call, at, 1, FILE_OF_A_TALLY[at] ^ 1u << bit % 8);
        check(&READ_TALLY, &call, at < 4 ? 15 : at == 4 ? 13 : 17);
    }
}

/* Length, version, count, sums and the words that are lent, each right or wrong: the first wrong one in the rules' order is
 * told. */
static void several_faults(size_t k) {
    const size_t lengths[] = {85, 4, 84, 86}, length = lengths[k % 4], words = 10 - k / 4 % 2;
    const uint64_t version = 1 + k / 8 % 2, count = 81 - k / 16 % 2, off = k / 32 % 2;
    const uint32_t number = length < 5 ? 12 : version != 1 ? 13 : count != 81 || length != 85 ? 15 : off != 0 ? 17 : 2;
    Call call = begin(1, 1, "faults 0x%x of a tally's file", (unsigned)k);
    hold_tally_file(&call, TALLY_OF_A_CELL);
    hold_bytes(&call, 0, 4, count);
    hold_bytes(&call, 4, 1, version);
    hold_bytes(&call, 5, 8, TALLY_OF_A_CELL[0] + off);
    call.length[BYTES] = length;
    call.length[SUMS] = words;
    check(&READ_TALLY, &call, number);
}

void check_tallies(void) {
    for (size_t at = 0; at < 8; at++) {
        a_cell(at);
    }
    for (size_t grid = 0; grid < COUNT(GRIDS); grid++) {
        tallies(GRIDS[grid]);
        write_entries(GRIDS[grid]);
    }
    turned_bits();
    for (size_t k = 1; k < 64; k++) {
        several_faults(k);
    }
}
