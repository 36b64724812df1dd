/* The checkpoint file, written and read. */
#include "file.h"
#include "values.h"

#include <string.h>

/* Step 0x01020304 of a cell, as the rules have it byte by byte: the count is 81. */
static const uint8_t FILE_OF_A_CELL[85] = {
    0x00, 0x00, 0x00, 0x51, 0x01, 0x00, 0x01, 0x00, 0x01, 0x01, 0x02, 0x03, 0x04, /* before the entries */
    0x7f, 0xf8, 0x00, 0x00, 0x00, 0x00, 0x00, 0x00,                               /* the NaN of arithmetic */
    0x7f, 0xf4, 0xde, 0xad, 0xbe, 0xef, 0x00, 0x01,                               /* a signalling NaN with a payload */
    0xff, 0xff, 0xff, 0xff, 0xff, 0xff, 0xff, 0xff,                               /* a NaN of ones */
    0x80, 0x00, 0x00, 0x00, 0x00, 0x00, 0x00, 0x00,                               /* -0.0 */
    0x00, 0x00, 0x00, 0x00, 0x00, 0x00, 0x00, 0x01,                               /* the smallest subnormal number */
    0x7f, 0xf0, 0x00, 0x00, 0x00, 0x00, 0x00, 0x00,                               /* infinity */
    0x3f, 0xf0, 0x00, 0x00, 0x00, 0x00, 0x00, 0x00,                               /* 1.0 */
    0x01, 0x23, 0x45, 0x67, 0x89, 0xab, 0xcd, 0xef,                               /* each byte another */
    0x00, 0x00, 0x00, 0x00, 0x00, 0x00, 0x00, 0x00};                              /* 0.0 */

static const uint64_t F_OF_A_CELL[DIRECTIONS] = {
    UINT64_C(0x7ff8000000000000), UINT64_C(0x7ff4deadbeef0001), UINT64_C(0xffffffffffffffff),
    UINT64_C(0x8000000000000000), UINT64_C(0x0000000000000001), UINT64_C(0x7ff0000000000000),
    UINT64_C(0x3ff0000000000000), UINT64_C(0x0123456789abcdef), UINT64_C(0x0000000000000000)};

static void want_header(uint64_t nx, uint64_t ny, uint64_t step) {
    wanted_answer[0] = nx;
    wanted_answer[1] = ny;
    wanted_answer[2] = step;
}

/* The file of a cell begins at each byte of a word. */
static void a_cell(size_t at) {
    Call call = begin(1, 1, "a cell, the file %u bytes past a multiple of 8", (unsigned)at);
    call.step = 0x01020304;
    call.file_at = at;
    hold_patterns(F, F_OF_A_CELL, DIRECTIONS);
    memcpy((uint8_t *)wanted[BYTES] + at, FILE_OF_A_CELL, sizeof FILE_OF_A_CELL);
    done(&WRITE_CHECKPOINT, &call);

    memcpy(given[BYTES], wanted[BYTES], sizeof given[BYTES]);
    memset(given[F], 0xa5, sizeof F_OF_A_CELL);
    want_header(1, 1, 0x01020304);
    done(&READ_CHECKPOINT, &call);
    memcpy(given[F], wanted[F], sizeof given[F]);
    done(&CHECKPOINT_SIDES, &call);
}

/* Sides that differ, and each entry a NaN with a payload of its own. */
static void grid(uint64_t nx, uint64_t ny, uint32_t step) {
    Call call = begin(nx, ny, "%u by %u, step %u", (unsigned)nx, (unsigned)ny, (unsigned)step);
    call.step = step;
    want_file(&call);
    done(&WRITE_CHECKPOINT, &call);

    hold_file(&call);
    want_header(nx, ny, step);
    done(&CHECKPOINT_SIDES, &call);
    memset(given[F], 0xa5, 8 * call.length[F]);
    done(&READ_CHECKPOINT, &call);
}

/* Settings with sides whose product, or whose low bits, are those of a grid with so many cells. */
static void sides_of_settings(uint64_t nx, uint64_t ny, size_t cells) {
    Call call = begin(1, 1, "sides 0x%llx by 0x%llx with buffers for %u cells", (unsigned long long)nx, (unsigned long long)ny,
                      (unsigned)cells);
    call.settings.nx = nx;
    call.settings.ny = ny;
    call.length[F] = 9 * cells;
    call.length[BYTES] = 13 + 72 * cells;
    check(&WRITE_CHECKPOINT, &call, 1);
}

void check_checkpoints(void) {
    const uint32_t steps[] = {0, 1, 256, UINT32_C(0x80000000), UINT32_MAX};
    const uint64_t two_to_32 = UINT64_C(1) << 32, most = UINT64_MAX;
    for (size_t at = 0; at < 8; at++) {
        a_cell(at);
    }
    for (size_t k = 0; k < COUNT(steps); k++) {
        grid(2, 3, steps[k]);
        grid(3, 2, steps[k]);
        grid(1, 6, steps[k]);
    }
    sides_of_settings(two_to_32, two_to_32, 0);
    sides_of_settings(most, most, 1);
    sides_of_settings(two_to_32 + 2, 3, 6);
    sides_of_settings(2, 65536 + 3, 6);
}
