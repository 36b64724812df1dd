#include "call.h"

#include <stdarg.h>
#include <stdio.h>
#include <stdlib.h>
#include <string.h>

double given[BUFFERS][MOST], wanted[BUFFERS][MOST];
uint64_t wanted_answer[ANSWERS];
unsigned long calls_checked, numbers_checked;

/* What is lent: the words between the guards. */
static double lent[BUFFERS][GUARD + MOST + GUARD];
static double numbers[GUARD + ANSWERS + GUARD];
static uint64_t words[GUARD + ANSWERS + GUARD];

/* A buffer that a function writes, and one that it only reads. */
static double *buffer(int which) { return &lent[which][GUARD]; }
static const double *only_read(int which) { return buffer(which); }

/* No C reads or writes these words but as bytes. */
static uint64_t *tally_sums(void) { return (uint64_t *)buffer(SUMS); }
static const uint64_t *only_read_sums(void) { return tally_sums(); }

static uint8_t *file(const Call *c) { return (uint8_t *)buffer(BYTES) + c->file_at; }
static const uint8_t *only_read_file(const Call *c) { return file(c); }

static double *number_answer(void) { return &numbers[GUARD]; }
static uint64_t *word_answer(void) { return &words[GUARD]; }

/* ---- the operations */

static uint32_t initialize(const Call *c) {
    return brothwagon_initialize(&c->settings, only_read(TABLE), c->length[TABLE], buffer(F), c->length[F]);
}

static uint32_t density(const Call *c) {
    return brothwagon_density(&c->settings, only_read(F), c->length[F], c->x, c->y, number_answer());
}

static uint32_t velocity(const Call *c) {
    return brothwagon_velocity(&c->settings, only_read(F), c->length[F], c->x, c->y, number_answer());
}

static uint32_t velocity_field(const Call *c) {
    return brothwagon_velocity_field(&c->settings, only_read(F), c->length[F], buffer(U), c->length[U]);
}

static uint32_t total_mass(const Call *c) {
    return brothwagon_total_mass(&c->settings, only_read(F), c->length[F], number_answer());
}

static uint32_t kinetic_energy(const Call *c) {
    return brothwagon_kinetic_energy(&c->settings, only_read(F), c->length[F], number_answer());
}

static uint32_t plane(const Call *c) {
    return brothwagon_plane(&c->settings, only_read(F), c->length[F], c->direction, word_answer());
}

static uint32_t stream_with_faces(const Call *c) {
    return brothwagon_stream_with_faces(&c->settings, only_read(POST), c->length[POST], buffer(F), c->length[F]);
}

static uint32_t lossless(const Call *c) { return brothwagon_lossless(&c->settings, word_answer()); }

static uint32_t reverse(const Call *c) {
    return brothwagon_reverse(&c->settings, only_read(F), c->length[F], buffer(POST), c->length[POST]);
}

static uint32_t step_once(const Call *c) {
    return brothwagon_step(&c->settings, buffer(F), c->length[F], buffer(POST), c->length[POST]);
}

static uint32_t run(const Call *c) {
    return brothwagon_run(&c->settings, c->steps, buffer(F), c->length[F], buffer(POST), c->length[POST]);
}

static uint32_t run_to_steady_state(const Call *c) {
    return brothwagon_run_to_steady_state(&c->settings, c->tolerance, c->steps, c->check_every, buffer(F), c->length[F],
                                          buffer(POST), c->length[POST], buffer(U), c->length[U], word_answer());
}

static uint32_t set_no_slip_bc(const Call *c) {
    return brothwagon_set_no_slip_bc(&c->settings, c->list, c->list_count, buffer(F), c->length[F]);
}

static uint32_t write_checkpoint(const Call *c) {
    return brothwagon_write_checkpoint(&c->settings, c->step, only_read(F), c->length[F], file(c), c->length[BYTES]);
}

static uint32_t checkpoint_sides(const Call *c) {
    return brothwagon_checkpoint_sides(only_read_file(c), c->length[BYTES], word_answer());
}

static uint32_t read_checkpoint(const Call *c) {
    return brothwagon_read_checkpoint(only_read_file(c), c->length[BYTES], buffer(F), c->length[F], word_answer());
}

static uint32_t tally(const Call *c) { return brothwagon_tally(&c->settings, only_read(F), c->length[F], word_answer()); }

static uint32_t write_entry(const Call *c) {
    return brothwagon_write_entry(&c->settings, c->x, c->y, c->direction, c->pattern, buffer(F), c->length[F], tally_sums());
}

static uint32_t write_tally(const Call *c) { return brothwagon_write_tally(only_read_sums(), file(c), c->length[BYTES]); }

static uint32_t read_tally(const Call *c) {
    return brothwagon_read_tally(only_read_file(c), c->length[BYTES], tally_sums(), c->length[SUMS]);
}

/* The name; the call; whether f, post, u, table, tally and file are lent with a length that number 2 tests; numbers and words of
 * the answer; what is tested. */
const Operation INITIALIZE = {"brothwagon_initialize", initialize, {1, 0, 0, 1}, 0, 0, {1, 2, 0}};
const Operation DENSITY = {"brothwagon_density", density, {1, 0, 0, 0}, 1, 0, {1, 2, 6, 0}};
const Operation VELOCITY = {"brothwagon_velocity", velocity, {1, 0, 0, 0}, 2, 0, {1, 2, 3, 4, 6, 0}};
const Operation VELOCITY_FIELD = {"brothwagon_velocity_field", velocity_field, {1, 0, 1, 0}, 0, 0, {1, 2, 3, 4, 0}};
const Operation TOTAL_MASS = {"brothwagon_total_mass", total_mass, {1, 0, 0, 0}, 1, 0, {1, 2, 0}};
const Operation KINETIC_ENERGY = {"brothwagon_kinetic_energy", kinetic_energy, {1, 0, 0, 0}, 1, 0, {1, 2, 3, 4, 0}};
const Operation PLANE = {"brothwagon_plane", plane, {1, 0, 0, 0}, 0, 2, {1, 2, 6, 0}};
const Operation STREAM_WITH_FACES = {"brothwagon_stream_with_faces", stream_with_faces, {1, 1, 0, 0}, 0, 0, {1, 2, 5, 0}};
const Operation LOSSLESS = {"brothwagon_lossless", lossless, {0, 0, 0, 0}, 0, 4, {1, 5, 7, 0}};
const Operation REVERSE = {"brothwagon_reverse", reverse, {1, 1, 0, 0}, 0, 0, {1, 2, 5, 7, 8, 0}};
const Operation STEP = {"brothwagon_step", step_once, {1, 1, 0, 0}, 0, 0, {1, 2, 3, 4, 5, 0}};
const Operation RUN = {"brothwagon_run", run, {1, 1, 0, 0}, 0, 0, {1, 2, 3, 4, 5, 10, 0}};
const Operation RUN_TO_STEADY_STATE = {
    "brothwagon_run_to_steady_state", run_to_steady_state, {1, 1, 1, 0}, 0, 3, {1, 2, 3, 4, 5, 10, 0}};
const Operation SET_NO_SLIP_BC = {"brothwagon_set_no_slip_bc", set_no_slip_bc, {1, 0, 0, 0}, 0, 0, {1, 2, 6, 16, 0}};
const Operation WRITE_CHECKPOINT = {"brothwagon_write_checkpoint", write_checkpoint, {1, 0, 0, 0, 0, 1}, 0, 0, {1, 2, 0}};
const Operation CHECKPOINT_SIDES = {"brothwagon_checkpoint_sides", checkpoint_sides, {0, 0, 0, 0}, 0, 3,
                                    {12, 13, 14, 1, 15, 0}};
const Operation READ_CHECKPOINT = {"brothwagon_read_checkpoint", read_checkpoint, {1, 0, 0, 0}, 0, 3,
                                   {12, 13, 14, 1, 15, 2, 0}};
const Operation TALLY = {"brothwagon_tally", tally, {1, 0, 0, 0}, 0, 10, {1, 2, 0}};
const Operation WRITE_ENTRY = {"brothwagon_write_entry", write_entry, {1, 0, 0, 0}, 0, 0, {1, 2, 6, 0}};
const Operation WRITE_TALLY = {"brothwagon_write_tally", write_tally, {0, 0, 0, 0, 0, 1}, 0, 0, {17, 2, 0}};
const Operation READ_TALLY = {"brothwagon_read_tally", read_tally, {0, 0, 0, 0, 1}, 0, 0, {12, 13, 15, 17, 2, 0}};

const Operation *const ALL[OPERATIONS] = {
    &INITIALIZE, &DENSITY, &VELOCITY, &VELOCITY_FIELD, &TOTAL_MASS, &KINETIC_ENERGY, &PLANE, &STREAM_WITH_FACES, &LOSSLESS,
    &REVERSE, &STEP, &RUN, &RUN_TO_STEADY_STATE, &SET_NO_SLIP_BC, &WRITE_CHECKPOINT, &CHECKPOINT_SIDES, &READ_CHECKPOINT,
    &TALLY, &WRITE_ENTRY, &WRITE_TALLY, &READ_TALLY};

int tests_for(const Operation *operation, uint32_t number) {
    for (const uint32_t *test = operation->tests; *test != 0; test++) {
        if (*test == number) {
            return 1;
        }
    }
    return 0;
}

/* What collides fills post. */
int collides(const Operation *operation) { return tests_for(operation, 3) && operation->lent[POST]; }

/* ---- a call and what it leaves */

/* The case that is being checked. */
static char name[200];

uint64_t pattern(double number) {
    uint64_t bits;
    memcpy(&bits, &number, sizeof bits);
    return bits;
}

/* A NaN with a payload that tells each word of each buffer from all others; none of its bytes is 0. */
static uint64_t canary(int which, size_t place) { return UINT64_C(0x7ff4a5a5a5a5a5a5) ^ ((uint64_t)which << 32 | place); }

static void fill(double *into, int which, size_t count) {
    for (size_t k = 0; k < count; k++) {
        const uint64_t bits = canary(which, k);
        memcpy(&into[k], &bits, sizeof bits);
    }
}

void set_list(Call *call, const brothwagon_obstacle *list, size_t count) {
    const brothwagon_obstacle behind = {0 - call->settings.nx, 1};
    for (size_t k = 0; k < OBSTACLES; k++) {
        call->list[k] = k < count ? list[k] : behind;
    }
    call->list_count = count;
}

/* An obstacle in every cell. */
static void fill_grid(Call *call) {
    brothwagon_obstacle list[OBSTACLES];
    const size_t nx = call->settings.nx, cells = nx * call->settings.ny;
    for (size_t c = 0; c < cells; c++) {
        list[c].x = c % nx;
        list[c].y = c / nx;
    }
    set_list(call, list, cells);
}

Call begin(uint64_t nx, uint64_t ny, const char *format, ...) {
    const size_t a_cell[BUFFERS] = {9, 9, 2, 3, 0, 72}, besides[BUFFERS] = {0, 0, 0, 0, 10, 13};
    va_list arguments;
    Call call;
    va_start(arguments, format);
    vsnprintf(name, sizeof name, format, arguments);
    va_end(arguments);
    memset(&call, 0, sizeof call);
    call.settings.nx = nx;
    call.settings.ny = ny;
    call.settings.nu = 0.5;
    call.settings.floor = 1e-12;
    for (int which = 0; which < BUFFERS; which++) {
        call.length[which] = a_cell[which] * nx * ny + besides[which];
        fill(given[which], which, MOST);
        fill(wanted[which], which, MOST);
    }
    call.file_at = 1;
    call.pattern = 1;
    fill_grid(&call);
    memset(wanted_answer, 0, sizeof wanted_answer);
    return call;
}

static void differs(const Operation *operation, const char *what, uint64_t expected, uint64_t seen) {
    fprintf(stderr, "check: %s, %s: %s: expected 0x%016llx, seen 0x%016llx\n", operation->name, name, what,
            (unsigned long long)expected, (unsigned long long)seen);
    exit(EXIT_FAILURE);
}

/* So many words have the same bits; before the first entry of what is named stand so many. */
static void same(const Operation *operation, const char *what, const void *seen, const void *expected, size_t count,
                 size_t before) {
    for (size_t k = 0; k < count; k++) {
        uint64_t is, should_be;
        memcpy(&is, (const char *)seen + 8 * k, sizeof is);
        memcpy(&should_be, (const char *)expected + 8 * k, sizeof should_be);
        if (is != should_be) {
            char place[100];
            snprintf(place, sizeof place, "%s at %ld", what, (long)k - (long)before);
            differs(operation, place, should_be, is);
        }
    }
    numbers_checked += count;
}

/* An answer: what is wanted in its first words, canaries before and behind. */
static void same_answer(const Operation *operation, const void *seen, int which, size_t count) {
    double expected[GUARD + ANSWERS + GUARD];
    fill(expected, which, GUARD + ANSWERS + GUARD);
    memcpy(&expected[GUARD], wanted_answer, 8 * count);
    same(operation, "the answer", seen, expected, GUARD + ANSWERS + GUARD, GUARD);
}

static void lend(void) {
    for (int which = 0; which < BUFFERS; which++) {
        fill(lent[which], BUFFERS + which, GUARD + MOST + GUARD);
        memcpy(buffer(which), given[which], sizeof given[which]);
    }
    fill(numbers, 2 * BUFFERS, GUARD + ANSWERS + GUARD);
    memcpy(words, numbers, sizeof words);
}

void check(const Operation *operation, const Call *call, uint32_t number) {
    static const char *const names[BUFFERS] = {"f", "post", "u", "the table", "the tally", "the words about the file"};
    const Call before = *call;
    lend();
    const uint32_t seen = operation->make(call);
    if (seen != number) {
        differs(operation, "the number", number, seen);
    }
    same(operation, "the settings", &call->settings, &before.settings, sizeof before.settings / 8, 0);
    same(operation, "the list", call->list, before.list, sizeof before.list / 8, 0);
    for (int which = 0; which < BUFFERS; which++) {
        double expected[GUARD + MOST + GUARD];
        fill(expected, BUFFERS + which, GUARD + MOST + GUARD);
        memcpy(&expected[GUARD], wanted[which], sizeof wanted[which]);
        same(operation, names[which], lent[which], expected, GUARD + MOST + GUARD, GUARD);
    }
    same_answer(operation, numbers, 2 * BUFFERS, operation->numbers);
    same_answer(operation, words, 2 * BUFFERS, operation->words);
    calls_checked++;
    numbers_checked++;
}
