#include "values.h"

#include <math.h>
#include <string.h>

const uint64_t MADE_NAN = UINT64_C(0x7ff8000000000000);

const double BAD_FLOORS[8] = {NAN, -NAN, INFINITY, -INFINITY, 0.0, -0.0, -1e-12, -5e-324};

void done(const Operation *operation, const Call *call) {
    const brothwagon_face bad = {BROTHWAGON_MOVING_WALL, NAN, NAN};
    Call other = *call;
    check(operation, call, 0);
    if (!collides(operation)) {
        other.settings.nu = NAN;
        other.settings.collision = UINT64_MAX;
    }
    if (!tests_for(operation, 4)) {
        other.settings.fx = other.settings.fy = NAN;
    }
    if (!tests_for(operation, 5)) {
        other.settings.x_min = other.settings.x_max = other.settings.y_min = other.settings.y_max = bad;
    }
    check(operation, &other, 0);
    for (size_t k = 0; !tests_for(operation, 3) && k < COUNT(BAD_FLOORS); k++) {
        other.settings.floor = BAD_FLOORS[k];
        check(operation, &other, 0);
    }
}

void hold(int buffer, size_t at, double number) { given[buffer][at] = wanted[buffer][at] = number; }

void hold_patterns(int buffer, const uint64_t *patterns, size_t count) {
    memcpy(given[buffer], patterns, 8 * count);
    memcpy(wanted[buffer], patterns, 8 * count);
}

void hold_numbers(int buffer, size_t count) {
    for (size_t k = 0; k < count; k++) {
        hold(buffer, k, 0.25 + (double)((7 * k) % 61) / 32.0 - (k % 9 == 8 ? 1.0 : 0.0));
    }
}

void hold_cell(const double f[DIRECTIONS]) {
    for (size_t i = 0; i < DIRECTIONS; i++) {
        hold(F, i, f[i]);
    }
}

/* What a kind does not carry is not looked at. */
static brothwagon_face face(uint64_t kind) {
    const brothwagon_face wall = {BROTHWAGON_MOVING_WALL, 0.25, -0.5}, other = {kind, NAN, NAN};
    return kind == BROTHWAGON_MOVING_WALL ? wall : other;
}

void set_faces(Call *call, uint64_t x_min, uint64_t x_max, uint64_t y_min, uint64_t y_max) {
    call->settings.x_min = face(x_min);
    call->settings.x_max = face(x_max);
    call->settings.y_min = face(y_min);
    call->settings.y_max = face(y_max);
}
