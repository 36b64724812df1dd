/* The floor, in readings and steps of cells whose densities are about it. */
#include "values.h"

#include <math.h>
#include <string.h>

static const double FLOORS[] = {5e-324, 1e-300, 1e-12, 1.0, 1e300};

/* The number whose pattern is so much higher: by 1 the next one up of a positive number, by -1 the next one down. */
static double beside(double number, int by) {
    const uint64_t bits = pattern(number) + (uint64_t)by;
    memcpy(&number, &bits, sizeof number);
    return number;
}

/* Six cells with densities just below the floor, at it and just above, each of both signs: the one population of direction 5, so
 * that a cell that moves has the velocity (1, 1). */
static Call about(const char *name, double floor) {
    const double densities[] = {beside(floor, -1), floor, beside(floor, 1)};
    Call call = begin(3, 2, "%s, densities about the floor %g", name, floor);
    for (size_t k = 0; k < call.length[F]; k++) {
        hold(F, k, 0.0);
    }
    for (size_t c = 0; c < 6; c++) {
        hold(F, c + 5 * 6, c % 2 == 0 ? densities[c / 2] : -densities[c / 2]);
    }
    call.settings.floor = floor;
    return call;
}

/* At the floor and just above, a cell of positive density moves: the third and the fifth. */
static double speed_of(size_t c) { return c == 2 || c == 4 ? 1.0 : 0.0; }

static void readings(double floor) {
    Call call = about("readings", floor);
    double energy = 0.0;
    for (size_t c = 0; c < 6; c++) {
        call.x = c % 3;
        call.y = c / 3;
        wanted_answer[0] = wanted_answer[1] = pattern(speed_of(c));
        done(&VELOCITY, &call);
        energy += 0.5 * given[F][c + 5 * 6] * (2.0 * speed_of(c));
    }
    wanted_answer[0] = pattern(energy);
    done(&KINETIC_ENERGY, &call);
    for (size_t c = 0; c < 6; c++) {
        wanted[U][2 * c] = wanted[U][2 * c + 1] = speed_of(c);
    }
    done(&VELOCITY_FIELD, &call);
}

/* Half the force is in the velocity of a cell that moves, and in no other's. */
static void forced_readings(double floor) {
    Call call = about("forced readings", floor);
    call.settings.fx = floor;
    call.settings.fy = -floor;
    wanted_answer[0] = pattern(energy_of(&call.settings, given[F]));
    done(&KINETIC_ENERGY, &call);
    velocities_of(&call.settings, given[F], wanted[U]);
    done(&VELOCITY_FIELD, &call);
}

/* The inverse of a subnormal density is infinite, so that NaNs are made, and they are stored as the one. */
static void make_one_nan(double *entries, size_t count) {
    for (size_t k = 0; k < count; k++) {
        if (isnan(entries[k])) {
            memcpy(&entries[k], &MADE_NAN, sizeof MADE_NAN);
        }
    }
}

static void steps(double floor, double force) {
    Call call = about("a step", floor);
    call.settings.fx = force;
    step(&call.settings, wanted[F], wanted[POST]);
    make_one_nan(wanted[F], call.length[F]);
    make_one_nan(wanted[POST], call.length[POST]);
    done(&STEP, &call);
    call.steps = 1;
    done(&RUN, &call);
}

/* One cell of density 36, with the equilibrium of rest and a momentum of 6 along x besides. Below the floor it collides as at
 * rest: so much of the momentum is left. */
static void step_at_rest(const char *name, uint64_t collision, double left) {
    const double rest[DIRECTIONS] = {16, 4, 4, 4, 4, 1, 1, 1, 1}, along_x[DIRECTIONS] = {0, 1, 0, -1, 0, 1, -1, -1, 1};
    Call call = begin(1, 1, "%s below the floor", name);
    for (size_t i = 0; i < DIRECTIONS; i++) {
        given[F][i] = rest[i] + along_x[i];
        wanted[F][i] = wanted[POST][i] = rest[i] + left * along_x[i];
    }
    call.settings.collision = collision;
    call.settings.rate = 1.0;
    call.settings.floor = 37.0;
    done(&STEP, &call);
}

void check_floors(void) {
    for (size_t k = 0; k < COUNT(FLOORS); k++) {
        readings(FLOORS[k]);
        forced_readings(FLOORS[k]);
        steps(FLOORS[k], 0.0);
        steps(FLOORS[k], FLOORS[k]);
    }
    /* With tau 2, Bgk relaxes it by half; Trt has the rate 1; Mrt relaxes no momentum. */
    step_at_rest("Bgk", BROTHWAGON_BGK, 0.5);
    step_at_rest("Trt", BROTHWAGON_TRT, 0.0);
    step_at_rest("Mrt", BROTHWAGON_MRT, 1.0);
}
