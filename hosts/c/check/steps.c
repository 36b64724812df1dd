/* The step, the run and the steady run. */
#include "values.h"

#include <float.h>
#include <math.h>
#include <string.h>

/* One cell without neighbours collides with tau 2; the populations cancel, so that density and equilibrium are 0. */
static void step_by_hand(const char *name, uint64_t collision, double rate, const double f[DIRECTIONS],
                         const double to[DIRECTIONS]) {
    Call call = begin(1, 1, "%s", name);
    call.settings.collision = collision;
    call.settings.rate = rate;
    for (size_t i = 0; i < DIRECTIONS; i++) {
        given[F][i] = f[i];
        wanted[F][i] = wanted[POST][i] = to[i];
    }
    done(&STEP, &call);
}

static void step_collisions(void) {
    const double f[DIRECTIONS] = {-1, 1}, c10[DIRECTIONS] = {-0.5, 0.5}, c11[DIRECTIONS] = {-0.5, 0.25, 0, 0.25};
    /* The second row of M, which Mrt relaxes with 1.64. */
    const double energy[DIRECTIONS] = {-4, -1, -1, -1, -1, 2, 2, 2, 2};
    double relaxed[DIRECTIONS];
    for (size_t i = 0; i < DIRECTIONS; i++) {
        relaxed[i] = energy[i] * (36.0 - 1.64 * 36.0) / 36.0;
    }
    step_by_hand("C10", BROTHWAGON_BGK, NAN, f, c10);
    step_by_hand("C11", BROTHWAGON_TRT, 1.0, f, c11);
    step_by_hand("the second moment", BROTHWAGON_MRT, NAN, energy, relaxed);
}

/* What the rates can be at the most, on populations of 0. */
static void step_bounds(void) {
    const double nu[] = {0.0, 0.5, 0.5}, rate[] = {NAN, 0.0, 2.0};
    for (size_t k = 0; k < COUNT(nu); k++) {
        Call call = begin(1, 1, "viscosity %g, rate %g", nu[k], rate[k]);
        call.settings.nu = nu[k];
        call.settings.collision = k == 0 ? BROTHWAGON_BGK : BROTHWAGON_TRT;
        call.settings.rate = rate[k];
        for (size_t i = 0; i < DIRECTIONS; i++) {
            given[F][i] = wanted[F][i] = wanted[POST][i] = 0.0;
        }
        done(&STEP, &call);
    }
}

/* The least floor and the usual one, one between the densities of the flow below, and the highest. */
static const double FLOORS[] = {5e-324, 1e-12, 10.0, DBL_MAX};

/* A flow between walls with a force along both axes, which the plain reading steps on. */
static Call flow(const char *name, uint64_t steps, double floor) {
    Call call = begin(3, 2, "%s, %u steps, floor %g", name, (unsigned)steps, floor);
    hold_numbers(F, 54);
    set_faces(&call, P, P, N, BROTHWAGON_MOVING_WALL);
    call.settings.nu = 0.1;
    call.settings.fx = 0.01;
    call.settings.fy = -0.02;
    call.settings.floor = floor;
    call.steps = steps;
    for (uint64_t k = 0; k < steps; k++) {
        step(&call.settings, wanted[F], wanted[POST]);
    }
    return call;
}

static void step_and_run(double floor) {
    Call call = flow("a flow", 1, floor);
    done(&STEP, &call);
    for (uint64_t count = 0; count < 4; count++) {
        call = flow("a flow", count, floor);
        done(&RUN, &call);
    }
}

static void want_ended(uint64_t settled, uint64_t steps, double residual) {
    wanted_answer[0] = settled;
    wanted_answer[1] = steps;
    wanted_answer[2] = pattern(residual);
}

static double larger(double a, double b) { return a < b ? b : a; }

/* One step, and the residual by the rules. */
static void steady_by_reading(double tolerance, double floor) {
    Call call = flow("a flow to a steady state", 1, floor);
    double before[2 * 6], change = 0.0, highest = 0.0, residual;
    velocities_of(&call.settings, given[F], before);
    velocities_of(&call.settings, wanted[F], wanted[U]);
    for (size_t k = 0; k < 2 * 6; k++) {
        change = larger(change, fabs(wanted[U][k] - before[k]));
        highest = larger(highest, fabs(wanted[U][k]));
    }
    residual = highest == 0.0 ? change : change / highest;
    call.tolerance = tolerance;
    want_ended(residual < tolerance, 1, residual);
    done(&RUN_TO_STEADY_STATE, &call);
}

/* C10's cell: its density is 0 and so are its velocities; each step halves its populations. */
static void steady_at_rest(double tolerance, uint64_t steps, uint64_t check_every, uint64_t taken) {
    Call call =
        begin(1, 1, "at rest, tolerance %g, %u steps, check every %u", tolerance, (unsigned)steps, (unsigned)check_every);
    const double left = 1.0 / (double)(1 << taken);
    const uint64_t every = check_every == 0 ? 1 : check_every;
    for (size_t i = 0; i < DIRECTIONS; i++) {
        given[F][i] = i == 0 ? -1.0 : i == 1 ? 1.0 : 0.0;
        wanted[F][i] = left * given[F][i];
        if (taken > 0) {
            wanted[POST][i] = wanted[F][i];
        }
    }
    wanted[U][0] = wanted[U][1] = 0.0;
    call.tolerance = tolerance;
    call.steps = steps;
    call.check_every = check_every;
    want_ended(taken >= every && tolerance > 0.0, taken, taken >= every ? 0.0 : INFINITY);
    done(&RUN_TO_STEADY_STATE, &call);
}

/* A bad first snapshot: nothing is written. */
static void steady_bad_at_first(const char *name, const double f[DIRECTIONS]) {
    Call call = begin(1, 1, "a first snapshot with %s", name);
    hold_cell(f);
    call.tolerance = 1.0;
    call.steps = 5;
    check(&RUN_TO_STEADY_STATE, &call, 9);
}

/* Two cells. After a step directions 1 and 3 of the first are at the second, whose density then overflows; every velocity is
 * finite. The first snapshot is kept. */
static void steady_bad_later(double sign) {
    Call call = begin(2, 1, "a later snapshot with a density of %g", sign * INFINITY);
    for (size_t k = 0; k < 2 * DIRECTIONS; k++) {
        given[F][k] = wanted[F][k] = sign * (k == 2 ? 4.5e307 : k == 6 ? 4.4e307 : k == 1 ? 1.35e308 : 0.0);
    }
    call.settings.nu = 100.0;
    call.tolerance = 1.0;
    call.steps = 5;
    velocities_of(&call.settings, given[F], wanted[U]);
    step(&call.settings, wanted[F], wanted[POST]);
    wanted_answer[1] = 1;
    check(&RUN_TO_STEADY_STATE, &call, 9);
}

static void steady_bad(void) {
    const double not_a_number[DIRECTIONS] = {NAN}, below[DIRECTIONS] = {-INFINITY}, infinite[DIRECTIONS] = {0, INFINITY};
    const double overflowing[DIRECTIONS] = {0, 9e307, 0, 9e307};
    const double fast_along_x[DIRECTIONS] = {0, 1e300, 0, -1e300, 0, 0, 0, 0, 1e-11};
    const double fast_along_y[DIRECTIONS] = {0, 0, 1e300, 0, -1e300, 0, 0, 0, 1e-11};
    steady_bad_at_first("a NaN", not_a_number);
    steady_bad_at_first("a density of minus infinity, at rest", below);
    steady_bad_at_first("an infinite population", infinite);
    steady_bad_at_first("a density that overflows, at rest", overflowing);
    steady_bad_at_first("an infinite velocity along x alone", fast_along_x);
    steady_bad_at_first("an infinite velocity along y alone", fast_along_y);
    steady_bad_later(-1.0);
    steady_bad_later(1.0);
}

static void run_to_steady_state(void) {
    for (size_t k = 0; k < COUNT(FLOORS); k++) {
        steady_by_reading(0.0, FLOORS[k]);
        steady_by_reading(INFINITY, FLOORS[k]);
    }
    steady_at_rest(1.0, 5, 1, 1);
    steady_at_rest(1.0, 5, 0, 1);
    steady_at_rest(1.0, 5, 3, 3);
    steady_at_rest(0.0, 5, 2, 5);
    steady_at_rest(1.0, 2, 3, 2);
    steady_at_rest(1.0, 0, 1, 0);
    steady_bad();
}

void check_steps(void) {
    for (size_t k = 0; k < COUNT(FLOORS); k++) {
        step_and_run(FLOORS[k]);
    }
    step_collisions();
    step_bounds();
    run_to_steady_state();
}
