/* Initialisation and the readings. */
#include "values.h"

static void initialize(void) {
    Call call = begin(3, 2, "at rest, and with a velocity in every other cell");
    for (size_t c = 0; c < 6; c++) {
        const double rho = 1.0 + (double)c / 8.0, ux = c % 2 == 0 ? 0.0 : 0.1, uy = c % 2 == 0 ? 0.0 : -0.05;
        hold(TABLE, 3 * c, rho);
        hold(TABLE, 3 * c + 1, ux);
        hold(TABLE, 3 * c + 2, uy);
        for (size_t i = 0; i < DIRECTIONS; i++) {
            wanted[F][c + 6 * i] = c % 2 == 0 ? W[i] * rho : equilibrium(i, rho, ux, uy);
        }
    }
    done(&INITIALIZE, &call);
}

static void density(void) {
    const double c8[DIRECTIONS] = {0, 1};
    Call call = begin(1, 1, "C8");
    hold_cell(c8);
    wanted_answer[0] = pattern(1.0);
    done(&DENSITY, &call);
    call = begin(1, 1, "a NaN with a payload");
    wanted_answer[0] = MADE_NAN;
    done(&DENSITY, &call);
    for (size_t c = 0; c < 6; c++) {
        call = begin(3, 2, "cell %u", (unsigned)c);
        hold_numbers(F, 54);
        call.x = c % 3;
        call.y = c / 3;
        wanted_answer[0] = pattern(density_of(&call.settings, given[F], c));
        done(&DENSITY, &call);
    }
}

/* One cell's velocity, worked out by hand. */
static void velocity_by_hand(const char *name, const double f[DIRECTIONS], double fx, double fy, double ux, double uy) {
    Call call = begin(1, 1, "%s", name);
    hold_cell(f);
    call.settings.fx = fx;
    call.settings.fy = fy;
    wanted_answer[0] = pattern(ux);
    wanted_answer[1] = pattern(uy);
    done(&VELOCITY, &call);
}

static void velocity(void) {
    const double c8[DIRECTIONS] = {0, 1}, c9[DIRECTIONS] = {-1}, two[DIRECTIONS] = {2};
    velocity_by_hand("C8", c8, 0.0, 0.0, 1.0, 0.0);
    velocity_by_hand("C9", c9, 0.0, 0.0, 0.0, 0.0);
    velocity_by_hand("force 1, -2 on density 2", two, 1.0, -2.0, 0.25, -0.5);
    for (size_t c = 0; c < 6; c++) {
        Call call = begin(3, 2, "cell %u", (unsigned)c);
        double u[2];
        hold_numbers(F, 54);
        call.x = c % 3;
        call.y = c / 3;
        call.settings.fy = 0.3;
        velocity_of(&call.settings, given[F], c, u);
        wanted_answer[0] = pattern(u[0]);
        wanted_answer[1] = pattern(u[1]);
        done(&VELOCITY, &call);
    }
}

static void velocity_field(void) {
    Call call = begin(3, 2, "with a force");
    hold_numbers(F, 54);
    call.settings.fx = 0.3;
    velocities_of(&call.settings, given[F], wanted[U]);
    done(&VELOCITY_FIELD, &call);
}

static void total_mass(void) {
    Call call = begin(3, 2, "populations 0 to 53");
    for (size_t k = 0; k < 54; k++) {
        hold(F, k, (double)k);
    }
    wanted_answer[0] = pattern(53.0 * 54.0 / 2.0);
    done(&TOTAL_MASS, &call);
    call = begin(3, 2, "by the plain reading");
    hold_numbers(F, 54);
    wanted_answer[0] = pattern(mass_of(&call.settings, given[F]));
    done(&TOTAL_MASS, &call);
}

static void kinetic_energy(void) {
    const double c8[DIRECTIONS] = {0, 1};
    Call call = begin(1, 1, "C8");
    hold_cell(c8);
    wanted_answer[0] = pattern(0.5);
    done(&KINETIC_ENERGY, &call);
    call = begin(3, 2, "by the plain reading");
    hold_numbers(F, 54);
    call.settings.fx = 0.3;
    wanted_answer[0] = pattern(energy_of(&call.settings, given[F]));
    done(&KINETIC_ENERGY, &call);
}

static void plane(void) {
    for (size_t i = 0; i < DIRECTIONS; i++) {
        Call call = begin(3, 2, "direction %u", (unsigned)i);
        call.direction = i;
        wanted_answer[0] = 6 * i;
        wanted_answer[1] = 6;
        done(&PLANE, &call);
    }
}

void check_readings(void) {
    initialize();
    density();
    velocity();
    velocity_field();
    total_mass();
    kinetic_energy();
    plane();
}
