#include "rules.h"

#include <math.h>
#include <string.h>

static const int E[DIRECTIONS][2] = {{0, 0}, {1, 0}, {0, 1}, {-1, 0}, {0, -1}, {1, 1}, {-1, 1}, {-1, -1}, {1, -1}};

const double W[DIRECTIONS] = {4.0 / 9.0,  1.0 / 9.0,  1.0 / 9.0,  1.0 / 9.0, 1.0 / 9.0,
                              1.0 / 36.0, 1.0 / 36.0, 1.0 / 36.0, 1.0 / 36.0};

size_t cells_of(const brothwagon_settings *s) { return s->nx * s->ny; }

/* e·u */
static double along(size_t i, double x, double y) { return E[i][0] * x + E[i][1] * y; }

double equilibrium(size_t i, double rho, double ux, double uy) {
    const double eu = along(i, ux, uy), uu = ux * ux + uy * uy;
    return W[i] * rho * (1.0 + 3.0 * eu + 4.5 * eu * eu - 1.5 * uu);
}

static double guo_source(const brothwagon_settings *s, size_t i, double ux, double uy) {
    const double eu = along(i, ux, uy), ef = along(i, s->fx, s->fy);
    return W[i] * (3.0 * ((E[i][0] - ux) * s->fx + (E[i][1] - uy) * s->fy) + 9.0 * eu * ef);
}

double density_of(const brothwagon_settings *s, const double *f, size_t c) {
    double rho = 0.0;
    for (size_t i = 0; i < DIRECTIONS; i++) {
        rho += f[c + i * cells_of(s)];
    }
    return rho;
}

/* A cell's momentum along x (0) or y (1), half the force included. */
static double momentum_of(const brothwagon_settings *s, const double *f, size_t c, int axis) {
    double sum = 0.0;
    for (size_t i = 0; i < DIRECTIONS; i++) {
        sum += f[c + i * cells_of(s)] * E[i][axis];
    }
    return sum + 0.5 * (axis == 0 ? s->fx : s->fy);
}

void velocity_of(const brothwagon_settings *s, const double *f, size_t c, double u[2]) {
    const double rho = density_of(s, f, c);
    for (int axis = 0; axis < 2; axis++) {
        u[axis] = rho < s->floor ? 0.0 : momentum_of(s, f, c, axis) / rho;
    }
}

void velocities_of(const brothwagon_settings *s, const double *f, double *u) {
    for (size_t c = 0; c < cells_of(s); c++) {
        velocity_of(s, f, c, &u[2 * c]);
    }
}

double mass_of(const brothwagon_settings *s, const double *f) {
    double sum = 0.0;
    for (size_t c = 0; c < cells_of(s); c++) {
        sum += density_of(s, f, c);
    }
    return sum;
}

double energy_of(const brothwagon_settings *s, const double *f) {
    double sum = 0.0, u[2];
    for (size_t c = 0; c < cells_of(s); c++) {
        velocity_of(s, f, c, u);
        sum += 0.5 * density_of(s, f, c) * (u[0] * u[0] + u[1] * u[1]);
    }
    return sum;
}

void tally_of(const brothwagon_settings *s, const double *f, uint64_t tally[TALLY_NUMBERS]) {
    memset(tally, 0, TALLY_NUMBERS * sizeof *tally);
    for (size_t k = 0; k < DIRECTIONS * cells_of(s); k++) {
        uint64_t bits;
        memcpy(&bits, &f[k], sizeof bits);
        tally[0] += bits;
        tally[1 + k / cells_of(s)] += bits;
    }
}

static void collide(const brothwagon_settings *s, const double *f, double *post, size_t c) {
    const double omega = 1.0 / (3.0 * s->nu + 0.5), rho = density_of(s, f, c);
    const double inverse = fabs(rho) < s->floor ? 0.0 : 1.0 / rho;
    const double ux = momentum_of(s, f, c, 0) * inverse, uy = momentum_of(s, f, c, 1) * inverse;
    const int forced = s->fx != 0.0 || s->fy != 0.0;
    for (size_t i = 0; i < DIRECTIONS; i++) {
        const double was = f[c + i * cells_of(s)], source = forced ? guo_source(s, i, ux, uy) : 0.0;
        post[c + i * cells_of(s)] = was - omega * (was - equilibrium(i, rho, ux, uy)) + (1.0 - 0.5 * omega) * source;
    }
}

/* A copied entry keeps all its bits. */
static void copy(double *to, const double *from) { memcpy(to, from, sizeof *to); }

/* The direction with these components. */
static size_t direction_of(int ex, int ey) {
    size_t i = 0;
    while (E[i][0] != ex || E[i][1] != ey) {
        i++;
    }
    return i;
}

/* A face, the axis that it stands on, x (0) or y (1), and its inward normal's component on that. */
typedef struct {
    brothwagon_face what;
    int axis, inward;
} Side;

/* Direction i of cell c at a face takes what the same cell has in post. */
static void take(const brothwagon_settings *s, Side side, const double *post, double *f, size_t c, size_t i) {
    const size_t opposite = direction_of(-E[i][0], -E[i][1]);
    const size_t mirrored = side.axis == 0 ? direction_of(-E[i][0], E[i][1]) : direction_of(E[i][0], -E[i][1]);
    const size_t from = side.what.kind == BROTHWAGON_SYMMETRY ? mirrored : opposite;
    double *to = &f[c + i * cells_of(s)];
    copy(to, &post[c + from * cells_of(s)]);
    if (side.what.kind == BROTHWAGON_MOVING_WALL && (side.what.a != 0.0 || side.what.b != 0.0)) {
        *to += 6.0 * W[i] * density_of(s, post, c) * along(i, side.what.a, side.what.b);
    }
}

static void apply(const brothwagon_settings *s, Side side, const double *post, double *f) {
    for (size_t c = 0; c < cells_of(s); c++) {
        const size_t place = side.axis == 0 ? c % s->nx : c / s->nx, last = (side.axis == 0 ? s->nx : s->ny) - 1;
        for (size_t i = 0; i < DIRECTIONS; i++) {
            if (place == (side.inward == 1 ? 0 : last) && E[i][side.axis] == side.inward) {
                take(s, side, post, f, c, i);
            }
        }
    }
}

void stream(const brothwagon_settings *s, const double *post, double *f) {
    const Side sides[4] = {{s->x_min, 0, 1}, {s->x_max, 0, -1}, {s->y_min, 1, 1}, {s->y_max, 1, -1}};
    for (size_t c = 0; c < cells_of(s); c++) {
        for (size_t i = 0; i < DIRECTIONS; i++) {
            const size_t x = (c % s->nx + s->nx + E[i][0]) % s->nx, y = (c / s->nx + s->ny + E[i][1]) % s->ny;
            copy(&f[x + y * s->nx + i * cells_of(s)], &post[c + i * cells_of(s)]);
        }
    }
    for (int k = 0; k < 4; k++) {
        if (sides[k].what.kind != BROTHWAGON_PERIODIC) {
            apply(s, sides[k], post, f);
        }
    }
}

void throw_back(const brothwagon_settings *s, const double *before, double *f, size_t c) {
    for (size_t i = 0; i < DIRECTIONS; i++) {
        copy(&f[c + direction_of(-E[i][0], -E[i][1]) * cells_of(s)], &before[c + i * cells_of(s)]);
    }
}

void step(const brothwagon_settings *s, double *f, double *post) {
    for (size_t c = 0; c < cells_of(s); c++) {
        collide(s, f, post, c);
    }
    stream(s, post, f);
}
