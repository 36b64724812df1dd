/* A plain reading of the rules, apart from the port: what the buffers and answers of a call must be. For Bgk, and for
 * Periodic, NoSlip, MovingWall and Symmetry faces; the other kinds are held to cases worked out by hand.
 *
 * Cell (x, y) is c = x + y nx, and its entry i stands at c + i nx ny. Ascending, c visits y outer and x inner. */
#ifndef RULES_H
#define RULES_H

#include "brothwagon.h"

enum { DIRECTIONS = 9, TALLY_NUMBERS = 1 + DIRECTIONS };

extern const double W[DIRECTIONS];

size_t cells_of(const brothwagon_settings *s);

double equilibrium(size_t i, double rho, double ux, double uy);

/* Readings of populations. */
double density_of(const brothwagon_settings *s, const double *f, size_t c);
void velocity_of(const brothwagon_settings *s, const double *f, size_t c, double u[2]);
void velocities_of(const brothwagon_settings *s, const double *f, double *u);
double mass_of(const brothwagon_settings *s, const double *f);
double energy_of(const brothwagon_settings *s, const double *f);

/* The sum of the patterns of all entries, and that of each direction's, wrapping at 64 bits. */
void tally_of(const brothwagon_settings *s, const double *f, uint64_t tally[TALLY_NUMBERS]);

/* Streams post into f, then applies the faces x min, x max, y min, y max. */
void stream(const brothwagon_settings *s, const double *post, double *f);

/* An obstacle in cell c throws the populations of before back into f: each goes the opposite way. */
void throw_back(const brothwagon_settings *s, const double *before, double *f, size_t c);

/* Collides f into post, with Guo's source where there is a force, then streams post into f. */
void step(const brothwagon_settings *s, double *f, double *post);

#endif
