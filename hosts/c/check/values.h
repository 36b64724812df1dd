/* What the cases of the functions share: each is done, and once more with all spoiled that the function does not take. */
#ifndef VALUES_H
#define VALUES_H

#include "call.h"
#include "rules.h"

/* The one NaN that arithmetic makes. */
extern const uint64_t MADE_NAN;

/* The kinds of faces that carry no number. */
enum { P = BROTHWAGON_PERIODIC, N = BROTHWAGON_NO_SLIP, S = BROTHWAGON_SYMMETRY };

/* What no floor can be: not finite, or not above 0. */
extern const double BAD_FLOORS[8];

/* The call is done, however what it does not take is spoiled. */
void done(const Operation *operation, const Call *call);

/* A number that a buffer holds, and keeps. */
void hold(int buffer, size_t at, double number);

/* Patterns that a buffer holds, and keeps, from its first entry on. */
void hold_patterns(int buffer, const uint64_t *patterns, size_t count);

/* Small numbers of both signs, for a whole buffer. */
void hold_numbers(int buffer, size_t count);

/* The populations of the only cell. */
void hold_cell(const double f[DIRECTIONS]);

/* Faces of these kinds; a MovingWall has the speeds 0.25 and -0.5. */
void set_faces(Call *call, uint64_t x_min, uint64_t x_max, uint64_t y_min, uint64_t y_max);

#endif
