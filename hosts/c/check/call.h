/* One call of the library on guarded buffers, and what is expected of it. */
#ifndef CALL_H
#define CALL_H

#include "brothwagon.h"

#define COUNT(rows) (sizeof(rows) / sizeof *(rows))

/* The lent buffers; the last two are a tally's, of ten words, and a file's, of bytes. */
enum { F, POST, U, TABLE, SUMS, BYTES, BUFFERS };

/* The most words of a buffer, the most of an answer, and the words before and behind either that no call may touch; and the
 * most obstacles of a list. */
enum { MOST = 64, ANSWERS = 10, GUARD = 8, OBSTACLES = 8 };

/* All that a call can be given. */
typedef struct {
    brothwagon_settings settings;
    size_t length[BUFFERS];
    size_t x, y, direction;
    uint64_t pattern;
    double tolerance;
    uint64_t steps, check_every;
    uint32_t step;
    size_t file_at; /* the byte of its buffer at which a file begins */
    brothwagon_obstacle list[OBSTACLES];
    size_t list_count;
} Call;

typedef struct {
    const char *name;
    uint32_t (*make)(const Call *call);
    int lent[BUFFERS];     /* whether it is lent each buffer with a length that number 2 tests: a file that it reads is not */
    size_t numbers, words; /* of its answer: f64, or 64-bit words */
    uint32_t tests[8];     /* the numbers that it tests, in the rules' order; then 0 */
} Operation;

extern const Operation INITIALIZE, DENSITY, VELOCITY, VELOCITY_FIELD, TOTAL_MASS, KINETIC_ENERGY, PLANE, STREAM_WITH_FACES,
    LOSSLESS, REVERSE, STEP, RUN, RUN_TO_STEADY_STATE, SET_NO_SLIP_BC, WRITE_CHECKPOINT, CHECKPOINT_SIDES, READ_CHECKPOINT,
    TALLY, WRITE_ENTRY, WRITE_TALLY, READ_TALLY;

enum { OPERATIONS = 21 };
extern const Operation *const ALL[OPERATIONS];

/* Whether an operation tests a number. */
int tests_for(const Operation *operation, uint32_t number);

/* Whether an operation collides. If not, it tests of number 3 the floor alone, or nothing. */
int collides(const Operation *operation);

/* What the buffers hold before the next call, and what is expected of it: buffers and answer, as patterns. */
extern double given[BUFFERS][MOST], wanted[BUFFERS][MOST];
extern uint64_t wanted_answer[ANSWERS];

/* The pattern of a number. */
uint64_t pattern(double number);

/* Begins a case, named as by printf: buffers of canaries, expected to stay; an answer of zeros; and a call on a grid of this
 * size with buffers of the right lengths (a file's is a checkpoint's), Bgk with tau 2, no force, periodic faces, the floor
 * 1e-12, a file at an odd address, an obstacle in every cell, the pattern 1 to write, and zeros. */
Call begin(uint64_t nx, uint64_t ny, const char *format, ...);

/* Makes this list that of the call. Behind it stand places outside whose x + y nx wraps to 0, so that a look at one shows. */
void set_list(Call *call, const brothwagon_obstacle *list, size_t count);

/* Makes the call, and fails unless it answers this number and leaves what is wanted. */
void check(const Operation *operation, const Call *call, uint32_t number);

/* What was checked so far. */
extern unsigned long calls_checked, numbers_checked;

/* The checks: each function of the header where it is refused, and where it is done. */
void check_refusals(void);
void check_readings(void);
void check_streaming(void);
void check_steps(void);
void check_floors(void);
void check_obstacles(void);
void check_checkpoints(void);
void check_tallies(void);

#endif
