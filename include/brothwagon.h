/* Brothwagon: the D2Q9 lattice Boltzmann solver, proved. For C (C99 or later) and C++.
 *
 * Every function answers a number:
 *
 *    0  done
 *    1  a side or the cell count is outside its range: sides 1 to 4,096, at most 1,048,576 cells
 *    2  a lent buffer has the wrong length
 *    3  3 nu + 0.5 is not finite or below 0.5; a Trt rate is not finite, below 0 or above 2;
 *       or the floor is not finite or not above 0
 *    4  a force component is not finite
 *    5  a face number is not finite; a Pressure density is not above 0; or a Velocity face has 1 - un equal to 0
 *    6  x, y or direction outside, or the place of any obstacle of a list
 *    7  the lossless question or the reverse meets MovingWall, Velocity or Pressure
 *    8  the reverse on faces that are not lossless
 *    9  steady run: a snapshot has a density or a velocity component that is not finite
 *   10  the tolerance is NaN, or there are more than 1,000,000 steps
 *   12  a file has fewer than five bytes, so no version
 *   13  a file's version is not 1
 *   14  a checkpoint file is cut short before the end of its sides
 *   15  a file's count, or its actual length, is wrong
 *   16  a list of obstacles does not ascend strictly by x + y nx
 *   17  the sums of a tally's nine planes do not wrap to its first number
 *
 * They are tested in the order 1, 2, 3, 4, 5, 10, 6, 16, 7, 8, and of a file that is read, or a tally that is written, in the
 * order 12, 13, 14, 1, 15, 17, 2; the first that applies is answered. Each function below lists the ones that it tests; no
 * other is answered. A refused call (any number but 0, and 9 apart) writes to no lent buffer, nor to a tally that it would
 * change, and leaves zeros in its small answer array, which every call writes.
 *
 * Buffers. Entry (x, y, i) of the populations f and of the post-collision buffer stands at x + y nx + i nx ny: each has
 * 9 nx ny entries. A velocity buffer has 2 nx ny, a cell's two components at 2 (x + y nx). An initial table has 3 nx ny, a
 * cell's density, ux and uy at 3 (x + y nx). The length beside a pointer counts entries. Entries may hold any bits; a copied
 * entry keeps all of them, and a NaN that arithmetic makes is stored as 0x7ff8000000000000.
 *
 * A checkpoint file. Its numbers are big-endian: four bytes that count all that follow, 9 + 72 nx ny; one byte, the version 1;
 * nx and ny, two bytes each; the step number, four; then the 64 bits of every entry of f, eight bytes each, in the buffer's
 * order. So it has 13 + 72 nx ny bytes, and a state has one file: accepted files with equal sides, step and entries are equal
 * bytes.
 *
 * A tally. Ten numbers, {all, plane 0, .., plane 8}: the sum of the 64-bit patterns of all entries of f, and that of each
 * direction's, wrapping at 64 bits; so the nine wrap to the first. Streaming with faces that are lossless keeps the first: the
 * next f has that of post. A tally does not cover the sides or the step number. Its file has 85 bytes, and is big-endian too:
 * four bytes that count all that follow, 81; one byte, the version 1; then the ten numbers, eight bytes each. The checkpoint of
 * one cell begins with the same five bytes and is as long, so a file does not say which of the two it is.
 *
 * What the caller sees to. No pointer is NULL, not even beside a length of 0; each is to 8-byte aligned memory, but for a
 * file's, and nothing that is lent (settings and answers too) overlaps. The caller's floating-point mode is the usual one:
 * rounding to nearest even, subnormals kept (no flush to zero, so no -ffast-math in the program that is linked). The library
 * keeps nothing between calls; calls on different buffers may run at the same time.
 *
 * The processor. On x86-64 the library takes the highest level (x86-64, x86-64-v3, x86-64-v4) that the machine has, as the program
 * starts; every level gives the same bits. BROTHWAGON_LEVEL in the environment names a lower one. A word that is no level, or one
 * that the machine lacks, is said on standard error, and the highest is taken.
 */
#ifndef BROTHWAGON_H
#define BROTHWAGON_H

#include <stddef.h>
#include <stdint.h>

#ifdef __cplusplus
extern "C" {
#endif

/* The kinds of a face. A number that a kind does not carry is not looked at. Any other kind gives 5 where faces are tested. */
enum {
    BROTHWAGON_PERIODIC = 0,
    BROTHWAGON_NO_SLIP = 1,
    BROTHWAGON_MOVING_WALL = 2, /* a, b: the wall's velocity */
    BROTHWAGON_SYMMETRY = 3,
    BROTHWAGON_VELOCITY = 4, /* a, b: the velocity */
    BROTHWAGON_PRESSURE = 5  /* a: the density */
};

typedef struct {
    uint64_t kind;
    double a, b;
} brothwagon_face;

/* The kinds of collision. Any other kind gives 3 where there is a collision. */
enum {
    BROTHWAGON_BGK = 0,
    BROTHWAGON_MRT = 1,
    BROTHWAGON_TRT = 2 /* rate: the minus rate */
};

/* All 20 words are read, so a host that was compiled with 19, before there was a floor, must be compiled anew. A floor that is
 * left out is 0, which gives 3 where a density is tested: by velocity, velocity_field, kinetic_energy, step and the two runs. */
typedef struct {
    uint64_t nx, ny;
    double nu;     /* kinematic viscosity */
    double fx, fy; /* body force */
    uint64_t collision;
    double rate; /* of Trt alone */
    brothwagon_face x_min, x_max, y_min, y_max;
    double floor; /* finite and above 0: 1e-12 unless the study has thin regions; velocity and step say what it does */
} brothwagon_settings; /* 20 words of 8 bytes */

/* A cell of the grid that an obstacle fills. */
typedef struct {
    uint64_t x, y;
} brothwagon_obstacle;

/* Fills f with the equilibria of the table's densities and velocities.
 * Numbers 1, 2. */
uint32_t brothwagon_initialize(const brothwagon_settings *settings, const double *table, size_t table_length, double *f,
                               size_t f_length);

/* The density of one cell.
 * Numbers 1, 2, 6; then rho is 0. */
uint32_t brothwagon_density(const brothwagon_settings *settings, const double *f, size_t f_length, size_t x, size_t y,
                            double rho[1]);

/* The velocity of one cell, half the force included; (0, 0) where the density is below the floor, negative ones included.
 * Numbers 1, 2, 3 (the floor alone), 4, 6; then u is (0, 0). */
uint32_t brothwagon_velocity(const brothwagon_settings *settings, const double *f, size_t f_length, size_t x, size_t y,
                             double u[2]);

/* The velocity of every cell, into u.
 * Numbers 1, 2, 3 (the floor alone), 4; then u is as it was. */
uint32_t brothwagon_velocity_field(const brothwagon_settings *settings, const double *f, size_t f_length, double *u,
                                   size_t u_length);

/* The sum of all densities.
 * Numbers 1, 2; then mass is 0. */
uint32_t brothwagon_total_mass(const brothwagon_settings *settings, const double *f, size_t f_length, double mass[1]);

/* The sum of 0.5 rho |u|^2 over all cells.
 * Numbers 1, 2, 3 (the floor alone), 4; then energy is 0. */
uint32_t brothwagon_kinetic_energy(const brothwagon_settings *settings, const double *f, size_t f_length, double energy[1]);

/* Where all entries of one direction stand in f: part is {start, count}.
 * Numbers 1, 2, 6; then part is {0, 0}. */
uint32_t brothwagon_plane(const brothwagon_settings *settings, const double *f, size_t f_length, size_t direction,
                          uint64_t part[2]);

/* Streams post into f, then applies the faces x min, x max, y min, y max. post is only read.
 * Numbers 1, 2, 5; then f is as it was. */
uint32_t brothwagon_stream_with_faces(const brothwagon_settings *settings, const double *post, size_t post_length, double *f,
                                      size_t f_length);

/* Whether streaming with faces copies every post-collision entry: answer is {1, 0, 0, 0} if it does, else {0, x, y, i} of the
 * entry with the smallest index that no final entry is copied from.
 * Numbers 1, 5, 7; then answer is {0, 0, 0, 0}. */
uint32_t brothwagon_lossless(const brothwagon_settings *settings, uint64_t answer[4]);

/* Leaves in post the one post-collision buffer from which streaming with faces gives f. f is only read.
 * Numbers 1, 2, 5, 7, 8; then post is as it was. */
uint32_t brothwagon_reverse(const brothwagon_settings *settings, const double *f, size_t f_length, double *post,
                            size_t post_length);

/* One step: collides f into post, then streams post into f with faces. post keeps the post-collision state. A cell collides as
 * at rest where the magnitude of its density is below the floor.
 * Numbers 1, 2, 3, 4, 5; then f and post are as they were. */
uint32_t brothwagon_step(const brothwagon_settings *settings, double *f, size_t f_length, double *post, size_t post_length);

/* So many steps; 0 leaves both buffers as they are.
 * Numbers 1, 2, 3, 4, 5, 10; then f and post are as they were. */
uint32_t brothwagon_run(const brothwagon_settings *settings, uint64_t steps, double *f, size_t f_length, double *post,
                        size_t post_length);

/* Steps until the velocities settle. A snapshot of them is taken first, and after each step whose number check_every divides
 * (0 counts as 1); the residual is then max|change| over max|u|, or max|change| if max|u| is 0.
 * answer is {1, steps, residual} once a residual is below the tolerance, else {0, max_steps, last residual}, the residual as
 * its 64-bit pattern, and infinite if no check took place; u holds the last snapshot.
 * Numbers 1, 2, 3, 4, 5, 10; then f, post and u are as they were and answer is {0, 0, 0}.
 * Number 9 where a snapshot is bad, that is, a cell has a density or a velocity component that is not finite: answer is
 * {0, steps taken, 0}; f and post are as after that step, and u keeps the last good snapshot, or is as it was if the first is
 * bad. */
uint32_t brothwagon_run_to_steady_state(const brothwagon_settings *settings, double tolerance, uint64_t max_steps,
                                        uint64_t check_every, double *f, size_t f_length, double *post, size_t post_length,
                                        double *u, size_t u_length, uint64_t answer[3]);

/* Swaps the populations of each cell of the list with those of their opposite directions, as a wall in that cell throws them
 * back; every other entry keeps its bits, and a second call with the same list undoes the first. The list has list_count
 * obstacles, which ascend strictly by x + y nx; an empty one changes nothing. A study with posts calls it after each step.
 * Number 6 is tested over the whole list, then 16.
 * Numbers 1, 2, 6, 16; then f is as it was. */
uint32_t brothwagon_set_no_slip_bc(const brothwagon_settings *settings, const brothwagon_obstacle *list, size_t list_count,
                                   double *f, size_t f_length);

/* Writes the checkpoint file of f, with that step number, into file, which has 13 + 72 nx ny bytes.
 * Numbers 1, 2; then file is as it was. */
uint32_t brothwagon_write_checkpoint(const brothwagon_settings *settings, uint32_t step, const double *f, size_t f_length,
                                     uint8_t *file, size_t file_length);

/* The sides and the step number of a checkpoint file, so that a buffer that fits can be lent: answer is {nx, ny, step}.
 * Numbers 12, 13, 14, 1, 15; then answer is {0, 0, 0}. */
uint32_t brothwagon_checkpoint_sides(const uint8_t *file, size_t file_length, uint64_t answer[3]);

/* Reads a checkpoint file into f, which has 9 nx ny entries by the file's sides: answer is {nx, ny, step}.
 * Numbers 12, 13, 14, 1, 15, 2; then f is as it was and answer is {0, 0, 0}. */
uint32_t brothwagon_read_checkpoint(const uint8_t *file, size_t file_length, double *f, size_t f_length, uint64_t answer[3]);

/* The tally of f.
 * Numbers 1, 2; then tally is ten zeros. */
uint32_t brothwagon_tally(const brothwagon_settings *settings, const double *f, size_t f_length, uint64_t tally[10]);

/* Writes one entry of f, and moves the first number of tally and that of the entry's plane by the new pattern less the old,
 * wrapping. So what was the tally of f is that of the f that is left; any other ten numbers move in the same way.
 * Numbers 1, 2, 6; then f and tally are as they were. */
uint32_t brothwagon_write_entry(const brothwagon_settings *settings, size_t x, size_t y, size_t direction, uint64_t pattern,
                                double *f, size_t f_length, uint64_t tally[10]);

/* Writes the file of a tally into file, which has 85 bytes.
 * Numbers 17, 2; then file is as it was. */
uint32_t brothwagon_write_tally(const uint64_t tally[10], uint8_t *file, size_t file_length);

/* Reads the file of a tally into tally, which has ten numbers.
 * Numbers 12, 13, 15, 17, 2; then tally is as it was. */
uint32_t brothwagon_read_tally(const uint8_t *file, size_t file_length, uint64_t *tally, size_t tally_length);

#ifdef __cplusplus
}
#endif

#endif
