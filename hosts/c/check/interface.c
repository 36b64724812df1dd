/* What include/brothwagon.h must declare, written apart from it. Compiles only if each type is this one; hosts/c/run also
 * holds the header's declarations to these word for word, for the name of a parameter and the length of an array are no part
 * of a type. */
#include "brothwagon.h"

#include <assert.h>

/* A face is three words, settings are twenty, an obstacle is two. */
#define WORD(type, field, place) static_assert(offsetof(type, field) == 8 * (place), #type "." #field " is another word")

static_assert(sizeof(double) == 8, "an entry is one word");
static_assert(sizeof(size_t) == 8, "a length is one word");

static_assert(sizeof(brothwagon_face) == 8 * 3, "a face has another size");
WORD(brothwagon_face, kind, 0);
WORD(brothwagon_face, a, 1);
WORD(brothwagon_face, b, 2);

static_assert(sizeof(brothwagon_settings) == 8 * 20, "settings have another size");
WORD(brothwagon_settings, nx, 0);
WORD(brothwagon_settings, ny, 1);
WORD(brothwagon_settings, nu, 2);
WORD(brothwagon_settings, fx, 3);
WORD(brothwagon_settings, fy, 4);
WORD(brothwagon_settings, collision, 5);
WORD(brothwagon_settings, rate, 6);
WORD(brothwagon_settings, x_min, 7);
WORD(brothwagon_settings, x_max, 10);
WORD(brothwagon_settings, y_min, 13);
WORD(brothwagon_settings, y_max, 16);
WORD(brothwagon_settings, floor, 19);

static_assert(sizeof(brothwagon_obstacle) == 8 * 2, "an obstacle has another size");
WORD(brothwagon_obstacle, x, 0);
WORD(brothwagon_obstacle, y, 1);

static_assert(BROTHWAGON_PERIODIC == 0, "Periodic is 0");
static_assert(BROTHWAGON_NO_SLIP == 1, "NoSlip is 1");
static_assert(BROTHWAGON_MOVING_WALL == 2, "MovingWall is 2");
static_assert(BROTHWAGON_SYMMETRY == 3, "Symmetry is 3");
static_assert(BROTHWAGON_VELOCITY == 4, "Velocity is 4");
static_assert(BROTHWAGON_PRESSURE == 5, "Pressure is 5");
static_assert(BROTHWAGON_BGK == 0, "Bgk is 0");
static_assert(BROTHWAGON_MRT == 1, "Mrt is 1");
static_assert(BROTHWAGON_TRT == 2, "Trt is 2");

/* The type of each field: a pointer to it is a pointer to no other. */
void fields_have_types(brothwagon_face *face, brothwagon_settings *settings, brothwagon_obstacle *obstacle);

void fields_have_types(brothwagon_face *face, brothwagon_settings *settings, brothwagon_obstacle *obstacle) {
    uint64_t *const words[] = {&face->kind, &settings->nx, &settings->ny, &settings->collision, &obstacle->x, &obstacle->y};
    double *const numbers[] = {&face->a,      &face->b,        &settings->nu,   &settings->fx,
                               &settings->fy, &settings->rate, &settings->floor};
    brothwagon_face *const faces[] = {&settings->x_min, &settings->x_max, &settings->y_min, &settings->y_max};
    (void)words, (void)numbers, (void)faces;
}

#ifdef __cplusplus
extern "C" {
#endif

uint32_t brothwagon_initialize(const brothwagon_settings *settings, const double *table, size_t table_length, double *f,
                               size_t f_length);

uint32_t brothwagon_density(const brothwagon_settings *settings, const double *f, size_t f_length, size_t x, size_t y,
                            double rho[1]);

uint32_t brothwagon_velocity(const brothwagon_settings *settings, const double *f, size_t f_length, size_t x, size_t y,
                             double u[2]);

uint32_t brothwagon_velocity_field(const brothwagon_settings *settings, const double *f, size_t f_length, double *u,
                                   size_t u_length);

uint32_t brothwagon_total_mass(const brothwagon_settings *settings, const double *f, size_t f_length, double mass[1]);

uint32_t brothwagon_kinetic_energy(const brothwagon_settings *settings, const double *f, size_t f_length, double energy[1]);

uint32_t brothwagon_plane(const brothwagon_settings *settings, const double *f, size_t f_length, size_t direction,
                          uint64_t part[2]);

uint32_t brothwagon_stream_with_faces(const brothwagon_settings *settings, const double *post, size_t post_length, double *f,
                                      size_t f_length);

uint32_t brothwagon_lossless(const brothwagon_settings *settings, uint64_t answer[4]);

uint32_t brothwagon_reverse(const brothwagon_settings *settings, const double *f, size_t f_length, double *post,
                            size_t post_length);

uint32_t brothwagon_step(const brothwagon_settings *settings, double *f, size_t f_length, double *post, size_t post_length);

uint32_t brothwagon_run(const brothwagon_settings *settings, uint64_t steps, double *f, size_t f_length, double *post,
                        size_t post_length);

uint32_t brothwagon_run_to_steady_state(const brothwagon_settings *settings, double tolerance, uint64_t max_steps,
                                        uint64_t check_every, double *f, size_t f_length, double *post, size_t post_length,
                                        double *u, size_t u_length, uint64_t answer[3]);

uint32_t brothwagon_set_no_slip_bc(const brothwagon_settings *settings, const brothwagon_obstacle *list, size_t list_count,
                                   double *f, size_t f_length);

uint32_t brothwagon_write_checkpoint(const brothwagon_settings *settings, uint32_t step, const double *f, size_t f_length,
                                     uint8_t *file, size_t file_length);

uint32_t brothwagon_checkpoint_sides(const uint8_t *file, size_t file_length, uint64_t answer[3]);

uint32_t brothwagon_read_checkpoint(const uint8_t *file, size_t file_length, double *f, size_t f_length, uint64_t answer[3]);

uint32_t brothwagon_tally(const brothwagon_settings *settings, const double *f, size_t f_length, uint64_t tally[10]);

uint32_t brothwagon_write_entry(const brothwagon_settings *settings, size_t x, size_t y, size_t direction, uint64_t pattern,
                                double *f, size_t f_length, uint64_t tally[10]);

uint32_t brothwagon_write_tally(const uint64_t tally[10], uint8_t *file, size_t file_length);

uint32_t brothwagon_read_tally(const uint8_t *file, size_t file_length, uint64_t *tally, size_t tally_length);

#ifdef __cplusplus
}
#endif
