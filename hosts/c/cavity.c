/* Runs a lid-driven cavity on the proved library, and prints its mass and kinetic energy. Halfway it saves a checkpoint, with
 * its tally in a file beside it; what it loads must have that tally, and a run from there must end in the same bits as the one
 * that went on. */
#include "brothwagon.h"

#include <stdio.h>
#include <stdlib.h>
#include <string.h>

enum { SIDE = 64, CELLS = SIDE * SIDE, STEPS = 1000, FILE_LENGTH = 13 + 72 * CELLS, TALLY_LENGTH = 85 };

static double table[3 * CELLS], f[9 * CELLS], post[9 * CELLS], loaded[9 * CELLS];
static uint8_t bytes[FILE_LENGTH];

static void hold(const char *what, int holds) {
    if (!holds) {
        fprintf(stderr, "%s\n", what);
        exit(EXIT_FAILURE);
    }
}

static void done(const char *what, uint32_t number) {
    if (number != 0) {
        fprintf(stderr, "%s is refused with number %u\n", what, (unsigned)number);
        exit(EXIT_FAILURE);
    }
}

/* So many bytes, to a file and back. */
static void put(const char *what, FILE *file, size_t length) {
    hold(what, fwrite(bytes, 1, length, file) == length && fflush(file) == 0);
}

static void get(const char *what, FILE *file, size_t length) {
    rewind(file);
    hold(what, fread(bytes, 1, length, file) == length);
}

/* Saves f, and its tally beside it. */
static void save(FILE *file, FILE *beside, const brothwagon_settings *cavity, uint32_t step) {
    uint64_t tally[10];
    done("the save", brothwagon_write_checkpoint(cavity, step, f, 9 * CELLS, bytes, FILE_LENGTH));
    put("the checkpoint cannot be written", file, FILE_LENGTH);
    done("the tally", brothwagon_tally(cavity, f, 9 * CELLS, tally));
    done("the tally's save", brothwagon_write_tally(tally, bytes, TALLY_LENGTH));
    put("the tally cannot be written", beside, TALLY_LENGTH);
}

/* Fills loaded, and answers the step number. A grid of other sides may have as many cells: the file says which it is. */
static uint64_t load(FILE *file) {
    uint64_t answer[3];
    get("the checkpoint cannot be read", file, FILE_LENGTH);
    done("the load", brothwagon_read_checkpoint(bytes, FILE_LENGTH, loaded, 9 * CELLS, answer));
    hold("the checkpoint is of another grid", answer[0] == SIDE && answer[1] == SIDE);
    return answer[2];
}

/* Holds loaded to the tally beside it: a file with a wrong entry is read like any other. */
static void hold_to_tally(FILE *beside, const brothwagon_settings *cavity) {
    uint64_t saved[10], tally[10];
    get("the tally cannot be read", beside, TALLY_LENGTH);
    done("the tally's load", brothwagon_read_tally(bytes, TALLY_LENGTH, saved, 10));
    done("the tally", brothwagon_tally(cavity, loaded, 9 * CELLS, tally));
    hold("the checkpoint has another tally than the one beside it", memcmp(tally, saved, sizeof tally) == 0);
}

int main(void) {
    const brothwagon_face wall = {BROTHWAGON_NO_SLIP, 0.0, 0.0};
    const brothwagon_face lid = {BROTHWAGON_MOVING_WALL, 0.1, 0.0};
    const brothwagon_settings cavity = {SIDE, SIDE, 0.02, 0.0, 0.0, BROTHWAGON_BGK, 0.0, wall, wall, wall, lid, 1e-12};
    FILE *file = tmpfile(), *beside = tmpfile();
    double mass[1], energy[1];
    uint64_t step;

    hold("there are no files for the checkpoint and its tally", file != NULL && beside != NULL);
    for (int cell = 0; cell < CELLS; cell++) {
        table[3 * cell] = 1.0; /* the density; both velocities stay 0 */
    }
    done("the start", brothwagon_initialize(&cavity, table, 3 * CELLS, f, 9 * CELLS));
    done("the run", brothwagon_run(&cavity, STEPS / 2, f, 9 * CELLS, post, 9 * CELLS));
    save(file, beside, &cavity, STEPS / 2);
    done("the run", brothwagon_run(&cavity, STEPS - STEPS / 2, f, 9 * CELLS, post, 9 * CELLS));

    step = load(file);
    hold_to_tally(beside, &cavity);
    done("the run", brothwagon_run(&cavity, STEPS - step, loaded, 9 * CELLS, post, 9 * CELLS));
    hold("the run from the checkpoint ends in other bits", memcmp(loaded, f, sizeof f) == 0);
    fclose(file);
    fclose(beside);

    done("the mass", brothwagon_total_mass(&cavity, f, 9 * CELLS, mass));
    done("the energy", brothwagon_kinetic_energy(&cavity, f, 9 * CELLS, energy));
    printf("mass %.17g\nkinetic energy %.17g\n", mass[0], energy[0]);
    return EXIT_SUCCESS;
}
