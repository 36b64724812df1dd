/* Streaming with faces, the lossless question and the reverse; and the tally, which lossless faces keep. */
#include "values.h"

#include <math.h>
#include <string.h>

/* The kinds that the plain reading knows; the last adds to what it copies. */
static const uint64_t KINDS[] = {P, N, S, BROTHWAGON_MOVING_WALL};
enum { COPYING = 3, ALL_KINDS = 4 };

static const uint64_t GRIDS[][2] = {{3, 2}, {1, 1}, {3, 1}, {1, 2}, {2, 3}};

/* Call number k of those with each of so many kinds on each face. */
static Call with_faces(const uint64_t grid[2], size_t k, size_t kinds) {
    const uint64_t x_min = KINDS[k % kinds], x_max = KINDS[k / kinds % kinds];
    const uint64_t y_min = KINDS[k / kinds / kinds % kinds], y_max = KINDS[k / kinds / kinds / kinds];
    Call call = begin(grid[0], grid[1], "%u by %u, faces of kinds %u %u %u %u", (unsigned)grid[0], (unsigned)grid[1],
                      (unsigned)x_min, (unsigned)x_max, (unsigned)y_min, (unsigned)y_max);
    set_faces(&call, x_min, x_max, y_min, y_max);
    return call;
}

/* C1 to C3: where the entry at index 35 of the post-collision buffer goes. The buffer's canaries are NaNs with payloads. */
static void stream_marked(const char *name, uint64_t x, uint64_t y, size_t to) {
    Call call = begin(3, 2, "%s", name);
    set_faces(&call, x, x, y, y);
    stream(&call.settings, given[POST], wanted[F]);
    memcpy(&wanted[F][to], &given[POST][35], sizeof wanted[F][to]);
    done(&STREAM_WITH_FACES, &call);
}

/* Of what is streamed only entry 0 is not 0, but 1; one face of the cell is driven. */
static void stream_driven(const char *name, brothwagon_face x_min, brothwagon_face y_max, const double f[DIRECTIONS]) {
    Call call = begin(1, 1, "%s", name);
    for (size_t i = 0; i < DIRECTIONS; i++) {
        hold(POST, i, i == 0 ? 1.0 : 0.0);
        wanted[F][i] = f[i];
    }
    call.settings.x_min = x_min;
    call.settings.y_max = y_max;
    done(&STREAM_WITH_FACES, &call);
}

static void stream_all_driven(void) {
    const brothwagon_face none = {P, 0.0, 0.0}, inlet = {BROTHWAGON_VELOCITY, 0.5, 0.25};
    const brothwagon_face against = {BROTHWAGON_VELOCITY, -1.0, 0.0}, outlet = {BROTHWAGON_PRESSURE, 4.0, NAN};
    /* The density is 1 / (1 - 0.5) = 2. */
    const double in[DIRECTIONS] = {1, 2.0 / 3.0 * 2.0 * 0.5, 0, 0, 0, 2.0 * 0.5 / 6.0 + 0.25, 0, 0, 2.0 * 0.5 / 6.0 - 0.25};
    /* The density is 1 / (1 + 1) = 0.5. */
    const double back[DIRECTIONS] = {1, 2.0 / 3.0 * 0.5 * -1.0, 0, 0, 0, 0.5 * -1.0 / 6.0, 0, 0, 0.5 * -1.0 / 6.0};
    /* The speed is 1 - 1 / 4 = 0.75. */
    const double out[DIRECTIONS] = {1, 0, 0, 0, 2.0 / 3.0 * 4.0 * 0.75, 0, 0, 4.0 * 0.75 / 6.0, 4.0 * 0.75 / 6.0};
    stream_driven("x min Velocity 0.5, 0.25", inlet, none, in);
    stream_driven("x min Velocity -1, 0", against, none, back);
    stream_driven("y max Pressure 4", none, outlet, out);
}

static void stream_with_faces(void) {
    stream_marked("C1", P, P, 30);
    stream_marked("C2", N, N, 47);
    stream_marked("C3", S, P, 41);
    stream_all_driven();
    for (size_t grid = 0; grid < COUNT(GRIDS); grid++) {
        for (size_t k = 0; k < ALL_KINDS * ALL_KINDS * ALL_KINDS * ALL_KINDS; k++) {
            Call call = with_faces(GRIDS[grid], k, ALL_KINDS);
            hold_numbers(POST, call.length[POST]);
            stream(&call.settings, given[POST], wanted[F]);
            done(&STREAM_WITH_FACES, &call);
        }
    }
}

static void want_answer(uint64_t a, uint64_t b, uint64_t c, uint64_t d) {
    const uint64_t words[ANSWERS] = {a, b, c, d};
    memcpy(wanted_answer, words, sizeof words);
}

/* The marked cases of the lossless question: the sides, the faces x min, x max, y min, y max, and the answer. */
static const struct {
    const char *name;
    uint64_t nx, ny, faces[4], answer[4];
} QUESTIONS[] = {
    {"C4", 3, 2, {S, S, N, N}, {0, 2, 0, 5}},
    {"C5", 3, 2, {N, N, S, S}, {1, 0, 0, 0}},
    {"C6", 3, 1, {S, S, N, N}, {1, 0, 0, 0}},
    {"C7", 3, 2, {N, P, P, P}, {0, 2, 0, 1}},
};

static void lossless(void) {
    for (size_t k = 0; k < sizeof QUESTIONS / sizeof *QUESTIONS; k++) {
        const uint64_t *faces = QUESTIONS[k].faces, *answer = QUESTIONS[k].answer;
        Call call = begin(QUESTIONS[k].nx, QUESTIONS[k].ny, QUESTIONS[k].name);
        set_faces(&call, faces[0], faces[1], faces[2], faces[3]);
        want_answer(answer[0], answer[1], answer[2], answer[3]);
        done(&LOSSLESS, &call);
    }
}

static int stands_in(const double *f, size_t length, const double *entry) {
    for (size_t k = 0; k < length; k++) {
        if (memcmp(&f[k], entry, sizeof *entry) == 0) {
            return 1;
        }
    }
    return 0;
}

/* Streams the canaries of post into f, and finds the first that is lost: its index, or the length if there is none. */
static size_t first_lost(const Call *call, double *f) {
    size_t lost = 0;
    stream(&call->settings, given[POST], f);
    while (lost < call->length[POST] && stands_in(f, call->length[F], &given[POST][lost])) {
        lost++;
    }
    return lost;
}

/* The lossless question against counting; and from what the canaries of post become, the reverse makes post again. */
static void lossless_and_reverse(Call call) {
    double f[MOST];
    const size_t lost = first_lost(&call, f), nx = call.settings.nx, cells = cells_of(&call.settings);
    if (lost < call.length[POST]) {
        want_answer(0, lost % nx, lost % cells / nx, lost / cells);
        done(&LOSSLESS, &call);
        check(&REVERSE, &call, 8);
        return;
    }
    want_answer(1, 0, 0, 0);
    done(&LOSSLESS, &call);
    memcpy(given[F], f, 8 * call.length[F]);
    memcpy(wanted[F], f, 8 * call.length[F]);
    memset(given[POST], 0, 8 * call.length[POST]);
    done(&REVERSE, &call);
}

/* The tally of the next buffer; where no canary of post is lost, its first number is that of post. */
static void tally_after(Call call) {
    uint64_t before[TALLY_NUMBERS];
    const size_t lost = first_lost(&call, wanted[F]);
    done(&STREAM_WITH_FACES, &call);
    memcpy(given[F], wanted[F], sizeof given[F]);
    tally_of(&call.settings, given[POST], before);
    tally_of(&call.settings, given[F], wanted_answer);
    if (lost == call.length[POST]) {
        wanted_answer[0] = before[0];
    }
    done(&TALLY, &call);
}

static void all_that_copy(void) {
    for (size_t grid = 0; grid < COUNT(GRIDS); grid++) {
        for (size_t k = 0; k < COPYING * COPYING * COPYING * COPYING; k++) {
            lossless_and_reverse(with_faces(GRIDS[grid], k, COPYING));
            tally_after(with_faces(GRIDS[grid], k, COPYING));
        }
    }
}

void check_streaming(void) {
    stream_with_faces();
    lossless();
    all_that_copy();
}
