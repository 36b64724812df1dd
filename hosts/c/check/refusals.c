/* Each function is refused with each number that it tests, by every fault of that number, and the first number that applies is
 * answered. */
#include "file.h"
#include "values.h"

#include <math.h>

/* Each of these makes fault k of its number in a call on 3 by 2, and answers 0 if there is none. */

static int sides(Call *call, size_t k) {
    const uint64_t most = UINT64_MAX;
    const uint64_t rows[][2] = {{0, 2},      {3, 0},       {4097, 1}, {1, 4097}, {4096, 257},
                                {257, 4096}, {1025, 1024}, {most, 1}, {1, most}, {UINT64_C(1) << 63, 2}};
    if (k < COUNT(rows)) {
        call->settings.nx = rows[k][0];
        call->settings.ny = rows[k][1];
    }
    return k < COUNT(rows);
}

/* Of one buffer at a time; that of one that is not lent is no fault. */
static int lengths(Call *call, size_t k) {
    size_t *length = &call->length[k % BUFFERS];
    const size_t rows[] = {*length - 1, *length + 1, 0, *length + ((size_t)1 << 32)};
    if (k < BUFFERS * COUNT(rows)) {
        *length = rows[k / BUFFERS];
    }
    return k < BUFFERS * COUNT(rows);
}

static int rates(Call *call, size_t k) {
    static const struct {
        double nu;
        uint64_t collision;
        double rate;
    } rows[] = {{NAN, BROTHWAGON_BGK, 0.0},     {INFINITY, BROTHWAGON_BGK, 0.0}, {-INFINITY, BROTHWAGON_MRT, 0.0},
                {-1.0, BROTHWAGON_MRT, 0.0},    {-1e-16, BROTHWAGON_BGK, 0.0},   {1e308, BROTHWAGON_BGK, 0.0},
                {-1.0, BROTHWAGON_TRT, 1.0},    {0.5, BROTHWAGON_TRT, NAN},      {0.5, BROTHWAGON_TRT, INFINITY},
                {0.5, BROTHWAGON_TRT, -0.5},    {0.5, BROTHWAGON_TRT, 2.5},      {0.5, BROTHWAGON_TRT, 2.0000000000000004},
                {0.5, BROTHWAGON_TRT + 1, 1.0}, {0.5, UINT64_MAX, 1.0}};
    if (k < COUNT(rows)) {
        call->settings.nu = rows[k].nu;
        call->settings.collision = rows[k].collision;
        call->settings.rate = rows[k].rate;
    }
    return k < COUNT(rows);
}

static int floors(Call *call, size_t k) {
    if (k < COUNT(BAD_FLOORS)) {
        call->settings.floor = BAD_FLOORS[k];
    }
    return k < COUNT(BAD_FLOORS);
}

static int force(Call *call, size_t k) {
    const double rows[][2] = {{NAN, 0.0}, {0.0, NAN}, {INFINITY, 0.0}, {0.0, -INFINITY}};
    if (k < COUNT(rows)) {
        call->settings.fx = rows[k][0];
        call->settings.fy = rows[k][1];
    }
    return k < COUNT(rows);
}

static brothwagon_face *face_of(Call *call, size_t k) {
    brothwagon_settings *s = &call->settings;
    brothwagon_face *const faces[] = {&s->x_min, &s->x_max, &s->y_min, &s->y_max};
    return faces[k % COUNT(faces)];
}

/* On each face in turn; last, speed 1 along each face's inward normal. */
static int face_numbers(Call *call, size_t k) {
    static const brothwagon_face rows[] = {{BROTHWAGON_MOVING_WALL, NAN, 0.0},  {BROTHWAGON_MOVING_WALL, 0.0, INFINITY},
                                           {BROTHWAGON_VELOCITY, NAN, 0.0},     {BROTHWAGON_VELOCITY, 0.0, -INFINITY},
                                           {BROTHWAGON_PRESSURE, 0.0, 1.0},     {BROTHWAGON_PRESSURE, -1.0, 1.0},
                                           {BROTHWAGON_PRESSURE, NAN, 1.0},     {BROTHWAGON_PRESSURE, INFINITY, 1.0},
                                           {BROTHWAGON_PRESSURE + 1, 1.0, 1.0}, {UINT64_MAX, 1.0, 1.0}};
    static const double inward[4][2] = {{1.0, 0.0}, {-1.0, 0.0}, {0.0, 1.0}, {0.0, -1.0}};
    const brothwagon_face into = {BROTHWAGON_VELOCITY, inward[k % 4][0], inward[k % 4][1]};
    if (k < 4 * (COUNT(rows) + 1)) {
        *face_of(call, k) = k < 4 * COUNT(rows) ? rows[k / 4] : into;
    }
    return k < 4 * (COUNT(rows) + 1);
}

static int steps(Call *call, size_t k) {
    const uint64_t rows[] = {1000001, UINT64_C(1) << 32, UINT64_MAX};
    if (k < COUNT(rows)) {
        call->steps = rows[k];
    }
    return k < COUNT(rows);
}

/* Place and direction, and the place of an obstacle, the first of the list, one between and the last in turn: of the three
 * write_entry alone takes two. In the last four rows x + y nx wraps to a cell, or the low 32 bits are one. */
static int places(Call *call, size_t k) {
    const size_t most = SIZE_MAX, two_to_32 = (size_t)1 << 32;
    const size_t rows[][3] = {{3, 0, 9},    {0, 2, 10},           {most, 0, most},       {0, most, two_to_32},
                              {most, 1, 9}, {2, most / 3 + 1, 9}, {two_to_32 + 1, 0, 9}, {1, two_to_32 + 1, 9}};
    const size_t at[] = {0, call->list_count / 2, call->list_count - 1};
    if (k < COUNT(at) * COUNT(rows)) {
        const size_t *row = rows[k / COUNT(at)];
        const brothwagon_obstacle outside = {row[0], row[1]};
        call->x = row[0];
        call->y = row[1];
        call->direction = row[2];
        call->list[at[k % COUNT(at)]] = outside;
    }
    return k < COUNT(at) * COUNT(rows);
}

/* Equal neighbours, and pairs that fall: in x, in y, and in x + y nx where y + x ny rises. In the first four rows the fault is
 * of the last pair alone, in the next two of the first. */
static int orders(Call *call, size_t k) {
    static const struct {
        size_t count;
        brothwagon_obstacle list[OBSTACLES];
    } rows[] = {{6, {{0, 0}, {1, 0}, {2, 0}, {0, 1}, {1, 1}, {1, 1}}},
                {6, {{0, 0}, {1, 0}, {2, 0}, {0, 1}, {2, 1}, {1, 1}}},
                {4, {{0, 0}, {1, 0}, {1, 1}, {1, 0}}},
                {3, {{0, 0}, {1, 1}, {2, 0}}},
                {6, {{0, 0}, {0, 0}, {2, 0}, {0, 1}, {1, 1}, {2, 1}}},
                {6, {{1, 0}, {0, 0}, {2, 0}, {0, 1}, {1, 1}, {2, 1}}},
                {6, {{0, 0}, {1, 0}, {2, 0}, {2, 0}, {1, 1}, {2, 1}}},
                {6, {{0, 0}, {0, 1}, {1, 0}, {1, 1}, {2, 0}, {2, 1}}},
                {6, {{2, 1}, {1, 1}, {0, 1}, {2, 0}, {1, 0}, {0, 0}}},
                {2, {{0, 0}, {0, 0}}},
                {2, {{2, 1}, {2, 1}}},
                {2, {{0, 1}, {2, 0}}}};
    if (k < COUNT(rows)) {
        set_list(call, rows[k].list, rows[k].count);
    }
    return k < COUNT(rows);
}

static int driven_faces(Call *call, size_t k) {
    static const brothwagon_face rows[] = {{BROTHWAGON_MOVING_WALL, 0.1, 0.0},
                                           {BROTHWAGON_MOVING_WALL, 0.0, 0.0},
                                           {BROTHWAGON_VELOCITY, 0.1, 0.0},
                                           {BROTHWAGON_PRESSURE, 1.0, 0.0}};
    if (k < 4 * COUNT(rows)) {
        *face_of(call, 3 - k % 4) = rows[k / 4];
    }
    return k < 4 * COUNT(rows);
}

static int lossy_faces(Call *call, size_t k) {
    const uint64_t rows[][4] = {{N, P, P, P}, {P, S, P, P}, {P, P, N, P}, {P, P, P, S},
                                {S, S, N, N}, {N, S, N, N}, {S, N, S, S}};
    for (size_t face = 0; k < COUNT(rows) && face < 4; face++) {
        face_of(call, face)->kind = rows[k][face];
    }
    return k < COUNT(rows);
}

/* ---- of a file: a checkpoint of 445 bytes, the first four a count of 441, or that of a tally */

static int no_version(Call *call, size_t k) {
    if (k < 5) {
        call->length[BYTES] = k;
    }
    return k < 5;
}

static int version(Call *call, size_t k) {
    const uint64_t rows[] = {2, 0, 3, 129, 255};
    if (k < COUNT(rows)) {
        hold_bytes(call, 4, 1, rows[k]);
    }
    return k < COUNT(rows);
}

static int sides_cut_short(Call *call, size_t k) {
    if (k < 4) {
        call->length[BYTES] = 8 - k;
    }
    return k < 4;
}

/* The sides, the count and the length. */
static void make_file(Call *call, const uint64_t row[4]) {
    hold_bytes(call, 0, 4, row[2]);
    hold_bytes(call, 5, 2, row[0]);
    hold_bytes(call, 7, 2, row[1]);
    call->length[BYTES] = row[3];
}

/* The length is wrong as well, but for that of no cells, which is 13. */
static int sides_of_file(Call *call, size_t k) {
    const uint64_t rows[][4] = {{0, 2, 441, 445},     {3, 0, 441, 445},      {0, 2, 9, 13},          {3, 0, 9, 13},
                                {4097, 1, 441, 445},  {1, 4097, 441, 445},   {65535, 1, 441, 445},   {1, 65535, 441, 445},
                                {4096, 257, 441, 9},  {257, 4096, 441, 445}, {1025, 1024, 441, 445}, {32768, 2, 9, 13},
                                {32768, 16384, 9, 13}};
    if (k < COUNT(rows)) {
        make_file(call, rows[k]);
    }
    return k < COUNT(rows);
}

/* Sides that are allowed, with a count or a length that is not theirs. */
static int count_or_length(Call *call, size_t k) {
    const uint64_t rows[][4] = {{3, 2, 440, 445},   {3, 2, 442, 445}, {3, 2, 445, 445}, {3, 2, 432, 445}, {3, 2, 0, 445},
                                {3, 2, 65977, 445}, {3, 2, 441, 444}, {3, 2, 441, 446}, {3, 2, 441, 453}, {3, 2, 441, 9},
                                {3, 2, 441, 10},    {3, 2, 441, 12},  {3, 2, 441, 13},  {3, 2, 5, 9},     {3, 2, 8, 12},
                                {3, 2, 9, 13},      {3, 2, 440, 444}, {3, 2, 433, 437}, {3, 2, 449, 453}, {3, 3, 441, 445},
                                {2, 2, 441, 445},   {1, 1, 441, 445}, {1, 1, 81, 445},  {1, 1, 441, 85},  {256, 256, 9, 13},
                                {4096, 256, 9, 13}};
    if (k < COUNT(rows)) {
        make_file(call, rows[k]);
    }
    return k < COUNT(rows);
}

/* Of a tally's file, which has 85 bytes, the first four a count of 81: other counts, other lengths, lengths whose low bits are
 * right, and counts that fit the length. */
static int tally_count_or_length(Call *call, size_t k) {
    const uint64_t rows[][2] = {
        {80, 85}, {82, 85}, {85, 85}, {0, 85}, {0x151, 85}, {0x10051, 85}, {0x1000051, 85}, {0x51000000, 85},
        {81, 5}, {81, 6}, {81, 13}, {81, 77}, {81, 84}, {81, 86}, {81, 93},
        {81, 0x155}, {81, 0x10055}, {81, UINT64_C(0x100000055)},
        {1, 5}, {73, 77}, {80, 84}, {82, 86}, {89, 93}, {441, 445}};
    if (k < COUNT(rows)) {
        hold_bytes(call, 0, 4, rows[k][0]);
        call->length[BYTES] = rows[k][1];
    }
    return k < COUNT(rows);
}

/* A tally for the writer, and another one's numbers in a file for the reader; one number of both is off by so much. */
static void hold_tallies(const Call *call, size_t number, uint64_t by) {
    uint64_t lent[TALLY_NUMBERS], stored[TALLY_NUMBERS];
    tally_of(&call->settings, given[F], lent);
    tally_of(&call->settings, given[POST], stored);
    lent[number] += by;
    stored[number] += by;
    hold_patterns(SUMS, lent, TALLY_NUMBERS);
    for (size_t k = 0; k < TALLY_NUMBERS; k++) {
        hold_bytes(call, 5 + 8 * k, 8, stored[k]);
    }
}

static int sums(Call *call, size_t k) {
    const uint64_t rows[] = {1, UINT64_C(1) << 32, UINT64_C(1) << 63, UINT64_MAX};
    if (k < TALLY_NUMBERS * COUNT(rows)) {
        hold_tallies(call, k % TALLY_NUMBERS, rows[k / TALLY_NUMBERS]);
    }
    return k < TALLY_NUMBERS * COUNT(rows);
}

typedef struct {
    uint32_t number;
    const char *of;
    int (*make)(Call *call, size_t k);
} Fault;

/* In the order in which the numbers are tested; and in that of a checkpoint file, and of a tally's. */
static const Fault FAULTS[] = {
    {1, "the sides", sides},    {2, "the lengths", lengths},       {3, "the rates", rates},          {3, "the floor", floors},
    {4, "the force", force},    {5, "the faces", face_numbers},    {10, "the steps", steps},         {6, "the place", places},
    {16, "the order", orders},  {7, "driven faces", driven_faces}, {8, "lossy faces", lossy_faces}};

static const Fault CHECKPOINT_FAULTS[] = {{12, "a file's first bytes", no_version},        {13, "its version", version},
                                          {14, "the bytes of its sides", sides_cut_short}, {1, "its sides", sides_of_file},
                                          {15, "its count or length", count_or_length},    {2, "the lengths", lengths}};

static const Fault TALLY_FAULTS[] = {{12, "a file's first bytes", no_version},
                                     {13, "its version", version},
                                     {15, "its count or length", tally_count_or_length},
                                     {17, "the sums", sums},
                                     {2, "the lengths", lengths}};

/* The rates are tested only where there is a collision. */
static int tests_fault(const Operation *operation, const Fault *fault) {
    return tests_for(operation, fault->number) && (fault->make != rates || collides(operation));
}

static int is_fault(const Operation *operation, const Fault *fault, size_t k) {
    return tests_fault(operation, fault) && (fault->number != 2 || operation->lent[k % BUFFERS]);
}

/* The file that a call reads, if it reads one; and the tally that one writes. */
static void lend_file(const Operation *operation, Call *call) {
    if (tests_for(operation, 14)) {
        hold_file(call);
    }
    if (tests_for(operation, 17)) {
        call->length[BYTES] = TALLY_FILE;
        hold_tallies(call, 0, 0);
    }
    if (operation == &READ_TALLY) {
        hold_bytes(call, 0, 4, 81);
        hold_bytes(call, 4, 1, 1);
    }
}

/* Every fault of one number by itself. */
static void refused_with(const Operation *operation, const Fault *fault) {
    for (size_t k = 0;; k++) {
        Call call = begin(3, 2, "fault %u of %s", (unsigned)k, fault->of);
        lend_file(operation, &call);
        if (!fault->make(&call, k)) {
            return;
        }
        if (is_fault(operation, fault, k)) {
            check(operation, &call, fault->number);
        }
    }
}

/* The first fault of a number that an operation tests. */
static void make_first(const Operation *operation, const Fault *fault, Call *call) {
    size_t k = 0;
    while (!is_fault(operation, fault, k)) {
        k++;
    }
    fault->make(call, k);
}

/* Faults of a number and of all that are tested after it. */
static void refused_first(const Operation *operation, const Fault *first, const Fault *end) {
    Call call = begin(3, 2, "faults of %s and of all that is tested later", first->of);
    lend_file(operation, &call);
    for (const Fault *fault = end; fault-- > first;) {
        if (tests_fault(operation, fault)) {
            make_first(operation, fault, &call);
        }
    }
    if (tests_fault(operation, first)) {
        check(operation, &call, first->number);
    }
}

static void refused(const Operation *operation, const Fault *faults, const Fault *end) {
    for (const Fault *fault = faults; fault < end; fault++) {
        refused_with(operation, fault);
        refused_first(operation, fault, end);
    }
}

/* One obstacle more, before the one that stands at a place of the list. */
static void insert(Call *call, size_t at, brothwagon_obstacle obstacle) {
    brothwagon_obstacle list[OBSTACLES];
    for (size_t k = 0; k <= call->list_count; k++) {
        list[k] = k < at ? call->list[k] : k == at ? obstacle : call->list[k - 1];
    }
    set_list(call, list, call->list_count + 1);
}

/* A fault of the order, if there are so many, with a place outside put in anywhere: the place is told, wherever both stand. */
static int outside_and_falling(size_t order) {
    static const brothwagon_obstacle outside[] = {{3, 0}, {0, 2}, {SIZE_MAX, 0}, {0, SIZE_MAX}};
    Call falling = begin(3, 2, "fault %u of the order", (unsigned)order);
    const int some = orders(&falling, order);
    for (size_t k = 0; some && k < COUNT(outside) * (falling.list_count + 1); k++) {
        Call call = begin(3, 2, "fault %u of the order, and place %u outside", (unsigned)order, (unsigned)k);
        orders(&call, order);
        insert(&call, k / COUNT(outside), outside[k % COUNT(outside)]);
        check(&SET_NO_SLIP_BC, &call, 6);
    }
    return some;
}

/* x, y and direction outside one by one: each is tested. In the last four rows the index is that of an entry all the same. */
static void refused_entry(void) {
    const size_t most = SIZE_MAX, two_to_32 = (size_t)1 << 32;
    const size_t rows[][3] = {{3, 1, 8},    {2, 2, 8},         {2, 1, 9},           {most, 0, 0},      {0, most, 0},
                              {0, 0, most}, {two_to_32, 0, 0}, {0, two_to_32, 0},   {0, 0, two_to_32}, {3, 0, 0},
                              {0, 2, 0},    {most, 1, 0},      {2, most / 3 + 1, 0}};
    for (size_t k = 0; k < COUNT(rows); k++) {
        Call call = begin(3, 2, "entry %u outside", (unsigned)k);
        call.x = rows[k][0];
        call.y = rows[k][1];
        call.direction = rows[k][2];
        check(&WRITE_ENTRY, &call, 6);
    }
}

static void refused_tolerance(void) {
    Call call = begin(3, 2, "tolerance NaN");
    call.tolerance = NAN;
    check(&RUN_TO_STEADY_STATE, &call, 10);
}

/* 4,096 by 256 is allowed: the length of the buffers is refused. */
static void allowed_sides(void) {
    Call call = begin(3, 2, "4,096 by 256 with buffers for 3 by 2");
    call.settings.nx = 4096;
    call.settings.ny = 256;
    check(&TOTAL_MASS, &call, 2);
}

void check_refusals(void) {
    for (size_t at = 0; at < OPERATIONS; at++) {
        if (tests_for(ALL[at], 17)) {
            refused(ALL[at], TALLY_FAULTS, TALLY_FAULTS + COUNT(TALLY_FAULTS));
        } else if (tests_for(ALL[at], 12)) {
            refused(ALL[at], CHECKPOINT_FAULTS, CHECKPOINT_FAULTS + COUNT(CHECKPOINT_FAULTS));
        } else {
            refused(ALL[at], FAULTS, FAULTS + COUNT(FAULTS));
        }
    }
    size_t order = 0;
    while (outside_and_falling(order)) {
        order++;
    }
    refused_entry();
    refused_tolerance();
    allowed_sides();
}
