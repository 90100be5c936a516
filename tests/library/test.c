/* Calls each function of the static library from C. Every byte of a lent buffer is looked at, behind what was written too. */
#include "tirunoiwa.h"

#include <stdio.h>
#include <string.h>

#define MOST 1100
#define SIZE(array) (sizeof(array) / sizeof((array)[0]))

/* The floor F of document 01, its plan, F with the contact of 5 and 6 turned (P9), and the plan of that. */
static const uint8_t F[] = {
    1, 0, 1, 4,
    2, 0, 8, 0, 0, 1, 1, 6, 2, 5, 3,
    2, 0, 10, 0, 0, 4, 1, 6, 1, 7, 2, 3, 3,
    2, 0, 10, 4, 0, 1, 1, 2, 2, 7, 3, 5, 3,
    2, 0, 8, 5, 0, 6, 1, 2, 2, 3, 3,
};
static const uint8_t F_PLAN[] = {
    3, 0, 2, 4, 5,
    4, 0, 5, 0, 1, 4, 3, 5,
    4, 0, 5, 1, 0, 0, 1, 5,
    4, 0, 5, 2, 1, 0, 3, 1,
    4, 0, 5, 3, 3, 0, 4, 5,
    4, 0, 5, 4, 1, 3, 2, 4,
    4, 0, 5, 5, 2, 2, 3, 4,
    4, 0, 5, 6, 1, 1, 2, 3,
    4, 0, 5, 7, 2, 1, 3, 2,
};
static const uint8_t P9[] = {
    1, 0, 1, 4,
    2, 0, 8, 0, 0, 1, 1, 6, 2, 5, 3,
    2, 0, 10, 0, 0, 4, 1, 6, 2, 7, 2, 3, 3,
    2, 0, 10, 4, 0, 1, 1, 2, 2, 7, 3, 5, 0,
    2, 0, 8, 5, 0, 6, 1, 2, 2, 3, 3,
};
static const uint8_t P9_PLAN[] = {
    3, 0, 2, 5, 4,
    4, 0, 5, 0, 1, 3, 4, 4,
    4, 0, 5, 1, 0, 0, 1, 4,
    4, 0, 5, 2, 1, 0, 4, 1,
    4, 0, 5, 3, 4, 0, 5, 4,
    4, 0, 5, 4, 1, 2, 2, 3,
    4, 0, 5, 5, 2, 2, 4, 3,
    4, 0, 5, 6, 1, 1, 3, 2,
    4, 0, 5, 7, 3, 1, 4, 2,
};
/* The walls of both. */
static const uint8_t F_WALLS[] = {
    8, 0, 5, 0, 1, 1, 4, 2,
    8, 0, 5, 0, 2, 1, 4, 4,
    8, 0, 5, 0, 3, 1, 4, 2,
    8, 0, 5, 1, 1, 1, 3, 2,
    8, 0, 5, 1, 2, 2, 3, 2,
    8, 0, 5, 1, 3, 1, 2, 2,
    8, 0, 5, 1, 4, 1, 3, 2,
};
static const uint8_t P9_WALLS[] = {
    8, 0, 5, 0, 1, 1, 3, 2,
    8, 0, 5, 0, 2, 2, 3, 2,
    8, 0, 5, 0, 3, 1, 2, 2,
    8, 0, 5, 0, 4, 1, 3, 2,
    8, 0, 5, 1, 1, 1, 4, 2,
    8, 0, 5, 1, 2, 1, 4, 4,
    8, 0, 5, 1, 3, 1, 4, 2,
};
/* The cuts of both, and a pinwheel, which no straight cut takes apart. */
static const uint8_t F_CUTS[] = {
    5, 0, 2, 0, 2,
    5, 0, 2, 1, 3, 6, 0, 1, 6, 6, 0, 1, 4,
    5, 0, 2, 1, 2, 6, 0, 1, 7, 6, 0, 1, 5,
};
static const uint8_t P9_CUTS[] = {
    5, 0, 2, 1, 2,
    5, 0, 2, 0, 3, 6, 0, 1, 6, 6, 0, 1, 7,
    5, 0, 2, 0, 2, 6, 0, 1, 4, 6, 0, 1, 5,
};
static const uint8_t PINWHEEL[] = {
    1, 0, 1, 5,
    2, 0, 10, 8, 0, 7, 0, 1, 1, 2, 2, 5, 3,
    2, 0, 10, 6, 0, 8, 1, 4, 1, 2, 2, 3, 3,
    2, 0, 10, 0, 0, 7, 1, 8, 2, 5, 2, 3, 3,
    2, 0, 10, 0, 0, 1, 1, 4, 2, 8, 3, 6, 3,
    2, 0, 8, 6, 0, 7, 1, 4, 2, 5, 3,
};
/* F and P9 with least sizes of rooms 4 to 7, 1 by 3, 3 by 2, 2 by 1 and 1 by 2, and the plan of the first. */
static const uint8_t SIZED[] = {
    1, 0, 1, 4,
    2, 0, 8, 0, 0, 1, 1, 6, 2, 5, 3,
    2, 0, 10, 0, 0, 4, 1, 6, 1, 7, 2, 3, 3,
    2, 0, 10, 4, 0, 1, 1, 2, 2, 7, 3, 5, 3,
    2, 0, 8, 5, 0, 6, 1, 2, 2, 3, 3,
    7, 0, 8, 1, 3, 3, 2, 2, 1, 1, 2,
};
static const uint8_t SIZED_P9[] = {
    1, 0, 1, 4,
    2, 0, 8, 0, 0, 1, 1, 6, 2, 5, 3,
    2, 0, 10, 0, 0, 4, 1, 6, 2, 7, 2, 3, 3,
    2, 0, 10, 4, 0, 1, 1, 2, 2, 7, 3, 5, 0,
    2, 0, 8, 5, 0, 6, 1, 2, 2, 3, 3,
    7, 0, 8, 1, 3, 3, 2, 2, 1, 1, 2,
};
static const uint8_t SIZED_PLAN[] = {
    3, 0, 2, 7, 8,
    4, 0, 5, 0, 1, 7, 6, 8,
    4, 0, 5, 1, 0, 0, 1, 8,
    4, 0, 5, 2, 1, 0, 6, 1,
    4, 0, 5, 3, 6, 0, 7, 8,
    4, 0, 5, 4, 1, 4, 3, 7,
    4, 0, 5, 5, 3, 3, 6, 7,
    4, 0, 5, 6, 1, 1, 3, 4,
    4, 0, 5, 7, 3, 1, 6, 3,
};
/* No rooms; no bytes; F without the contact of 5 and 6. */
static const uint8_t P2[] = {1, 0, 1, 0};
static const uint8_t P3[] = {0};
static const uint8_t P10[] = {
    1, 0, 1, 4,
    2, 0, 8, 0, 0, 1, 1, 6, 2, 5, 3,
    2, 0, 8, 0, 0, 4, 1, 7, 2, 3, 3,
    2, 0, 8, 4, 0, 1, 1, 2, 2, 7, 3,
    2, 0, 8, 5, 0, 6, 1, 2, 2, 3, 3,
};
static const uint8_t STAR_6[] = {4, 0, 1, 1, 2, 2, 7, 3, 5, 3};

static uint8_t lent[MOST];
static uint64_t places[TIRUNOIWA_FIGURES + 4];
static unsigned calls = 0;
static unsigned wrong = 0;

/* What stood at a place of the buffer before the call. */
static uint8_t before(size_t place)
{
    return (uint8_t)(place * 7 + 161);
}

static uint8_t *lend(void)
{
    for (size_t i = 0; i < MOST; i++) {
        lent[i] = before(i);
    }
    return lent;
}

static void complain(const char *what, const char *how, size_t answer)
{
    fprintf(stderr, "library: %s: %s, the answer is %zu\n", what, how, answer);
    wrong++;
}

/* The answer, the front of the buffer, and everything behind it. */
static void expect(const char *what, size_t answer, size_t wanted, const uint8_t *front, size_t length)
{
    calls++;
    if (answer != wanted) {
        complain(what, "not the answer", answer);
    }
    if (length != 0 && memcmp(lent, front, length) != 0) {
        complain(what, "not the bytes", answer);
    }
    for (size_t i = length; i < MOST; i++) {
        if (lent[i] != before(i)) {
            complain(what, "a byte behind was touched", answer);
            break;
        }
    }
}

static void wrote(const char *what, size_t answer, const uint8_t *bytes, size_t length)
{
    expect(what, answer, 256 + length, bytes, length);
    if (tirunoiwa_refused(answer) != 0 || tirunoiwa_value(answer) != length) {
        complain(what, "not told by the helpers", answer);
    }
}

static void narrowed(const char *what, size_t answer, size_t turns, const uint8_t *job, size_t length)
{
    expect(what, answer, 256 + turns, job, length);
    if (tirunoiwa_refused(answer) != 0 || tirunoiwa_value(answer) != turns) {
        complain(what, "not told by the helpers", answer);
    }
}

static void refused(const char *what, size_t answer, unsigned number)
{
    expect(what, answer, number, NULL, 0);
    if (tirunoiwa_refused(answer) != number) {
        complain(what, "not told by the helper", answer);
    }
}

static void clear(const char *what, size_t answer)
{
    calls++;
    if (answer != 256 || tirunoiwa_refused(answer) != 0 || tirunoiwa_length(answer) != 0) {
        complain(what, "not the answer", answer);
    }
}

static void walled(const char *what, size_t answer, unsigned side, size_t length)
{
    calls++;
    if (answer != 256 + 4 * length + side || tirunoiwa_side(answer) != side || tirunoiwa_length(answer) != length) {
        complain(what, "not the answer", answer);
    }
}

static void plans(void)
{
    wrote("F planned", tirunoiwa_plan(F, SIZE(F), lend(), MOST), F_PLAN, SIZE(F_PLAN));
    wrote("F planned, no byte to spare", tirunoiwa_plan(F, SIZE(F), lend(), SIZE(F_PLAN)), F_PLAN, SIZE(F_PLAN));
    wrote("P9 planned", tirunoiwa_plan(P9, SIZE(P9), lend(), TIRUNOIWA_PLAN_MOST), P9_PLAN, SIZE(P9_PLAN));
    refused("F planned, a byte too short", tirunoiwa_plan(F, SIZE(F), lend(), SIZE(F_PLAN) - 1), 14);
    refused("F planned into no bytes", tirunoiwa_plan(F, SIZE(F), lend(), 0), 14);
    refused("P2", tirunoiwa_plan(P2, SIZE(P2), lend(), MOST), 2);
    refused("P3", tirunoiwa_plan(P3, 0, lend(), MOST), 1);
    refused("P10", tirunoiwa_plan(P10, SIZE(P10), lend(), MOST), 9);
    refused("P10 before a short buffer", tirunoiwa_plan(P10, SIZE(P10), lend(), 0), 9);
}

static void walls(void)
{
    wrote("walls of F", tirunoiwa_walls(F, SIZE(F), lend(), MOST), F_WALLS, SIZE(F_WALLS));
    wrote("walls of F, no byte to spare", tirunoiwa_walls(F, SIZE(F), lend(), SIZE(F_WALLS)), F_WALLS, SIZE(F_WALLS));
    wrote("walls of P9", tirunoiwa_walls(P9, SIZE(P9), lend(), TIRUNOIWA_WALLS_MOST), P9_WALLS, SIZE(P9_WALLS));
    refused("walls of F, a byte too short", tirunoiwa_walls(F, SIZE(F), lend(), SIZE(F_WALLS) - 1), 14);
    refused("walls of F into no bytes", tirunoiwa_walls(F, SIZE(F), lend(), 0), 14);
    refused("walls of P2", tirunoiwa_walls(P2, SIZE(P2), lend(), MOST), 2);
    refused("walls of P3", tirunoiwa_walls(P3, 0, lend(), MOST), 1);
    refused("walls of P10 before a short buffer", tirunoiwa_walls(P10, SIZE(P10), lend(), 0), 9);
}

static void cuts(void)
{
    wrote("cuts of F", tirunoiwa_cuts(F, SIZE(F), lend(), MOST), F_CUTS, SIZE(F_CUTS));
    wrote("cuts of F, no byte to spare", tirunoiwa_cuts(F, SIZE(F), lend(), SIZE(F_CUTS)), F_CUTS, SIZE(F_CUTS));
    wrote("cuts of P9", tirunoiwa_cuts(P9, SIZE(P9), lend(), TIRUNOIWA_CUTS_MOST), P9_CUTS, SIZE(P9_CUTS));
    refused("cuts of F, a byte too short", tirunoiwa_cuts(F, SIZE(F), lend(), SIZE(F_CUTS) - 1), 14);
    refused("cuts of F into no bytes", tirunoiwa_cuts(F, SIZE(F), lend(), 0), 14);
    refused("cuts of a pinwheel", tirunoiwa_cuts(PINWHEEL, SIZE(PINWHEEL), lend(), MOST), 15);
    refused("cuts of a pinwheel before a short buffer", tirunoiwa_cuts(PINWHEEL, SIZE(PINWHEEL), lend(), 0), 15);
    refused("cuts of P2", tirunoiwa_cuts(P2, SIZE(P2), lend(), MOST), 2);
    refused("cuts of P3", tirunoiwa_cuts(P3, 0, lend(), MOST), 1);
    refused("cuts of P10 before a short buffer", tirunoiwa_cuts(P10, SIZE(P10), lend(), 0), 9);
}

static uint8_t *put_bytes(uint8_t *at, const uint8_t *bytes, size_t length)
{
    memcpy(at, bytes, length);
    return at + length;
}

/* The walls of sixty rooms in a row: 61 upright ones, two level ones, and no list is longer. */
static void walls_of_sixty(const uint8_t *job, size_t job_length)
{
    static uint8_t list[TIRUNOIWA_WALLS_MOST];
    static const uint8_t level[] = {8, 0, 5, 1, 1, 1, 61, 60, 8, 0, 5, 1, 2, 1, 61, 60};
    uint8_t *end = list;
    for (uint8_t x = 1; x < 62; x++) {
        const uint8_t wall[] = {8, 0, 5, 0, x, 1, 2, x == 1 || x == 61 ? 1 : 2};
        end = put_bytes(end, wall, SIZE(wall));
    }
    end = put_bytes(end, level, SIZE(level));
    wrote("walls of sixty rooms", tirunoiwa_walls(job, job_length, lend(), TIRUNOIWA_WALLS_MOST), list, (size_t)(end - list));
    refused("walls of sixty rooms, a byte too short", tirunoiwa_walls(job, job_length, lend(), TIRUNOIWA_WALLS_MOST - 1), 14);
}

/* The cuts of sixty rooms in a row, each cut off on the left: no tree is longer. */
static void cuts_of_sixty(const uint8_t *job, size_t job_length)
{
    static uint8_t tree[TIRUNOIWA_CUTS_MOST];
    static const uint8_t last[] = {6, 0, 1, 63};
    uint8_t *end = tree;
    for (uint8_t v = 4; v < 63; v++) {
        const uint8_t cut_off[] = {5, 0, 2, 0, (uint8_t)(v - 2), 6, 0, 1, v};
        end = put_bytes(end, cut_off, SIZE(cut_off));
    }
    end = put_bytes(end, last, SIZE(last));
    wrote("cuts of sixty rooms", tirunoiwa_cuts(job, job_length, lend(), TIRUNOIWA_CUTS_MOST), tree, (size_t)(end - tree));
    refused("cuts of sixty rooms, a byte too short", tirunoiwa_cuts(job, job_length, lend(), TIRUNOIWA_CUTS_MOST - 1), 14);
}

/* The greatest plan: sixty rooms in a row, between W and E. */
static void row_of_sixty(void)
{
    static uint8_t job[TIRUNOIWA_JOB_MOST];
    static uint8_t plan[TIRUNOIWA_PLAN_MOST];
    static const uint8_t sheet_and_frame[] = {
        3, 0, 2, 62, 3,
        4, 0, 5, 0, 1, 2, 61, 3,
        4, 0, 5, 1, 0, 0, 1, 3,
        4, 0, 5, 2, 1, 0, 61, 1,
        4, 0, 5, 3, 61, 0, 62, 3,
    };
    static const uint8_t rooms[] = {1, 0, 1, 60};
    uint8_t *job_end = put_bytes(job, rooms, SIZE(rooms));
    uint8_t *plan_end = put_bytes(plan, sheet_and_frame, SIZE(sheet_and_frame));
    for (uint8_t v = 4; v < 64; v++) {
        const uint8_t left = v == 4 ? 1 : (uint8_t)(v - 1);
        const uint8_t right = v == 63 ? 3 : (uint8_t)(v + 1);
        const uint8_t star[] = {2, 0, 8, 0, 0, left, 1, 2, 2, right, 3};
        const uint8_t rectangle[] = {4, 0, 5, v, (uint8_t)(v - 3), 1, (uint8_t)(v - 2), 2};
        job_end = put_bytes(job_end, star, SIZE(star));
        plan_end = put_bytes(plan_end, rectangle, SIZE(rectangle));
    }
    const size_t job_length = (size_t)(job_end - job);
    const size_t length = (size_t)(plan_end - plan);
    wrote("sixty rooms in a row", tirunoiwa_plan(job, job_length, lend(), TIRUNOIWA_PLAN_MOST), plan, length);
    refused("sixty rooms, a byte too short", tirunoiwa_plan(job, job_length, lend(), TIRUNOIWA_PLAN_MOST - 1), 14);
    walls_of_sixty(job, job_length);
    cuts_of_sixty(job, job_length);
    refused("a row turned", tirunoiwa_turned(job, job_length, 4, 5, lend(), MOST), 12);
}

static void turns(void)
{
    wrote("P9", tirunoiwa_turned(F, SIZE(F), 5, 6, lend(), MOST), P9, SIZE(P9));
    wrote("P9, named the other way", tirunoiwa_turned(F, SIZE(F), 6, 5, lend(), TIRUNOIWA_JOB_MOST), P9, SIZE(P9));
    wrote("P9 turned again", tirunoiwa_turned(P9, SIZE(P9), 5, 6, lend(), SIZE(F)), F, SIZE(F));
    refused("P9, a byte too short", tirunoiwa_turned(F, SIZE(F), 5, 6, lend(), SIZE(P9) - 1), 14);
    refused("P11", tirunoiwa_turned(F, SIZE(F), 4, 5, lend(), MOST), 12);
    refused("P12", tirunoiwa_turned(F, SIZE(F), 4, 0, lend(), MOST), 11);
    refused("P11 before a short buffer", tirunoiwa_turned(F, SIZE(F), 4, 5, lend(), 0), 12);
    refused("no job turned", tirunoiwa_turned(P3, 0, 5, 6, lend(), MOST), 1);
    refused("P10 turned", tirunoiwa_turned(P10, SIZE(P10), 5, 6, lend(), MOST), 9);
    refused("a turn of no vertex", tirunoiwa_turned(F, SIZE(F), SIZE_MAX, 5, lend(), MOST), 11);
}

/* F turned is narrowed by one turn, and is F again; F is as narrow as it gets. With sizes it is the other way round: turned, it is the narrower one. */
static void narrowings(void)
{
    narrowed("P9 narrowed", tirunoiwa_narrow(P9, SIZE(P9), lend(), MOST), 1, F, SIZE(F));
    narrowed("P9 narrowed, no byte to spare", tirunoiwa_narrow(P9, SIZE(P9), lend(), SIZE(F)), 1, F, SIZE(F));
    narrowed("F narrowed", tirunoiwa_narrow(F, SIZE(F), lend(), TIRUNOIWA_JOB_MOST), 0, F, SIZE(F));
    narrowed("P9 with sizes narrowed", tirunoiwa_narrow(SIZED_P9, SIZE(SIZED_P9), lend(), TIRUNOIWA_JOB_MOST), 0, SIZED_P9, SIZE(SIZED_P9));
    narrowed("a pinwheel narrowed", tirunoiwa_narrow(PINWHEEL, SIZE(PINWHEEL), lend(), MOST), 0, PINWHEEL, SIZE(PINWHEEL));
    refused("P9 narrowed, a byte too short", tirunoiwa_narrow(P9, SIZE(P9), lend(), SIZE(F) - 1), 14);
    refused("F narrowed into no bytes", tirunoiwa_narrow(F, SIZE(F), lend(), 0), 14);
    refused("P2 narrowed", tirunoiwa_narrow(P2, SIZE(P2), lend(), MOST), 2);
    refused("no job narrowed", tirunoiwa_narrow(P3, 0, lend(), MOST), 1);
    refused("P10 narrowed before a short buffer", tirunoiwa_narrow(P10, SIZE(P10), lend(), 0), 9);
}

/* Our own plans are good, one with a frame two cells thick on the left too; the plan of F turned is not good for F. */
static void checks(void)
{
    static uint8_t plan[SIZE(F_PLAN)];
    memcpy(plan, F_PLAN, SIZE(F_PLAN));
    lend();
    expect("F with its plan", tirunoiwa_check(F, SIZE(F), F_PLAN, SIZE(F_PLAN)), 257, NULL, 0);
    expect("P9 with its plan", tirunoiwa_check(P9, SIZE(P9), P9_PLAN, SIZE(P9_PLAN)), 257, NULL, 0);
    expect("F with the plan of P9", tirunoiwa_check(F, SIZE(F), P9_PLAN, SIZE(P9_PLAN)), 256, NULL, 0);
    expect("sizes with their plan", tirunoiwa_check(SIZED, SIZE(SIZED), SIZED_PLAN, SIZE(SIZED_PLAN)), 257, NULL, 0);
    expect("F with a plan of larger rooms", tirunoiwa_check(F, SIZE(F), SIZED_PLAN, SIZE(SIZED_PLAN)), 257, NULL, 0);
    expect("sizes with the plan of F", tirunoiwa_check(SIZED, SIZE(SIZED), F_PLAN, SIZE(F_PLAN)), 256, NULL, 0);
    plan[3]++;
    for (size_t i = 5; i < SIZE(plan); i += 8) {
        plan[i + 4] = (uint8_t)(plan[i + 4] + (plan[i + 4] > 0));
        plan[i + 6]++;
    }
    expect("W two cells thick", tirunoiwa_check(F, SIZE(F), plan, SIZE(plan)), 257, NULL, 0);
    plan[5 + 8 * 4 + 7]++;
    expect("a room too high", tirunoiwa_check(F, SIZE(F), plan, SIZE(plan)), 256, NULL, 0);
    expect("no plan good for P10", tirunoiwa_check(P10, SIZE(P10), F_PLAN, SIZE(F_PLAN)), 256, NULL, 0);
    refused("a plan cut short", tirunoiwa_check(F, SIZE(F), F_PLAN, SIZE(F_PLAN) - 1), 16);
    refused("no plan", tirunoiwa_check(F, SIZE(F), P3, 0), 16);
    refused("no job before no plan", tirunoiwa_check(P3, 0, P3, 0), 1);
    refused("no rooms", tirunoiwa_check(P2, SIZE(P2), F_PLAN, SIZE(F_PLAN)), 2);
}

/* A job in its wrapper. */
static uint8_t *put_wrapped(uint8_t *at, const uint8_t *job, size_t length)
{
    const uint8_t head[] = {9, (uint8_t)(length / 256), (uint8_t)(length % 256)};
    return put_bytes(put_bytes(at, head, SIZE(head)), job, length);
}

static uint64_t *lend_places(void)
{
    for (size_t i = 0; i < SIZE(places); i++) {
        places[i] = before(i);
    }
    return places;
}

/* The answer, the figures, and every place behind them; none was written where they are NULL. */
static void figured(const char *what, size_t answer, size_t wanted, const uint64_t *figures)
{
    const size_t many = figures == NULL ? 0 : TIRUNOIWA_FIGURES;
    calls++;
    if (answer != wanted || (figures == NULL ? tirunoiwa_refused(answer) != wanted : tirunoiwa_value(answer) != many)) {
        complain(what, "not the answer", answer);
    }
    for (size_t i = 0; i < SIZE(places); i++) {
        if (places[i] != (i < many ? figures[i] : before(i))) {
            complain(what, i < many ? "not the figures" : "a place behind was touched", answer);
            break;
        }
    }
}

/*
 * F is 4 by 5 with 6 cells of rooms, P9 5 by 4 with 6, F with sizes 7 by 8 with 30; P2 falls to 2, no bytes to 1, P10 to 9. No jobs are noughts, 200 are told,
 * 201 are refused, and so is a wrapper that is cut short, has another tag or a byte behind it; 19 comes before 14.
 */
static void totals(void)
{
    static uint8_t jobs[201 * (3 + SIZE(F))];
    static const uint64_t noughts[TIRUNOIWA_FIGURES] = {0};
    static const uint64_t mixed[TIRUNOIWA_FIGURES] = {4, 1, 2, 0, 0, 0, 0, 0, 1, 0, 0, 20, 22, 48, 68, 116};
    static const uint64_t many[TIRUNOIWA_FIGURES] = {200, 0, 0, 0, 0, 0, 0, 0, 0, 0, 0, 800, 1000, 1200, 2800, 4000};
    const size_t one = 3 + SIZE(F);
    uint8_t *end = put_wrapped(jobs, F, SIZE(F));
    end = put_wrapped(end, P2, SIZE(P2));
    end = put_wrapped(end, P9, SIZE(P9));
    end = put_wrapped(end, P10, SIZE(P10));
    end = put_wrapped(end, SIZED, SIZE(SIZED));
    end = put_wrapped(end, P3, 0);
    end = put_wrapped(end, F, SIZE(F));
    end = put_wrapped(end, P2, SIZE(P2));
    const size_t length = (size_t)(end - jobs);
    figured("a season", tirunoiwa_totals(jobs, length, lend_places(), SIZE(places)), 272, mixed);
    figured("a season, no place to spare", tirunoiwa_totals(jobs, length, lend_places(), TIRUNOIWA_FIGURES), 272, mixed);
    figured("no jobs", tirunoiwa_totals(jobs, 0, lend_places(), SIZE(places)), 272, noughts);
    figured("a season, a place too short", tirunoiwa_totals(jobs, length, lend_places(), TIRUNOIWA_FIGURES - 1), 14, NULL);
    figured("no jobs into no places", tirunoiwa_totals(jobs, 0, lend_places(), 0), 14, NULL);
    figured("a season cut short", tirunoiwa_totals(jobs, length - 1, lend_places(), SIZE(places)), 19, NULL);
    figured("a byte behind", tirunoiwa_totals(jobs, length + 1, lend_places(), SIZE(places)), 19, NULL);
    figured("a job without its wrapper", tirunoiwa_totals(F, SIZE(F), lend_places(), SIZE(places)), 19, NULL);
    figured("cut short before a short buffer", tirunoiwa_totals(jobs, 2, lend_places(), 0), 19, NULL);
    jobs[one] = 8;
    figured("a wrapper of tag 8", tirunoiwa_totals(jobs, length, lend_places(), SIZE(places)), 19, NULL);
    end = jobs;
    for (size_t i = 0; i < 201; i++) {
        end = put_wrapped(end, F, SIZE(F));
    }
    figured("200 jobs", tirunoiwa_totals(jobs, 200 * one, lend_places(), SIZE(places)), 272, many);
    figured("201 jobs", tirunoiwa_totals(jobs, 201 * one, lend_places(), SIZE(places)), 19, NULL);
    figured("201 jobs before a short buffer", tirunoiwa_totals(jobs, 201 * one, lend_places(), 0), 19, NULL);
}

/* Least sizes: planned, kept by a turn, refused by 17, and by 1 where their field is too short. */
static void sizes(void)
{
    static uint8_t job[SIZE(SIZED)];
    wrote("F with sizes planned", tirunoiwa_plan(SIZED, SIZE(SIZED), lend(), MOST), SIZED_PLAN, SIZE(SIZED_PLAN));
    wrote("F with sizes turned", tirunoiwa_turned(SIZED, SIZE(SIZED), 5, 6, lend(), TIRUNOIWA_JOB_MOST), SIZED_P9, SIZE(SIZED_P9));
    wrote("and turned again", tirunoiwa_turned(SIZED_P9, SIZE(SIZED_P9), 6, 5, lend(), SIZE(SIZED)), SIZED, SIZE(SIZED));
    refused("F with sizes turned, a byte too short", tirunoiwa_turned(SIZED, SIZE(SIZED), 5, 6, lend(), SIZE(SIZED) - 1), 14);
    walled("5 to the right of 4, three cells", tirunoiwa_touch(SIZED, SIZE(SIZED), 4, 5), 3, 3);
    wrote("star of 6 beside sizes", tirunoiwa_star(SIZED, SIZE(SIZED), 6, lend(), MOST), STAR_6, SIZE(STAR_6));
    memcpy(job, SIZED, SIZE(SIZED));
    memset(job + SIZE(F) + 3, 1, 8);
    refused("sizes of 1 throughout", tirunoiwa_plan(job, SIZE(job), lend(), MOST), 17);
    job[SIZE(job) - 1] = 16;
    refused("a size of 16", tirunoiwa_walls(job, SIZE(job), lend(), MOST), 17);
    job[SIZE(job) - 1] = 0;
    refused("a size of 0, turned", tirunoiwa_turned(job, SIZE(job), 5, 6, lend(), MOST), 17);
    refused("sizes cut short", tirunoiwa_plan(SIZED, SIZE(SIZED) - 1, lend(), MOST), 1);
}

/* A row of rooms, each 15 wide: 16 of them are planned, 17 are too wide. */
static void rows_of_wide_rooms(void)
{
    static uint8_t job[TIRUNOIWA_JOB_MOST];
    for (uint8_t rooms = 16; rooms <= 17; rooms++) {
        const uint8_t first[] = {1, 0, 1, rooms};
        const uint8_t sizes[] = {7, 0, (uint8_t)(2 * rooms)};
        static const uint8_t size[] = {15, 1};
        uint8_t *end = put_bytes(job, first, SIZE(first));
        for (uint8_t v = 4; v < rooms + 4; v++) {
            const uint8_t left = v == 4 ? 1 : (uint8_t)(v - 1);
            const uint8_t right = v == rooms + 3 ? 3 : (uint8_t)(v + 1);
            const uint8_t star[] = {2, 0, 8, 0, 0, left, 1, 2, 2, right, 3};
            end = put_bytes(end, star, SIZE(star));
        }
        end = put_bytes(end, sizes, SIZE(sizes));
        for (uint8_t room = 0; room < rooms; room++) {
            end = put_bytes(end, size, SIZE(size));
        }
        const size_t length = (size_t)(end - job);
        if (rooms == 16) {
            walled("N above a room 15 wide", tirunoiwa_touch(job, length, 19, 0), 0, 15);
        } else {
            refused("17 rooms, each 15 wide", tirunoiwa_plan(job, length, lend(), MOST), 18);
            refused("17 rooms, asked", tirunoiwa_touch(job, length, 19, 0), 18);
        }
    }
}

static void stars(void)
{
    wrote("star of 6", tirunoiwa_star(F, SIZE(F), 6, lend(), MOST), STAR_6, SIZE(STAR_6));
    wrote("star of 6, no byte to spare", tirunoiwa_star(F, SIZE(F), 6, lend(), SIZE(STAR_6)), STAR_6, SIZE(STAR_6));
    refused("star of 6, a byte too short", tirunoiwa_star(F, SIZE(F), 6, lend(), SIZE(STAR_6) - 1), 14);
    wrote("star of a frame side", tirunoiwa_star(F, SIZE(F), 3, lend(), MOST), NULL, 0);
    wrote("star of no room", tirunoiwa_star(F, SIZE(F), 8, lend(), MOST), NULL, 0);
    wrote("star of the last number", tirunoiwa_star(F, SIZE(F), SIZE_MAX, lend(), MOST), NULL, 0);
    wrote("star in no job, into no bytes", tirunoiwa_star(P3, 0, 4, lend(), 0), NULL, 0);
    wrote("star in P2", tirunoiwa_star(P2, SIZE(P2), 4, lend(), MOST), NULL, 0);
}

static void touches(void)
{
    walled("6 to the left of 5 in F", tirunoiwa_touch(F, SIZE(F), 5, 6), 1, 1);
    walled("5 to the right of 6", tirunoiwa_touch(F, SIZE(F), 6, 5), 3, 1);
    walled("W to the left of 6, two cells", tirunoiwa_touch(F, SIZE(F), 6, 1), 1, 2);
    walled("5 below N", tirunoiwa_touch(F, SIZE(F), 0, 5), 2, 1);
    walled("N above 5", tirunoiwa_touch(F, SIZE(F), 5, 0), 0, 1);
    walled("W to the left of N", tirunoiwa_touch(F, SIZE(F), 0, 1), 1, 1);
    clear("4 and 7 of F", tirunoiwa_touch(F, SIZE(F), 4, 7));
    clear("N and S", tirunoiwa_touch(F, SIZE(F), 0, 2));
    clear("one vertex", tirunoiwa_touch(F, SIZE(F), 5, 5));
    lend();
    refused("no such vertex", tirunoiwa_touch(F, SIZE(F), 5, 8), 13);
    refused("no such vertex, twice", tirunoiwa_touch(F, SIZE(F), SIZE_MAX, SIZE_MAX), 13);
    refused("touch in no job", tirunoiwa_touch(P3, 0, 5, 6), 1);
    refused("touch in P10", tirunoiwa_touch(P10, SIZE(P10), 5, 8), 9);
}

int main(void)
{
    plans();
    walls();
    cuts();
    row_of_sixty();
    turns();
    narrowings();
    checks();
    totals();
    sizes();
    rows_of_wide_rooms();
    stars();
    touches();
    if (wrong != 0) {
        return 1;
    }
    printf("library: %u calls from C are answered as written, every byte looked at\n", calls);
    return 0;
}
