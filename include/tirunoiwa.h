/*
 * Tirunoiwa, the zone planner, for C and C++. Link target/staticlib/libtirunoiwa.a, which `bin/library` makes (x86-64 Linux).
 *
 * No state is kept between two calls: each reads a job's bytes anew, so calls may run at once in several threads.
 *
 * An answer is one number. Below 256 it is a refusal, and nothing was written:
 *    1  the bytes are not a job's fields     7  walls run in a circle
 *    2  no rooms, or more than 60            9  the drawing test fails
 *    3  more than 360 pairs                 11  not two rooms in contact
 *    4  a neighbour or kind that cannot be  12  a list has fewer than two
 *    5  not a star                          13  no such vertex
 *    6  a contact that one room lacks       14  the buffer is too short
 *   17  a least size outside 1 to 15, or    15  no straight cuts take the floor apart
 *       all of them 1                       16  not the bytes of a plan of the job's vertices
 *   19  a broken wrapper, or more than      18  the sheet is over 250 cells wide or high
 *       200 jobs
 * 8 is not used. Of a job's refusals the first is told, in the order 1, 2, 1, 3, 4, 5, 6, 17, 7, 18, 9: of the first field, the number of rooms, the other
 * fields, and so on.
 * From 256 on it is 256 plus a value: the number of bytes or of figures written, how two vertices touch, how many turns were made, or 1 for yes and 0 for no.
 *
 * tirunoiwa_share, which told yes or no, is gone; tirunoiwa_touch stands in its place, and tells no wall exactly where it told no.
 *
 * Bytes of `out`, and places of `figures`, behind those that were written stay as they were.
 *
 * The caller owes: each pointer is not null, even where its length is 0, aligned as its type asks, and valid for its length, and a length is below 2^63 bytes;
 * what is read (`job`, `jobs`, `plan`) does not overlap what is written (`out`, `figures`); during the call nobody else writes the one, or reads or writes the
 * other. A call takes at most 32 KiB of stack.
 */
#ifndef TIRUNOIWA_H
#define TIRUNOIWA_H

#include <stddef.h>
#include <stdint.h>

#ifdef __cplusplus
extern "C" {
#endif

/*
 * Buffers that always suffice: for a plan, a sheet and 64 rectangles; for the walls, 63 of them; for the cuts, 60 rooms and 59 cuts; for a turned or narrowed
 * job, 60 stars of 360 pairs and the field of least sizes. A star is never longer than its job.
 */
#define TIRUNOIWA_PLAN_MOST (5 + 64 * 8)
#define TIRUNOIWA_WALLS_MOST (63 * 8)
#define TIRUNOIWA_CUTS_MOST (60 * 4 + 59 * 5)
#define TIRUNOIWA_JOB_MOST (4 + 60 * 3 + 360 * 2 + 3 + 60 * 2)

/* Reads a job and writes its plan to the front of `out`. Answers 256 + the plan's length, or 1 to 7, 9, 14, 17, 18. */
size_t tirunoiwa_plan(const uint8_t *job, size_t job_length, uint8_t *out, size_t out_length);

/*
 * Reads a job and writes the walls of its plan to the front of `out`, for the joiner: a field of tag 8, length 5 each (direction 0 upright or 1 level, number,
 * beginning, end, room sides), upright walls first, then by number, then by beginning. Answers 256 + the length, or 1 to 7, 9, 14,
 * 17, 18.
 */
size_t tirunoiwa_walls(const uint8_t *job, size_t job_length, uint8_t *out, size_t out_length);

/*
 * Reads a job and writes the tree of straight cuts that take its rooms apart to the front of `out`: a cut is a field of tag 5, length 2 (direction 0 upright or
 * 1 level, place), behind which its left or lower part follows and then the other; a room is a field of tag 6, length 1. The leftmost upright cut comes first,
 * where there is none the lowest level one. Answers 256 + the length, or 1 to 7, 9, 17, 18, then 15, then 14.
 */
size_t tirunoiwa_cuts(const uint8_t *job, size_t job_length, uint8_t *out, size_t out_length);

/*
 * Reads a job, turns the contact of rooms u and v, and writes the turned job, with the least sizes that it came with, to the front of `out`. Answers 256 + its
 * length, or 1 to 7, 9, 11, 12, 14, 17, 18; 18 also where the turned sheet would be too large.
 */
size_t tirunoiwa_turned(const uint8_t *job, size_t job_length, size_t u, size_t v, uint8_t *out, size_t out_length);

/*
 * Reads a job, makes its sheet narrower by turns, and writes the job that they come to to the front of `out`: again and again the first contact of two rooms,
 * one above the other, by the lower number and then by the other, whose turn is accepted and makes the sheet narrower, until there is none. The sheet may get
 * higher. Answers 256 + the number of turns, or 1 to 7, 9, 14, 17, 18. What is written is as long as the job: job_length bytes.
 */
size_t tirunoiwa_narrow(const uint8_t *job, size_t job_length, uint8_t *out, size_t out_length);

/*
 * Writes the bytes of a room's star to the front of `out`; none where the job's bytes fail test 1 or 2 or have no such room. The other tests are not made.
 * Answers 256 + the star's length, or 14.
 */
size_t tirunoiwa_star(const uint8_t *job, size_t job_length, size_t room, uint8_t *out, size_t out_length);

/*
 * Reads a job; how vertices u and v touch. Answers 256 for no wall between them, or u and v one vertex; else 256 + 4 * the length of wall they share + the side
 * on which v stands, seen from u: 0 above, 1 to the left, 2 below, 3 to the right; or 1 to 7, 9, 13, 17, 18. The length is at least 1.
 */
size_t tirunoiwa_touch(const uint8_t *job, size_t job_length, size_t u, size_t v);

/*
 * Whether a plan, drawn elsewhere or here, is good for a job: the frame lies as in ours, each side at least one cell thick; every cell of the sheet lies in
 * exactly one rectangle; no point in four; two share a wall exactly if the job joins them, on its side, or are neighbouring sides of the frame; neighbours stand
 * in order; every room has at least its size. Answers 256 for no, 257 for yes, or 1 to 6, 17, then 16 for bytes that are not a plan of just the job's vertices.
 */
size_t tirunoiwa_check(const uint8_t *job, size_t job_length, const uint8_t *plan, size_t plan_length);

/* How many figures the season's totals have. */
#define TIRUNOIWA_FIGURES 16

/*
 * The season's totals of up to 200 jobs, each wrapped in a field of tag 9, one behind the other to the end of `jobs`; no jobs are noughts. Writes to the front of
 * `figures`: how many jobs were accepted; how many fell to 1, 2, 3, 4, 5, 6, 7, 9, 17, 18; and, over the accepted ones alone, the sums of widths, of heights, of
 * room cells, of frame cells, and of sheet cells (width times height). A job that is refused changes nothing but its own count; the counts together are the
 * jobs, and room cells plus frame cells are sheet cells. Answers 256 + 16, or 19 for a broken wrapper or more than 200 jobs, then 14 where `figures` has fewer
 * than 16 places. `jobs_length` counts bytes, `figures_length` places.
 */
size_t tirunoiwa_totals(const uint8_t *jobs, size_t jobs_length, uint64_t *figures, size_t figures_length);

/* The number of the refusal, or 0 where the answer is none. */
static inline unsigned tirunoiwa_refused(size_t answer)
{
    return answer < 256 ? (unsigned)answer : 0;
}

/* The value of an answer that is no refusal. */
static inline size_t tirunoiwa_value(size_t answer)
{
    return answer - 256;
}

/* The side on which v stands, of an answer of tirunoiwa_touch that is a wall. */
static inline unsigned tirunoiwa_side(size_t answer)
{
    return (unsigned)(tirunoiwa_value(answer) % 4);
}

/* The length of wall that is shared, of an answer of tirunoiwa_touch that is no refusal; 0 where there is no wall. */
static inline size_t tirunoiwa_length(size_t answer)
{
    return tirunoiwa_value(answer) / 4;
}

#ifdef __cplusplus
}
#endif

#endif
