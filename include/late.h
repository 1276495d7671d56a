/*
 * How late an alarm can be: the proved library, for C. docs/FORMAT.md takes a plan and its report apart, byte by byte.
 *
 * Link crates/exports/out/libexports.a, which `rt lib` in crates/exports writes for x86-64 Linux. Of C's library it needs
 * memcpy and memset alone. It allocates nothing and keeps nothing between calls, so that several threads may call it at
 * once; a call takes about 30 KB of stack.
 *
 * A plan and a report space are each a pointer and a length in bytes; the pointer needs no alignment, and may be null
 * with length 0. The other pointers must not be null and must be aligned as uint64_t is. The spaces that a function
 * writes must overlap neither each other nor the plan. Any bytes may stand in the plan, which is left alone. What a
 * function hands back and leaves in each space is proved, for any bytes (crates/exports/src/entries.rt).
 */
#ifndef LATE_H
#define LATE_H

#include <stddef.h>
#include <stdint.h>

#ifdef __cplusplus
extern "C" {
#endif

/* The limits, and sizes in bytes; a record's includes its tag and its length. */
enum {
    LATE_PLAN_BYTES = 4096,       /* of the longest plan */
    LATE_MOST_CONTROLLERS = 16,
    LATE_MOST_TASKS = 64,
    LATE_MOST_PATHS = 32,
    LATE_MOST_STEPS = 16,         /* tasks on a path */
    LATE_MOST_SHARING = 16,       /* tasks on a controller */
    LATE_MOST_COST = 1000000,     /* ticks that a job costs */
    LATE_MOST_TICKS = 1000000000, /* of a period, a jitter, a busy window */
    LATE_MOST_JOBS = 1024,        /* jobs looked at */
    LATE_HEAD_RECORD_BYTES = 14,
    LATE_TASK_RECORD_BYTES = 22,
    LATE_PATH_RECORD_BYTES = 29,
    LATE_REPORT_BYTES =           /* of a space with room for any report */
        LATE_HEAD_RECORD_BYTES
        + LATE_MOST_TASKS * LATE_TASK_RECORD_BYTES
        + LATE_MOST_PATHS * LATE_PATH_RECORD_BYTES
};

/*
 * A plan is a row of fields: tag (a byte), length of the value (2 bytes), value. All numbers have the most significant
 * byte first. The fields come in this order, each group in number order from 0; 20 and 21 are one group, mixed as the
 * task numbers fall.
 *
 *   tag  length     value
 *   01   4          the head: edition 1; controllers 1..LATE_MOST_CONTROLLERS; tasks 1..LATE_MOST_TASKS;
 *                   paths 0..LATE_MOST_PATHS (a byte each)
 *   10   2          for each controller: its own number; policy 1 (a byte each)
 *   20   18         for each task fed from outside: controller, priority (a byte each); C-, C+, P, J (4 bytes each)
 *   21   11         for each task fed by another: controller, priority (a byte each); C-, C+ (4 bytes each);
 *                   feeder (a byte)
 *   30   4 + steps  for each path: deadline (4 bytes); 1..LATE_MOST_STEPS task numbers (a byte each)
 *
 *   priority      any byte, no two the same on one controller; smaller is more urgent
 *   C-, C+        a job costs at least C- and at most C+ ticks; C- is 1..LATE_MOST_COST, C+ is C-..LATE_MOST_COST
 *   P, J          period and jitter of the outside stream, each of whose events activates a job: the events trail
 *                 moments evenly P ticks apart by at most J ticks; P is 1..LATE_MOST_TICKS, J is 0..LATE_MOST_TICKS
 *   feeder        the number of a task, each of whose finished jobs activates a job of this one; a task may be fed by a
 *                 later one, and may feed several
 *   deadline      in ticks, not 0
 *   task numbers  each task but the first is fed by the one before it
 */

/* The number of an answer: when exactly it is given, and the answer's place. All but LATE_ACCEPTED are refusals. */
enum {
    LATE_ACCEPTED = 0,        /* accepted                                              report length */
    LATE_LONG = 1,            /* plan longer than LATE_PLAN_BYTES                      0 */
    LATE_CUT = 2,             /* fewer than 3 bytes left for a due field, or fewer     offset of its tag's position
                                 than its length says */
    LATE_TAG = 3,             /* another tag than is due                               offset of the tag */
    LATE_LENGTH = 4,          /* length not allowed for the tag                        offset of the tag */
    LATE_VALUE = 5,           /* a value outside its range, an own number other than   offset of its first byte
                                 the one due, or naming a controller or task that
                                 the head does not count */
    LATE_AFTER = 6,           /* bytes after the last due field                        offset of the first */
    LATE_SHARED_PRIORITY = 7, /* two tasks on one controller share a priority          lowest task sharing with a
                                                                                       lower-numbered one */
    LATE_ENDLESS = 8,         /* going back from feeder to feeder never reaches a      lowest such task
                                 task fed from outside */
    LATE_BROKEN_PATH = 9,     /* a path's task is not fed by the one before it         lowest such path */
    LATE_CROWDED = 10,        /* more than LATE_MOST_SHARING tasks on a controller     lowest such controller */
    LATE_SHORT = 11,          /* report space too short                                bytes needed */
    LATE_OVERLOADED = 12,     /* exact load above one                                  lowest such controller */
    LATE_UNBOUNDED = 13       /* no bound within limits                                lowest task that leaves them in
                                                                                       the answer's sweep */
};

/*
 * A report is a row of records, laid out as fields are, in this order. Only slack is signed (two's complement).
 *
 *   tag  value
 *   81   the head: edition 1 (a byte); sweeps (8 bytes); tasks; paths (a byte each)
 *   90   for each task: task (a byte); R-, R+, input jitter, output jitter (4 bytes each); jobs looked at (2 bytes)
 *   A0   for each path: path; verdict (a byte each); best, worst, slack (8 bytes each)
 *
 *   sweeps          the answer's sweep
 *   R-, R+          a job's response, its finish minus its activation, is at least R- and at most R+
 *   input jitter    the task's activations trail moments evenly P ticks apart by at most so many ticks, P being that of
 *                   the outside stream to which its feeders lead back
 *   output jitter   the same for the finishes of its jobs
 *   jobs looked at  R+ is the largest response among so many jobs in a row, those of a busy window: a time in which the
 *                   controller is never done with the task's jobs and the more urgent ones
 *   best, worst     the sums of R- and R+ along the path: from the activation of its first task to the finish of its
 *                   last it takes at least best and at most worst ticks
 *   slack           deadline minus worst
 *   verdict         LATE_MEETS (slack 0 or more) or LATE_MISSES
 *
 * These figures hold in every run of the plan. Whether the bench runs as the plan says is for the caller to see:
 *
 *   - Costs, periods and jitters are the caller's; the library measures nothing.
 *   - Policy 1 preempts: each tick goes to the most urgent task that has work. On a wire that finishes each frame once
 *     begun, the figures may be too small.
 *   - A path begins when its first task is activated; the wait for the next reading is in no path.
 */
enum {
    LATE_MEETS = 1,
    LATE_MISSES = 2
};

/*
 * The answer to a plan. Hands back its number, and stores its place and its sweep.
 *
 * Where several refusals are due: LATE_LONG first; then, field by field, LATE_CUT for tag and length, LATE_TAG,
 * LATE_LENGTH, LATE_CUT for the value, LATE_VALUE in layout order; then the others by number.
 *
 * A sweep works out every R+ anew from the set before it, the first from R+ = C+ for all. Sweeps are counted from 1.
 * *sweep is the first that changed nothing for LATE_ACCEPTED, the first in which a task leaves the limits for
 * LATE_UNBOUNDED, and 0 for every other number. Within limits, jitters and busy windows are at most LATE_MOST_TICKS,
 * and at most LATE_MOST_JOBS jobs are looked at.
 *
 * The report space holds the report and FF after it for LATE_ACCEPTED, and FF throughout for a refusal.
 */
uint64_t late_answer(const uint8_t *plan, size_t plan_bytes, uint8_t *report, size_t report_bytes, uint64_t *place,
                     uint64_t *sweep);

/*
 * The question about a path: which part of a well-formed plan holds its task numbers. A plan is well-formed when no
 * refusal judged before LATE_SHORT is due. Hands back how many task numbers there are, a byte each; the first is
 * plan[*from]. Both are 0 for any other plan, and for a path that the head does not count.
 */
uint64_t late_path(const uint8_t *plan, size_t plan_bytes, uint64_t path, uint64_t *from);

/* LATE_REPORT_BYTES, as the library was built: with so much room no plan is refused with LATE_SHORT. */
uint64_t late_report_bytes(void);

#ifdef __cplusplus
}
#endif

#endif
