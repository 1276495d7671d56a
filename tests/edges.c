/* What late.h says of empty spaces, of a report space that is too short and of one that is too long, its limits, and its stack. */
#define _POSIX_C_SOURCE 200809L
#include <pthread.h>
#include <stdio.h>
#include <string.h>

#include "late.h"

/* Document 01's case J. */
static const uint8_t plan[] = {
    0x01, 0x00, 0x04, 0x01, 0x01, 0x02, 0x01,
    0x10, 0x00, 0x02, 0x00, 0x01,
    0x20, 0x00, 0x12, 0x00, 0x01, 0, 0, 0, 0x05, 0, 0, 0, 0x05, 0, 0, 0, 0x1E, 0, 0, 0, 0x3C,
    0x21, 0x00, 0x0B, 0x00, 0x02, 0, 0, 0, 0x01, 0, 0, 0, 0x09, 0x00,
    0x30, 0x00, 0x06, 0, 0, 0, 0x5A, 0x00, 0x01,
};

/* Its report is so long. */
enum { LONG = LATE_HEAD_RECORD_BYTES + 2 * LATE_TASK_RECORD_BYTES + LATE_PATH_RECORD_BYTES };

static int failed;

/* Says what does not hold. */
static void expect(const char *what, int holds)
{
    if (!holds) {
        printf("edges: not so: %s\n", what);
        failed = 1;
    }
}

/* Whether so many bytes are all FF. */
static int blank(const uint8_t *at, size_t count)
{
    for (size_t i = 0; i < count; i++)
        if (at[i] != 0xFF)
            return 0;
    return 1;
}

/* The number of the answer to a plan, no report space being lent. */
static uint64_t answer(const uint8_t *at, size_t count)
{
    uint64_t place, sweep;
    return late_answer(at, count, NULL, 0, &place, &sweep);
}

/* The number of the answer to case J with another number in so many bytes from an offset on. */
static uint64_t changed(size_t offset, size_t bytes, uint64_t number)
{
    uint8_t other[sizeof plan];
    memcpy(other, plan, sizeof plan);
    for (size_t i = bytes; i > 0; i--, number >>= 8)
        other[offset + i - 1] = (uint8_t)number;
    return answer(other, sizeof other);
}

/* Expects that such a number may be as large as a limit, and that one more is refused so. */
static void expect_limit(const char *what, size_t offset, size_t bytes, uint64_t limit, uint64_t refusal)
{
    expect(what, changed(offset, bytes, limit) != refusal && changed(offset, bytes, limit + 1) == refusal);
}

/* The number of the answer to a plan of so many tasks, all on one controller. */
static uint64_t sharing(size_t tasks)
{
    enum { START = 12, TASK = 21 }; /* bytes of head and controller, and of a task */
    uint8_t shared[START + TASK * (LATE_MOST_SHARING + 1)] = {0x01, 0, 4, 1, 1, (uint8_t)tasks, 0, 0x10, 0, 2, 0, 1};
    for (size_t k = 0; k < tasks; k++) {
        const uint8_t task[TASK] = {0x20, 0, 18, 0, (uint8_t)k, 0, 0, 0, 1, 0, 0, 0, 1, 0, 0, 0, 1};
        memcpy(shared + START + TASK * k, task, TASK);
    }
    return answer(shared, START + TASK * tasks);
}

/* Runs nothing. */
static void *run_nothing(void *nothing)
{
    return nothing;
}

/* Answers case J with its report. */
static void *run_answer(void *nothing)
{
    uint64_t place, sweep;
    uint8_t report[LONG];
    late_answer(plan, sizeof plan, report, sizeof report, &place, &sweep);
    return nothing;
}

/* A thread's stack. */
enum { STACK = 1 << 18, PAINT = 0xA7 };
typedef long double stack_space[STACK / sizeof(long double)];

/* How many bytes of its stack, which is painted before, a thread writes that runs so: 0 if it can't be run. */
static size_t stack_of(void *(*run)(void *), stack_space space)
{
    const uint8_t *stack = (const uint8_t *)space;
    pthread_attr_t with_stack;
    pthread_t thread;
    size_t untouched = 0;
    memset(space, PAINT, STACK);
    if (pthread_attr_init(&with_stack) || pthread_attr_setstack(&with_stack, space, STACK)
        || pthread_create(&thread, &with_stack, run, NULL) || pthread_join(thread, NULL))
        return 0;
    while (untouched < STACK && stack[untouched] == PAINT)
        untouched++;
    return STACK - untouched;
}

int main(void)
{
    uint64_t place = 7, sweep = 7, from = 7;
    uint8_t report[LONG + 3];
    static const uint8_t zeros[LATE_PLAN_BYTES + 1];
    static stack_space idle, busy;
    size_t of_nothing, of_answer;

    expect("an empty plan and no report space: 2", late_answer(NULL, 0, NULL, 0, &place, &sweep) == LATE_CUT);
    expect("place 0, sweep 0", place == 0 && sweep == 0);
    expect("an empty plan has no path", late_path(NULL, 0, 0, &from) == 0 && from == 0);

    expect("no report space: 11", late_answer(plan, sizeof plan, NULL, 0, &place, &sweep) == LATE_SHORT);
    expect("so many bytes needed", place == LONG && sweep == 0);

    memset(report, 0, sizeof report);
    expect("a byte too short: 11", late_answer(plan, sizeof plan, report, LONG - 1, &place, &sweep) == LATE_SHORT);
    expect("FF in the space, and nothing after it", blank(report, LONG - 1) && report[LONG - 1] == 0);

    memset(report, 0, sizeof report);
    expect("accepted", late_answer(plan, sizeof plan, report, LONG + 2, &place, &sweep) == LATE_ACCEPTED);
    expect("report length and sweeps", place == LONG && sweep == 2);
    expect("a report, FF to the end of the space, nothing after it",
           report[0] == 0x81 && report[LONG - 1] == 0x1C && blank(report + LONG, 2) && report[LONG + 2] == 0);

    expect("path 0 has two tasks, at the end of the plan",
           late_path(plan, sizeof plan, 0, &from) == 2 && from == sizeof plan - 2);
    expect("path 1 is not counted", late_path(plan, sizeof plan, 1, &from) == 0 && from == 0);
    expect("no path has the greatest number", late_path(plan, sizeof plan, UINT64_MAX, &from) == 0 && from == 0);

    expect("the longest plan", answer(zeros, LATE_PLAN_BYTES) == LATE_TAG);
    expect("a byte more: 1", answer(zeros, LATE_PLAN_BYTES + 1) == LATE_LONG);
    expect_limit("the most controllers", 4, 1, LATE_MOST_CONTROLLERS, LATE_VALUE);
    expect_limit("the most tasks", 5, 1, LATE_MOST_TASKS, LATE_VALUE);
    expect_limit("the most paths", 6, 1, LATE_MOST_PATHS, LATE_VALUE);
    expect_limit("the most that a job costs", 21, 4, LATE_MOST_COST, LATE_VALUE);
    expect_limit("the longest period", 25, 4, LATE_MOST_TICKS, LATE_VALUE);
    expect_limit("the largest jitter", 29, 4, LATE_MOST_TICKS, LATE_VALUE);
    expect_limit("the most steps after the deadline", 48, 2, 4 + LATE_MOST_STEPS, LATE_LENGTH);
    expect("the most tasks on a controller", sharing(LATE_MOST_SHARING) == LATE_SHORT);
    expect("a task more: 10", sharing(LATE_MOST_SHARING + 1) == LATE_CROWDED);
    expect("room for any report", late_report_bytes() == LATE_REPORT_BYTES);

    of_nothing = stack_of(run_nothing, idle);
    of_answer = stack_of(run_answer, busy);
    expect("threads that run on stacks of their own", of_nothing > 0 && of_answer > of_nothing);
    expect("a call takes about 30 KB of stack", of_answer - of_nothing < 32 * 1024);

    if (!failed)
        puts("edges: all as late.h says");
    return failed;
}
