/*
 * Reads a plan from standard input and prints the verdict on each of its paths, or why there is none.
 *
 * The exit status is 0 when the verdict on every path was printed whole and every path meets. It is 1 for all else: a
 * path that misses or a refusal, as printed; no paths in the plan, input that cannot be read or output that cannot be
 * written, as a sentence on standard error says.
 */
#include <inttypes.h>
#include <stdbool.h>
#include <stdio.h>
#include <stdlib.h>

#include "late.h"

/* What the number of a refusal means, with what its place counts. */
static const char *meaning(uint64_t refusal)
{
    static const char *const meanings[] = {
        [LATE_LONG] = "the plan is too long: byte",
        [LATE_CUT] = "a field is cut short: byte",
        [LATE_TAG] = "another tag than is due: byte",
        [LATE_LENGTH] = "a length not allowed for its tag: byte",
        [LATE_VALUE] = "a value outside its range: byte",
        [LATE_AFTER] = "bytes after the last field: byte",
        [LATE_SHARED_PRIORITY] = "shares controller and priority with another: task",
        [LATE_ENDLESS] = "no outside stream feeds its chain: task",
        [LATE_BROKEN_PATH] = "its tasks do not feed each other: path",
        [LATE_CROWDED] = "more than 16 tasks: controller",
        [LATE_SHORT] = "the report space is too short: bytes needed",
        [LATE_OVERLOADED] = "load above one: controller",
        [LATE_UNBOUNDED] = "no bound within limits: task",
    };
    bool known = refusal < sizeof meanings / sizeof *meanings && meanings[refusal] != NULL;
    return known ? meanings[refusal] : "see late.h: place";
}

/* The number in eight bytes, the most significant first. */
static uint64_t number(const uint8_t *at)
{
    uint64_t n = 0;
    for (int i = 0; i < 8; i++)
        n = n << 8 | at[i];
    return n;
}

/* Prints the task numbers of a path, which the plan itself holds. */
static void print_tasks(const uint8_t *plan, size_t plan_bytes, uint64_t path)
{
    uint64_t from;
    uint64_t count = late_path(plan, plan_bytes, path, &from);
    printf("tasks");
    for (uint64_t i = 0; i < count; i++)
        printf(" %d", plan[from + i]);
}

/* Prints what the record of a path says, and hands back whether the path meets. */
static bool print_path(const uint8_t *plan, size_t plan_bytes, const uint8_t *record)
{
    const uint8_t *value = record + 3;
    bool meets = value[1] == LATE_MEETS;
    printf("path %d: ", value[0]);
    print_tasks(plan, plan_bytes, value[0]);
    printf(": %s, worst %" PRIu64 ", slack %" PRId64 "\n", meets ? "meets" : "misses", number(value + 10),
           (int64_t)number(value + 18));
    return meets;
}

/* Prints what a report says of each path, and hands back whether all meet. */
static bool print_paths(const uint8_t *plan, size_t plan_bytes, const uint8_t *report, size_t report_bytes)
{
    /* The head ends with how many tasks and paths there are. */
    size_t tasks = report[LATE_HEAD_RECORD_BYTES - 2];
    size_t paths = report[LATE_HEAD_RECORD_BYTES - 1];
    size_t at = LATE_HEAD_RECORD_BYTES + tasks * LATE_TASK_RECORD_BYTES;
    if (report_bytes != at + paths * LATE_PATH_RECORD_BYTES) {
        fputs("verdicts: the report does not end where its records do\n", stderr);
        return false;
    }
    if (paths == 0) {
        fputs("verdicts: the plan has no paths, so there is no verdict\n", stderr);
        return false;
    }
    bool all_meet = true;
    for (; at < report_bytes; at += LATE_PATH_RECORD_BYTES)
        all_meet = print_path(plan, plan_bytes, report + at) && all_meet;
    return all_meet;
}

/* Prints the answer to a plan, and hands back whether it is that all paths meet. */
static bool print_answer(const uint8_t *plan, size_t plan_bytes)
{
    uint8_t report[LATE_REPORT_BYTES];
    uint64_t place, sweep;
    uint64_t answer = late_answer(plan, plan_bytes, report, sizeof report, &place, &sweep);
    if (answer == LATE_ACCEPTED)
        return print_paths(plan, plan_bytes, report, place);
    printf("refusal %" PRIu64 ": %s %" PRIu64 "\n", answer, meaning(answer), place);
    return false;
}

int main(void)
{
    uint8_t plan[LATE_PLAN_BYTES + 1]; /* one byte more tells that a plan is too long */
    size_t plan_bytes = fread(plan, 1, sizeof plan, stdin);
    if (ferror(stdin)) {
        perror("verdicts: standard input");
        return EXIT_FAILURE;
    }
    bool all_meet = print_answer(plan, plan_bytes);
    /* ferror tells of every printf that failed; fclose writes what they held back. */
    if (ferror(stdout) || fclose(stdout) != 0) {
        perror("verdicts: standard output");
        return EXIT_FAILURE;
    }
    return all_meet ? EXIT_SUCCESS : EXIT_FAILURE;
}
