/*
 * Reader, run, report and replay beside their plain namesakes.
 */
#include "measure.h"
#include "tables.h"

#include <stdio.h>

static void print_measured(const char *operation, side_call *call, const struct subject *subject, struct greatest *worst)
{
    double best[SIDES];
    uint64_t answer = measure(call, subject, SIDES, best);
    double ratio = best[NESSFLURRY] / best[PLAIN];
    printf("%-10s%-23s%14.0f%14.0f%9.3f", operation, subject->name, best[NESSFLURRY], best[PLAIN], ratio);
    print_answer(call, subject, answer);
    note(worst, ratio, subject);
}

static void print_worst(const char *operation, const struct greatest *worst)
{
    printf("%-10sworst ratio %.3f (%s)\n", operation, worst->figure, worst->name);
}

/* A job of the largest numbers, with one end kind or several. */
struct large {
    enum sized_job which;
    enum size size;
};

static void print_operation(const char *operation, side_call *call)
{
    const struct large large[] = {{JOB_ACCEPTED, FULL}, {JOB_LONG_FAILURE, FULL}, {JOB_WALK, FULL},
                                  {JOB_WORK, FULL},     {JOB_AT_ONCE, FULL},      {JOB_ACCEPTED, FULL_8_ENDS},
                                  {JOB_WORK, FULL_8_ENDS}};
    static struct subject subject;
    struct greatest worst = {0};
    bench_subject(&subject, "bench_g", BENCH_G);
    print_measured(operation, call, &subject, &worst);
    for (size_t i = 0; i < sizeof large / sizeof *large; i++) {
        sized_subject(&subject, large[i].which, large[i].size);
        print_measured(operation, call, &subject, &worst);
    }
    print_worst(operation, &worst);
}

static void print_replay(struct subject *subject, size_t most_entries, struct greatest *worst)
{
    take_log(subject, most_entries);
    print_measured("replay", call_replay, subject, worst);
}

/* Of a short log, and of the longest that each job has. The untold jobs leave the most to be kept, which is the worst case. */
static void print_replays(void)
{
    enum { FEW_ENTRIES = 8 };
    const struct large large[] = {{JOB_ACCEPTED, FULL},        {JOB_LONG_FAILURE, FULL},
                                  {JOB_WALK, FULL},            {JOB_WORK, FULL},
                                  {JOB_UNTOLD_STAYING, FULL},  {JOB_UNTOLD_MOVING, FULL},
                                  {JOB_ACCEPTED, FULL_8_ENDS}, {JOB_UNTOLD_STAYING, FULL_8_ENDS},
                                  {JOB_UNTOLD_MOVING, FULL_8_ENDS}};
    static struct subject subject;
    struct greatest worst = {0};
    bench_subject(&subject, "bench_g", BENCH_G);
    print_replay(&subject, FEW_ENTRIES, &worst);
    print_replay(&subject, MOST_ENTRIES, &worst);
    for (size_t i = 0; i < sizeof large / sizeof *large; i++) {
        sized_subject(&subject, large[i].which, large[i].size);
        print_replay(&subject, MOST_ENTRIES, &worst);
    }
    print_worst("replay", &worst);
}

void print_operations(void)
{
    printf("\nreader, run, report and replay; the ratio is nessflurry / plain\n\n");
    printf("%-10s%-23s%14s%14s%9s\n", "operation", "job", "nessflurry", "plain", "ratio");
    print_operation("reader", call_reader);
    print_operation("run", call_run);
    print_operation("report", call_report);
    print_replays();
}
