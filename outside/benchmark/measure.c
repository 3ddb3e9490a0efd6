#define _DEFAULT_SOURCE
#include "measure.h"

#include "job_files/arguments.h"

#include <inttypes.h>
#include <stdio.h>
#include <stdlib.h>
#include <time.h>

/* ---- The calls ---- */

/* Lent to the calls of each side. Nobody clears them: a call finds what the last one left. */
static struct {
    uint8_t line[NESSFLURRY_LINE_SIZE];
    uint32_t list[NESSFLURRY_LIST_SIZE];
    uint64_t words[NESSFLURRY_WORDS_SIZE];
    uint8_t part[NESSFLURRY_MAX_CELLS_SIZE];
} lent[CHECK_SIDES];

uint64_t call_reader(int side, const struct subject *subject)
{
    uint16_t head[NESSFLURRY_HEAD_SIZE];
    return sides[side].read(subject->file.bytes, subject->file.size, head);
}

uint64_t call_run(int side, const struct subject *subject)
{
    const struct file *file = &subject->file;
    return sides[side].run(file->bytes, file->size, subject->start, subject->line, subject->lamps, subject->end, UINT32_MAX);
}

uint64_t call_check(int side, const struct subject *subject)
{
    static check_call *const checks[CHECK_SIDES] = {nessflurry_check, plain_check, plain_check_remembering};
    return checks[side](subject->file.bytes, subject->file.size, lent[side].line, NESSFLURRY_LINE_SIZE, lent[side].list,
                        NESSFLURRY_LIST_SIZE, lent[side].words, NESSFLURRY_WORDS_SIZE);
}

uint64_t call_check_up_to(int side, const struct subject *subject)
{
    static check_up_to_call *const checks[CHECK_SIDES] = {nessflurry_check_up_to, plain_check_up_to,
                                                          plain_check_up_to_remembering};
    return checks[side](subject->file.bytes, subject->file.size, subject->longest, lent[side].line, NESSFLURRY_LINE_SIZE,
                        lent[side].list, NESSFLURRY_LIST_SIZE, lent[side].words, NESSFLURRY_WORDS_SIZE);
}

uint64_t call_report(int side, const struct subject *subject)
{
    return sides[side].report(subject->file.bytes, subject->file.size, subject->job.first, RUN_LAMPS, subject->result);
}

uint64_t call_replay(int side, const struct subject *subject)
{
    const struct file *file = &subject->file;
    return sides[side].replay(file->bytes, file->size, subject->log.bytes, subject->log.size);
}

uint64_t call_fill(int side, const struct subject *subject)
{
    const struct rules *rules = subject->rules;
    const struct fill_numbers with = rules->numbers;
    return sides[side].fill_cells(rules->bytes, rules->size, with.actions, with.worlds, with.kinds, with.results, with.end_kinds,
                                  lent[side].part, part_bytes(with));
}

uint64_t call_sum(int side, const struct subject *subject)
{
    return (uint64_t)sides[side].sum(subject->words, subject->words_size, subject->bits) << 32;
}

/* ---- Measuring ---- */

/* Of this process alone, so that others on the machine count less. */
static double processor_time(void)
{
    struct timespec time;
    clock_gettime(CLOCK_PROCESS_CPUTIME_ID, &time);
    return 1e9 * (double)time.tv_sec + (double)time.tv_nsec;
}

/* Nanoseconds a call, on average over this many calls. */
static double batch(side_call *call, int side, const struct subject *subject, uint32_t calls)
{
    static volatile uint64_t sink; /* so that no call can be left out */
    double begun = processor_time();
    for (uint32_t i = 0; i < calls; i++)
        sink = call(side, subject);
    (void)sink;
    return (processor_time() - begun) / calls;
}

static uint64_t common_answer(side_call *call, const struct subject *subject, int sides_called)
{
    uint64_t answer = call(NESSFLURRY, subject);
    for (int side = PLAIN; side < sides_called; side++) {
        uint64_t other = call(side, subject);
        bool lines_equal = memcmp(lent[NESSFLURRY].line, lent[side].line, NESSFLURRY_LINE_SIZE) == 0;
        bool parts_equal = call != call_fill || memcmp(lent[NESSFLURRY].part, lent[side].part, NESSFLURRY_MAX_CELLS_SIZE) == 0;
        if (answer == other && lines_equal && parts_equal && nessflurry_code_of(answer) != NESSFLURRY_REFUSED)
            continue;
        printf("%s: not equal, or refused: nessflurry %016" PRIx64 ", side %d %016" PRIx64 "\n", subject->name, answer, side,
               other);
        exit(1);
    }
    return answer;
}

/* Many short batches, since some are disturbed, with the sides in turn. A call that takes long is made once. */
uint64_t measure(side_call *call, const struct subject *subject, int sides_called, double best[])
{
    const double enough = 2e6, long_call = 1e8;
    uint32_t calls[CHECK_SIDES];
    uint64_t answer = common_answer(call, subject, sides_called);
    for (int side = 0; side < sides_called; side++)
        for (calls[side] = 1; (best[side] = batch(call, side, subject, calls[side])) * calls[side] < enough;)
            calls[side] *= 2;
    for (int more = 0; more < 40; more++)
        for (int side = 0; side < sides_called; side++)
            if (best[side] < long_call) {
                double again = batch(call, side, subject, calls[side]);
                best[side] = again < best[side] ? again : best[side];
            }
    return answer;
}

/* ---- Telling ---- */

void print_answer(side_call *call, const struct subject *subject, uint64_t answer)
{
    const char *const endings[] = {"goal", "failure 1", "failure 2", "failure 3", "failure 4"};
    uint8_t code = nessflurry_code_of(answer);
    if (call == call_run)
        printf("  %zu lamps, %" PRIu32 " steps, %s\n", subject->lamps, nessflurry_steps_of(answer), endings[code]);
    else if (call == call_check && code == NESSFLURRY_ACCEPTED)
        printf("  accepted, %" PRIu32 " pairs\n", nessflurry_pairs_of(answer));
    else if (code == NESSFLURRY_NONE_UP_TO)
        printf("  none up to %d lamps\n", nessflurry_lamps_of(answer));
    else if (call == call_check || call == call_check_up_to)
        printf("  %s after %d lamps, end kind %d\n", endings[code], nessflurry_lamps_of(answer), nessflurry_end_of(answer));
    else if (call == call_replay)
        printf("  %zu entries, %s\n", entries_of(&subject->log), code == NESSFLURRY_POSSIBLE ? "possible" : "impossible");
    else if (call == call_fill)
        printf("  %zu bytes of cells from %zu of rules\n", part_bytes(subject->rules->numbers), subject->rules->size);
    else if (call == call_sum)
        printf("  %" PRIu32 " ones\n", nessflurry_pairs_of(answer));
    else
        printf("  %zu bytes\n", subject->file.size);
    fflush(stdout);
}

void note(struct greatest *greatest, double figure, const struct subject *subject)
{
    if (figure <= greatest->figure)
        return;
    greatest->figure = figure;
    memcpy(greatest->name, subject->name, NAME_BYTES);
}
