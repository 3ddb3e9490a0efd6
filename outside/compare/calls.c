#include "calls.h"

#include "job_files/check_answers.h"
#include "lent.h"
#include "sides.h"
#include "small_stack.h"
#include "tally.h"

static struct {
    struct lent file, head, line, list, words, log, rules, part;
} lent[SIDES];

/* The file as it is lent to each side, and its size. */
static const uint8_t *bytes[SIDES];
static size_t size;

/* How things are lent, which changes from file to file: at which end of their room, and whether as NULL where they are empty. */
static bool at_end, empty_is_null;

void open_rooms(void)
{
    for (int i = 0; i < SIDES; i++) {
        open_room(&lent[i].file, NESSFLURRY_MAX_FILE_SIZE + 1);
        open_room(&lent[i].head, NESSFLURRY_HEAD_SIZE * sizeof(uint16_t));
        open_room(&lent[i].line, NESSFLURRY_MAX_LAMPS + 1);
        open_room(&lent[i].list, (NESSFLURRY_LIST_SIZE + ROOM_BEYOND) * sizeof(uint32_t));
        open_room(&lent[i].words, MOST_WORDS * sizeof(uint64_t));
        open_room(&lent[i].log, NESSFLURRY_MAX_LOG_SIZE + 2);
        open_room(&lent[i].rules, RULES_ROOM);
        open_room(&lent[i].part, PART_ROOM);
    }
}

/* The copy that is lent; nothing may be lent as NULL. */
static void *lend_or_null(struct lent *to, enum lendable what, const void *content, size_t content_size)
{
    void *at = lend(to, content, content_size, at_end);
    if (content_size > 0 || !empty_is_null)
        return at;
    count_null(what);
    return NULL;
}

void take_file(const struct file *file, struct random *random)
{
    place.file = file;
    size = file->size;
    at_end = one_in(random, 2);
    empty_is_null = one_in(random, 2);
    for (int i = 0; i < SIDES; i++)
        bytes[i] = lend_or_null(&lent[i].file, JOB_FILE, file->bytes, size);
}

static void place_call(enum operation operation, uint64_t first, uint64_t second, uint64_t third)
{
    place.operation = operation;
    place.arguments[0] = first;
    place.arguments[1] = second;
    place.arguments[2] = third;
}

/* What holds for every operation: equal answers, and one that the operation has. */
static uint64_t settle_answers(const uint64_t answers[SIDES])
{
    count_answer(place.operation, answers[NESSFLURRY]);
    demand_equal(answers[NESSFLURRY], answers[PLAIN]);
    return answers[NESSFLURRY];
}

/* What holds for those that are handed the file: it is as it was, too. */
static uint64_t settle(const uint64_t answers[SIDES])
{
    settle_answers(answers);
    for (int i = 0; i < SIDES; i++)
        demand(memcmp(lent[i].file.at, place.file->bytes, size) == 0 && guard_holds(&lent[i].file), "the file as it was");
    return answers[NESSFLURRY];
}

uint64_t compare_read(struct random *random)
{
    uint16_t before[NESSFLURRY_HEAD_SIZE], *heads[SIDES];
    uint64_t answers[SIDES];
    random_bytes(random, before, sizeof before);
    place_call(READ, 0, 0, 0);
    for (int i = 0; i < SIDES; i++) {
        heads[i] = lend(&lent[i].head, before, sizeof before, at_end);
        answers[i] = sides[i].read(bytes[i], size, heads[i]);
    }
    settle(answers);
    for (int i = 0; i < SIDES; i++) {
        bool refused = nessflurry_code_of(answers[i]) == NESSFLURRY_REFUSED;
        demand(guard_holds(&lent[i].head), "nothing written beside the head");
        demand(!refused || memcmp(heads[i], before, sizeof before) == 0, "the head as it was, if refused");
    }
    demand(memcmp(heads[NESSFLURRY], heads[PLAIN], sizeof before) == 0, "equal heads");
    return answers[NESSFLURRY];
}

/* The call at `place` of an operation that is lent nothing but the file. */
static uint64_t call_placed(int i)
{
    const uint64_t *with = place.arguments;
    switch (place.operation) {
    case WALK: return sides[i].walk(bytes[i], size, (uint8_t)with[0], (uint8_t)with[1], (uint8_t)with[2]);
    case BEGIN: return sides[i].begin(bytes[i], size, (uint16_t)with[0]);
    case ACTION: return sides[i].action(bytes[i], size, (uint8_t)with[0], (uint16_t)with[1]);
    default: return sides[i].report(bytes[i], size, (uint8_t)with[0], (uint16_t)with[1], (uint8_t)with[2]);
    }
}

static uint64_t compare_call(enum operation operation, uint64_t first, uint64_t second, uint64_t third)
{
    uint64_t answers[SIDES];
    place_call(operation, first, second, third);
    for (int i = 0; i < SIDES; i++)
        answers[i] = call_placed(i);
    return settle(answers);
}

uint64_t compare_walk(uint8_t state, uint8_t world, uint8_t column) { return compare_call(WALK, state, world, column); }

uint64_t compare_begin(uint16_t lamps) { return compare_call(BEGIN, lamps, 0, 0); }

uint64_t compare_action(uint8_t state, uint16_t lamps) { return compare_call(ACTION, state, lamps, 0); }

uint64_t compare_report(uint8_t state, uint16_t lamps, uint8_t result) { return compare_call(REPORT, state, lamps, result); }

uint64_t compare_run(uint8_t start, const uint8_t *line, size_t lamps, uint8_t end, uint32_t limit)
{
    uint64_t answers[SIDES];
    place_call(RUN, start, lamps, end);
    place.arguments[3] = limit;
    for (int i = 0; i < SIDES; i++) {
        const uint8_t *lamp_kinds = lend_or_null(&lent[i].line, LINE, line, lamps);
        answers[i] = sides[i].run(bytes[i], size, start, lamp_kinds, lamps, end, limit);
        demand(memcmp(lent[i].line.at, line, lamps) == 0 && guard_holds(&lent[i].line), "the line as it was");
    }
    return settle(answers);
}

uint64_t compare_replay(const uint8_t *log, size_t log_size)
{
    uint64_t answers[SIDES];
    place_call(REPLAY, log_size, 0, 0);
    for (int i = 0; i < SIDES; i++) {
        const uint8_t *entries = lend_or_null(&lent[i].log, LOG, log, log_size);
        answers[i] = sides[i].replay(bytes[i], size, entries, log_size);
        demand(memcmp(lent[i].log.at, log, log_size) == 0 && guard_holds(&lent[i].log), "the log as it was");
    }
    return settle(answers);
}

static struct {
    uint8_t line[NESSFLURRY_LINE_SIZE + ROOM_BEYOND];
    uint32_t list[NESSFLURRY_LIST_SIZE + ROOM_BEYOND];
    uint64_t words[MOST_WORDS];
} before;

/* A check: whose it is, up to how many lamps, with what it is called, and its answer. */
struct check {
    const struct side *by;
    const uint8_t *file;
    uint8_t *line;
    uint32_t *list, longest;
    uint64_t *words, answer;
    struct sizes sizes;
};

static void make_check(void *given)
{
    struct check *with = given;
    const struct sizes sizes = with->sizes;
    if (with->longest == NO_BOUND)
        with->answer = with->by->check(with->file, size, with->line, sizes.line, with->list, sizes.list, with->words,
                                       sizes.words);
    else
        with->answer = with->by->check_up_to(with->file, size, (uint16_t)with->longest, with->line, sizes.line, with->list,
                                             sizes.list, with->words, sizes.words);
}

static size_t most_stack;

static void make_check_alone(struct check *check)
{
    size_t used = on_small_stack(make_check, check);
    most_stack = used > most_stack ? used : most_stack;
}

size_t most_stack_taken(void) { return most_stack; }

/* The plain side where the product's check is alone. */
static const struct side remembering = {.check = plain_check_remembering, .check_up_to = plain_check_up_to_remembering};

static uint64_t lend_and_check(int i, bool alone, uint32_t longest, struct sizes sizes)
{
    const struct side *by = alone && i == PLAIN ? &remembering : &sides[i];
    struct check check = {.by = by, .file = bytes[i], .longest = longest, .sizes = sizes};
    check.line = lend_or_null(&lent[i].line, LINE_BUFFER, before.line, sizes.line);
    check.list = lend_or_null(&lent[i].list, WORKING_LIST, before.list, sizes.list * sizeof *check.list);
    check.words = lend_or_null(&lent[i].words, WORKING_WORDS, before.words, sizes.words * sizeof *check.words);
    if (alone && i == NESSFLURRY)
        make_check_alone(&check);
    else
        make_check(&check);
    return check.answer;
}

/* The lamps of the failing line, as far as the lent buffer goes. */
static size_t written(uint64_t answer, size_t room)
{
    size_t lamps = lamps_written(answer);
    demand(lamps <= room, "a failing line that the buffer holds");
    return lamps <= room ? lamps : room;
}

/* List and words are free after a check that is not refused. */
static void judge_buffers(int i, struct sizes sizes, uint64_t answer)
{
    size_t lamps = written(answer, sizes.line);
    const uint8_t *line = lent[i].line.at;
    demand(memcmp(line + lamps, before.line + lamps, sizes.line - lamps) == 0, "the line buffer as it was, after the line");
    demand(guard_holds(&lent[i].line) && guard_holds(&lent[i].list) && guard_holds(&lent[i].words),
           "nothing written beside the buffers of a check");
    if (nessflurry_code_of(answer) != NESSFLURRY_REFUSED)
        return;
    demand(memcmp(lent[i].list.at, before.list, sizes.list * sizeof *before.list) == 0, "the list as it was, if refused");
    demand(memcmp(lent[i].words.at, before.words, sizes.words * sizeof *before.words) == 0, "the words as they were, if refused");
}

/* What the buffers have in them before a check. */
typedef void filler(struct random *random, void *to, size_t content_size);

static void ones(struct random *random, void *to, size_t content_size)
{
    (void)random;
    memset(to, 0xFF, content_size);
}

static uint64_t compare_checks(filler *fill, bool alone, uint32_t longest, struct sizes sizes, uint8_t *failing,
                               struct random *random)
{
    uint64_t answers[SIDES];
    fill(random, before.line, sizes.line);
    fill(random, before.list, sizes.list * sizeof *before.list);
    fill(random, before.words, sizes.words * sizeof *before.words);
    place_call(longest == NO_BOUND ? CHECK : CHECK_UP_TO, sizes.line, sizes.list, sizes.words);
    place.arguments[3] = longest;
    for (int i = 0; i < SIDES; i++)
        answers[i] = lend_and_check(i, alone, longest, sizes);
    settle(answers);
    for (int i = 0; i < SIDES; i++)
        judge_buffers(i, sizes, answers[i]);
    size_t lamps = written(answers[NESSFLURRY], sizes.line < NESSFLURRY_LINE_SIZE ? sizes.line : NESSFLURRY_LINE_SIZE);
    demand(memcmp(lent[NESSFLURRY].line.at, lent[PLAIN].line.at, lamps) == 0, "equal failing lines");
    memcpy(failing, lent[NESSFLURRY].line.at, lamps);
    return answers[NESSFLURRY];
}

uint64_t compare_check(uint32_t longest, struct sizes sizes, uint8_t *failing, struct random *random)
{
    return compare_checks(random_bytes, false, longest, sizes, failing, random);
}

uint64_t compare_check_over_ones(uint32_t longest, struct sizes sizes, uint8_t *failing, struct random *random)
{
    return compare_checks(ones, false, longest, sizes, failing, random);
}

uint64_t compare_check_alone(uint32_t longest, struct sizes sizes, uint8_t *failing, struct random *random)
{
    return compare_checks(random_bytes, true, longest, sizes, failing, random);
}

/* ---- What is not handed the file ---- */

static void place_fill(const struct rules *rules, size_t part_size)
{
    const struct fill_numbers with = rules->numbers;
    place_call(FILL, with.actions, with.worlds, with.kinds);
    place.arguments[3] = with.results;
    place.arguments[4] = with.end_kinds;
    place.arguments[5] = part_size;
    place.rules = rules;
}

static uint8_t part_before[PART_ROOM];

static uint64_t lend_and_fill(int i, const struct rules *rules, size_t part_size)
{
    const struct fill_numbers with = rules->numbers;
    const uint8_t *file = lend_or_null(&lent[i].rules, RULES_FILE, rules->bytes, rules->size);
    uint8_t *part = lend_or_null(&lent[i].part, CELLS_PART, part_before, part_size);
    return sides[i].fill_cells(file, rules->size, with.actions, with.worlds, with.kinds, with.results, with.end_kinds, part,
                               part_size);
}

static void judge_fill(int i, const struct rules *rules, size_t part_size, uint64_t answer)
{
    demand(memcmp(lent[i].rules.at, rules->bytes, rules->size) == 0 && guard_holds(&lent[i].rules), "the rules file as it was");
    demand(guard_holds(&lent[i].part), "nothing written beside the part");
    if (nessflurry_code_of(answer) == NESSFLURRY_REFUSED)
        demand(memcmp(lent[i].part.at, part_before, part_size) == 0, "the part as it was, if refused");
}

uint64_t compare_fill(const struct rules *rules, size_t part_size, uint8_t *filled, struct random *random)
{
    uint64_t answers[SIDES];
    random_bytes(random, part_before, part_size);
    place_fill(rules, part_size);
    for (int i = 0; i < SIDES; i++)
        answers[i] = lend_and_fill(i, rules, part_size);
    settle_answers(answers);
    for (int i = 0; i < SIDES; i++)
        judge_fill(i, rules, part_size, answers[i]);
    demand(memcmp(lent[NESSFLURRY].part.at, lent[PLAIN].part.at, part_size) == 0, "equal parts");
    if (nessflurry_code_of(answers[NESSFLURRY]) != NESSFLURRY_REFUSED)
        memcpy(filled, lent[NESSFLURRY].part.at, part_size);
    return answers[NESSFLURRY];
}

size_t compare_sum(const uint64_t *words, size_t words_size, size_t bits)
{
    size_t sums[SIDES], bytes_lent = words_size * sizeof *words;
    place_call(SUM, words_size, bits, 0);
    place.words = words;
    for (int i = 0; i < SIDES; i++) {
        sums[i] = sides[i].sum(lend(&lent[i].words, words, bytes_lent, at_end), words_size, bits);
        demand(memcmp(lent[i].words.at, words, bytes_lent) == 0 && guard_holds(&lent[i].words), "the words as they were");
    }
    count_sum(sums[NESSFLURRY], bits);
    demand_equal(sums[NESSFLURRY], sums[PLAIN]);
    return sums[NESSFLURRY];
}
