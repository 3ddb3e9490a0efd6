/*
 * The checks of the plain implementation: the full one (01, The check) and the one up to a number of lamps (02, (b)). They
 * make the same search, which goes from shorter lines to longer ones; the second stops it at its number of lamps.
 *
 * Each has two forms, which differ in how they find out what a pair comes to at a column: plain_check walks each time, and
 * does no more than document 01 says; plain_check_remembering keeps what walks came to, so that no step is made twice. The
 * benchmark holds the product against both, so both are as quick as their way allows.
 *
 * "02" in the comments is document 02, followed by the request that is rendered.
 */
#include "plain.h"
#include "plain_job.h"

#include <string.h>

/*
 * The search is compiled into each form of each check anew, and with it how a fate is found, so that neither form pays for the
 * other, nor the full check for a bound.
 */
#define EACH_FORM static inline __attribute__((always_inline))

/* ---- Pairs as numbers ---- */

/* In 13 bits. */
static unsigned packed(struct pair pair)
{
    return pair.state.number * MOST_WORLDS + pair.world.number;
}

static struct pair unpacked(unsigned number)
{
    return (struct pair){{number / MOST_WORLDS}, {number % MOST_WORLDS}};
}

/* Without gaps: pairs that are not final come first, S·W of them. */
static unsigned number_of(const struct job *job, struct pair pair)
{
    return pair.state.number * job->worlds + pair.world.number;
}

static unsigned unfinished_count(const struct job *job)
{
    return job->final.number * job->worlds;
}

static unsigned pair_count(const struct job *job)
{
    return unfinished_count(job) + job->worlds;
}

static unsigned word_count(const struct job *job)
{
    return (pair_count(job) + 63) / 64;
}

/* ---- The search's list and words ---- */

/*
 * The pairs reached: the working list has them in the order of arrival, the words have one bit for each. An entry of
 * the list is a pair (13 bits), the place in the list of the pair it was arrived at from (13 bits), the kind of the
 * lamp passed in between (4 bits), and whether a line begins here (1 bit): pairs that are reached by the same line from different
 * starts stand together. A pair at the beginning has its own place, and kind 0.
 */
struct search {
    struct job job;
    uint32_t *list;
    uint64_t *words;
    uint32_t reached, begins; /* the length of the list; and where in it those pairs begin that the line being tried brings */
    struct memory *memory; /* of the form that remembers */
};

static uint32_t entry_of(struct pair pair, uint32_t from, unsigned kind, bool begins_line)
{
    return packed(pair) | from << 13 | (uint32_t)kind << 26 | (uint32_t)begins_line << 30;
}

static struct pair pair_in(uint32_t entry)
{
    return unpacked(entry & 0x1fff);
}

static uint32_t from_in(uint32_t entry)
{
    return entry >> 13 & 0x1fff;
}

static unsigned kind_in(uint32_t entry)
{
    return entry >> 26 & 0xf;
}

static bool begins_line_in(uint32_t entry)
{
    return entry >> 30;
}

/* Where the pairs of the line that begins at this place are over. */
static uint32_t after_line(const uint32_t *list, uint32_t reached, uint32_t place)
{
    do
        place++;
    while (place < reached && !begins_line_in(list[place]));
    return place;
}

/* ---- What a pair comes to at a column ---- */

/* Its fate as a number: below GOES the code of an ending, from there on the pair with which the walk moves on. */
enum { GOES = 8, UNKNOWN = 0xffff };

static unsigned gone_to(struct pair pair)
{
    return GOES + packed(pair);
}

/* How a form finds a fate. */
typedef unsigned finder(struct search *search, struct pair pair, unsigned column);

EACH_FORM unsigned walked_fate(struct search *search, struct pair pair, unsigned column)
{
    const struct walked end = walk(&search->job, pair, column);
    return end.code == NESSFLURRY_ARRIVED ? gone_to(end.arrived) : end.code;
}

/*
 * What the form that remembers keeps: by column, the fates of the pairs that are not final, UNKNOWN until a walk comes by;
 * and those of them that are on the present walk's way.
 */
struct memory {
    uint16_t fates[MOST_COLUMNS * MOST_STATES * MOST_WORLDS];
    uint16_t way[MOST_STATES * MOST_WORLDS];
};

/* Only what the job needs is made ready: a small job does not pay for a large one's memory. */
static void make_ready(struct memory *memory, const struct job *job)
{
    memset(memory->fates, 0xff, job->columns * unfinished_count(job) * sizeof *memory->fates);
}

/* The fate of a pair whose action comes to this; UNKNOWN where the walk goes on from another that is not final. */
EACH_FORM unsigned fate_after(const struct job *job, struct outcome next, unsigned column)
{
    if (next.code == NESSFLURRY_ARRIVED)
        return gone_to(next.pair);
    if (next.code != STAYS)
        return next.code;
    return next.pair.state.number == job->final.number ? judged(job, next.pair.world, column) : UNKNOWN;
}

/*
 * The walk goes on to the first pair whose fate is known or follows from its action; all pairs on the way have that fate
 * then. Until it is found they are said to circle: a walk that comes to one of them again does.
 */
EACH_FORM unsigned remembered_fate(struct search *search, struct pair at, unsigned column)
{
    const struct job *const job = &search->job;
    uint16_t *const fates = search->memory->fates + column * unfinished_count(job), *const way = search->memory->way;
    if (at.state.number == job->final.number)
        return judged(job, at.world, column);
    unsigned number = number_of(job, at), steps = 0, fate;
    while ((fate = fates[number]) == UNKNOWN) {
        const struct outcome next = act(job, at, column);
        fate = fate_after(job, next, column);
        if (fate != UNKNOWN) {
            fates[number] = (uint16_t)fate;
            break;
        }
        way[steps++] = (uint16_t)number;
        fates[number] = NESSFLURRY_CIRCLES;
        at = next.pair;
        number = number_of(job, at);
    }
    while (steps > 0)
        fates[way[--steps]] = (uint16_t)fate;
    return fate;
}

/* ---- The search ---- */

/* As `longest`: the search goes on until no pair is left, as none has so many lamps. No check can be told this number. */
enum { NO_BOUND = NESSFLURRY_MAX_LAMPS + 1 };

/*
 * What becomes of a line whose starts are tried, ascending. Goal so far; or a failure, the lowest end kind with which it comes, and
 * of the starts that fail with this one the lowest: by the place of the pair with which it comes to the last lamp, and that lamp's
 * kind. For the empty line it is the start's own place, and kind 0. Before a failure the end kind is E, so that any is lower.
 */
struct verdict {
    unsigned code, end, kind;
    uint32_t place;
};

static struct verdict not_failed(const struct job *job)
{
    return (struct verdict){.code = NESSFLURRY_GOAL, .end = job->ends};
}

/*
 * A start with which the line ends with this pair; lower starts have come to `so_far`. Only a lower end kind than theirs can come
 * first, and the end kinds ascend.
 */
EACH_FORM struct verdict judge_ends(struct search *search, finder *fate_of, struct pair pair, uint32_t from, unsigned kind,
                                    struct verdict so_far)
{
    for (unsigned end = 0; end < so_far.end; end++) {
        const unsigned fate = fate_of(search, pair, end);
        if (fate != NESSFLURRY_GOAL)
            return (struct verdict){.code = fate, .end = end, .kind = kind, .place = from};
    }
    return so_far;
}

/*
 * A line comes with this pair to its end, or to a further lamp. The first time the pair is kept, and the line that ends
 * here is judged with every end kind that can come first. A later line that ends with the same pair ends in the same way with each
 * of them, and the first one did not fail; nor does a higher start of the same line fail with a lower end kind than the first did.
 */
EACH_FORM struct verdict arrive(struct search *search, finder *fate_of, struct pair pair, uint32_t from, unsigned kind,
                                struct verdict so_far)
{
    const unsigned number = number_of(&search->job, pair);
    const uint64_t bit = (uint64_t)1 << number % 64;
    if (search->words[number / 64] & bit)
        return so_far;
    search->words[number / 64] |= bit;
    search->list[search->reached] = entry_of(pair, from, kind, search->reached == search->begins);
    search->reached++;
    return judge_ends(search, fate_of, pair, from, kind, so_far);
}

/* The empty line, from every start. After a failure with end kind 0 no higher start can come first, here and below. */
EACH_FORM struct verdict try_starts(struct search *search, finder *fate_of)
{
    const struct job *const job = &search->job;
    struct verdict verdict = not_failed(&search->job);
    for (world_state start = {0}; start.number < job->worlds && verdict.end > 0; start.number++)
        if (job->starts[start.number] == 1)
            verdict = arrive(search, fate_of, (struct pair){job->first, start}, search->reached, 0, verdict);
    return verdict;
}

/*
 * The line to the pair at this place, and after it one lamp of this kind and any end; lower starts have come to `so_far`. What ends
 * at the lamp ends there whatever the end kind is, so that the lowest is 0.
 */
EACH_FORM struct verdict lengthen(struct search *search, finder *fate_of, struct pair pair, uint32_t place, unsigned kind,
                                  struct verdict so_far)
{
    const unsigned fate = fate_of(search, pair, lamp_column(&search->job, kind));
    if (fate >= GOES)
        return arrive(search, fate_of, unpacked(fate - GOES), place, kind, so_far);
    return fate == NESSFLURRY_GOAL ? so_far : (struct verdict){.code = fate, .kind = kind, .place = place};
}

/*
 * The line to the pairs from one place to before another, and after it one lamp of each kind, until a line fails. All pairs are
 * taken with one kind before any of them with the next: the line that the next kind makes is later, whatever the start.
 */
EACH_FORM struct verdict lengthen_together(struct search *search, finder *fate_of, uint32_t from, uint32_t to)
{
    const unsigned kinds = search->job.kinds;
    struct verdict verdict = not_failed(&search->job);
    for (unsigned kind = 1; kind <= kinds && verdict.code == NESSFLURRY_GOAL; kind++) {
        search->begins = search->reached;
        for (uint32_t place = from; place < to && verdict.end > 0; place++)
            verdict = lengthen(search, fate_of, pair_in(search->list[place]), place, kind, verdict);
    }
    return verdict;
}

/* The same where the line has one pair alone, as most lines have, so that what its walks have in common is found once. */
EACH_FORM struct verdict lengthen_alone(struct search *search, finder *fate_of, uint32_t place)
{
    const unsigned kinds = search->job.kinds;
    const struct pair pair = pair_in(search->list[place]);
    struct verdict verdict = not_failed(&search->job);
    for (unsigned kind = 1; kind <= kinds && verdict.code == NESSFLURRY_GOAL; kind++) {
        search->begins = search->reached;
        verdict = lengthen(search, fate_of, pair, place, kind, verdict);
    }
    return verdict;
}

/* How many lamps are passed on the way from a start to this place of the list. */
static uint32_t lamps_before(const uint32_t *list, uint32_t place)
{
    uint32_t lamps = 0;
    for (; kind_in(list[place]) != 0; place = from_in(list[place]))
        lamps++;
    return lamps;
}

/*
 * The failing answer for a line that is not empty. It is written from its last lamp to its first, and then the place is that of its
 * start. It fits: on the way each pair is left by moving on, so it is non-final, and none comes twice; so at most S·W lamps are
 * before the last one.
 */
static uint64_t failed_line(const uint32_t *list, struct verdict failure, uint8_t *line)
{
    uint32_t place = failure.place;
    const uint32_t lamps = lamps_before(list, place) + 1;
    line[lamps - 1] = (uint8_t)failure.kind;
    for (uint32_t left = lamps - 1; left > 0; left--) {
        line[left - 1] = (uint8_t)kind_in(list[place]);
        place = from_in(list[place]);
    }
    return answered(failure.code, pair_in(list[place]).world.number, failure.end, lamps);
}

/*
 * The failure that is answered is the least (01, The check; 02, (c) and (f)): lines are compared by their lamps, then kind by kind
 * from the first lamp on, then by their end kinds, and last by the starts from which they fail. It is on the first line that fails,
 * and starts of that line which come after the first failure are tried only for a lower end kind.
 *
 * A walk depends on its pair and its column alone. So where a run fails before its line's last lamp, the line up to the
 * lamp of the failure is shorter and fails as well: a shortest failing line fails at its last lamp or at its end.
 *
 * A line of n + 1 lamps is a line of n lamps and a kind. Where its run comes to the last lamp at all, with a pair,
 * `lengthen` judges it from that pair and kind: by the walk at the last lamp if that ends there, and otherwise by the
 * walks at its ends. A failure at an end is found as soon as the pair is arrived at, since that line has as many lamps
 * as one that fails at its last lamp, and only kinds, end kind and start may decide between the two. Where a run ends before the
 * last lamp, its line reaches Goal, or a shorter one has failed.
 *
 * When the same lamps and end are added to two lines, the one that is earlier in the order stays the earlier, and of two starts
 * on one line the lower stays the lower. So among the lines and starts that arrive with one pair the first speaks for all:
 * whatever lamps and end follow, another fails with them exactly if the first does, and then it is later in the order. This is
 * why a pair is kept once, when it is first arrived at.
 *
 * The list has the pairs in the order of these first lines, and those of one line by their starts: the starts themselves,
 * ascending, are the pairs of the empty line; and the lines of n lamps, taken in their order, with the kinds ascending for each,
 * give the lines of n + 1 lamps in theirs, all of them before any of n + 2.
 *
 * When no line fails, the list has each pair that some line reaches, once, as the words have one bit for it: their sum
 * is the length of the list.
 *
 * Once the last line of n lamps is taken, the list ends with the pairs of n + 1 lamps. Lines of `longest` lamps are not taken:
 * no lamp is tried after them, so that no longer line is looked at (02, (b)).
 *
 * The search is handed over by value, so that no other pointer can lead to its numbers, and they may stay in registers.
 */
EACH_FORM uint64_t search_lines(struct search search, finder *fate_of, uint32_t longest, uint8_t *line)
{
    const struct job *const job = &search.job;
    memset(search.words, 0, word_count(job) * sizeof *search.words);
    const struct verdict empty = try_starts(&search, fate_of);
    if (empty.code != NESSFLURRY_GOAL)
        return answered(empty.code, pair_in(search.list[empty.place]).world.number, empty.end, 0);
    uint32_t lamps = 0, end = search.reached; /* of the line that is next; and where the pairs of one lamp more begin */
    for (uint32_t place = 0, next; place < search.reached && lamps < longest; place = next) {
        next = after_line(search.list, search.reached, place);
        const struct verdict verdict =
            next - place == 1 ? lengthen_alone(&search, fate_of, place) : lengthen_together(&search, fate_of, place, next);
        if (verdict.code != NESSFLURRY_GOAL)
            return failed_line(search.list, verdict, line);
        if (next == end) {
            lamps++;
            end = search.reached;
        }
    }
    return longest == NO_BOUND ? answered(NESSFLURRY_ACCEPTED, 0, 0, search.reached)
                               : answered(NESSFLURRY_NONE_UP_TO, 0, 0, longest);
}

/* ---- The two forms ---- */

/* 01, Who can cause which number: 12 and 13. */
static unsigned buffer_refusal(const struct job *job, size_t line_size, size_t list_size, size_t words_size)
{
    if (line_size < unfinished_count(job) + 1)
        return NESSFLURRY_REFUSED_LINE_BUFFER;
    if (list_size < pair_count(job) || words_size < word_count(job))
        return NESSFLURRY_REFUSED_WORK_BUFFERS;
    return 0;
}

static unsigned check_refusal(const uint8_t *file, size_t file_size, size_t line_size, size_t list_size, size_t words_size,
                              struct job *job)
{
    const unsigned refusal = read_job(file, file_size, job);
    return refusal != 0 ? refusal : buffer_refusal(job, line_size, list_size, words_size);
}

/* The form that walks each time. */
EACH_FORM uint64_t check_walking(const uint8_t *file, size_t file_size, uint32_t longest, uint8_t *line, size_t line_size,
                                 uint32_t *list, size_t list_size, uint64_t *words, size_t words_size)
{
    struct job job;
    const unsigned refusal = check_refusal(file, file_size, line_size, list_size, words_size, &job);
    if (refusal != 0)
        return refused(refusal);
    return search_lines((struct search){.job = job, .list = list, .words = words}, walked_fate, longest, line);
}

/* The form that remembers. */
EACH_FORM uint64_t check_remembering(const uint8_t *file, size_t file_size, uint32_t longest, uint8_t *line, size_t line_size,
                                     uint32_t *list, size_t list_size, uint64_t *words, size_t words_size)
{
    struct job job;
    struct memory memory;
    const unsigned refusal = check_refusal(file, file_size, line_size, list_size, words_size, &job);
    if (refusal != 0)
        return refused(refusal);
    make_ready(&memory, &job);
    return search_lines((struct search){.job = job, .list = list, .words = words, .memory = &memory}, remembered_fate, longest,
                        line);
}

/* ---- The checks ---- */

uint64_t plain_check(const uint8_t *file, size_t file_size, uint8_t *line, size_t line_size, uint32_t *list, size_t list_size,
                     uint64_t *words, size_t words_size)
{
    return check_walking(file, file_size, NO_BOUND, line, line_size, list, list_size, words, words_size);
}

uint64_t plain_check_remembering(const uint8_t *file, size_t file_size, uint8_t *line, size_t line_size, uint32_t *list,
                                 size_t list_size, uint64_t *words, size_t words_size)
{
    return check_remembering(file, file_size, NO_BOUND, line, line_size, list, list_size, words, words_size);
}

uint64_t plain_check_up_to(const uint8_t *file, size_t file_size, uint16_t longest, uint8_t *line, size_t line_size,
                           uint32_t *list, size_t list_size, uint64_t *words, size_t words_size)
{
    return check_walking(file, file_size, longest, line, line_size, list, list_size, words, words_size);
}

uint64_t plain_check_up_to_remembering(const uint8_t *file, size_t file_size, uint16_t longest, uint8_t *line,
                                       size_t line_size, uint32_t *list, size_t list_size, uint64_t *words, size_t words_size)
{
    return check_remembering(file, file_size, longest, line, line_size, list, list_size, words, words_size);
}
