#include "tally.h"

#include "nessflurry.h"

#include <inttypes.h>
#include <stdio.h>
#include <stdlib.h>

enum { REFUSALS = 24, CODES = 10 };

/* What takes the place of a code for a sum: how many of the bits are ones. */
enum { NO_ONES, SOME_ONES, ALL_ONES };

/* The numbers from one to another, as bits. */
#define NUMBERS(from, to) ((2u << (to)) - (1u << (from)))

static const struct {
    const char *name, *arguments[MOST_ARGUMENTS];
    const char *codes[CODES]; /* the names of the codes that it has */
    uint32_t refusals;        /* the refusals that it has, as bits */
} known[OPERATIONS] = {
    [READ] = {"reader", {0}, {"read"}, NUMBERS(1, 11)},
    [WALK] = {"walk",
              {"state", "world", "column"},
              {"goal", "failure 1", "failure 2", "failure 3", "failure 4", NULL, "arrived"},
              NUMBERS(1, 11) | NUMBERS(14, 16)},
    [RUN] = {"run",
             {"start", "lamps", "end", "limit"},
             {"goal", "failure 1", "failure 2", "failure 3", "failure 4", "stopped"},
             NUMBERS(1, 11) | NUMBERS(14, 15)},
    [CHECK] = {"check",
               {"line bytes", "list numbers", "words"},
               {"accepted", "failed 1", "failed 2", "failed 3", "failed 4"},
               NUMBERS(1, 13)},
    [CHECK_UP_TO] = {"check up to",
                     {"line bytes", "list numbers", "words", "longest"},
                     {NULL, "failed 1", "failed 2", "failed 3", "failed 4", [NESSFLURRY_NONE_UP_TO] = "none"},
                     NUMBERS(1, 13)},
    [BEGIN] = {"begin", {"lamps"}, {"begun"}, NUMBERS(1, 11)},
    [ACTION] = {"action",
                {"state", "lamps"},
                {[NESSFLURRY_ACTION] = "action", [NESSFLURRY_ENDED] = "ended"},
                NUMBERS(1, 11) | NUMBERS(16, 16)},
    [REPORT] = {"report", {"state", "lamps", "result"}, {"taken"}, NUMBERS(1, 11) | NUMBERS(16, 19)},
    [REPLAY] = {"replay",
                {"log bytes"},
                {[NESSFLURRY_POSSIBLE] = "possible", [NESSFLURRY_IMPOSSIBLE] = "impossible"},
                NUMBERS(1, 11) | NUMBERS(20, 21)},
    [FILL] = {"fill cells", {"A", "W", "C", "R", "E", "part bytes"}, {"filled"}, NUMBERS(22, 23)},
    [SUM] = {"sum", {"words", "bits"}, {[NO_ONES] = "none", [SOME_ONES] = "some", [ALL_ONES] = "all"}, 0},
};

struct place place;

static struct {
    uint64_t calls, answered[CODES], refused[REFUSALS];
} counts[OPERATIONS];

static uint64_t compared, differing;
static uint32_t most_pairs, longest_failing_line, most_possible_bytes, furthest_place;
static uint64_t failures[MOST_ENDS]; /* of the full check, by end kind */

/* Failures that were told where another start, a higher or a lower one, fails on a line as long. */
static uint64_t told_before[2][RIVALRIES];
static const char *const rival_names[2] = {"higher", "lower"};

/* Accepted checks in which the bits of all pairs end with a word, as many pairs are reached as fill words, or all there are. */
enum word_end { PAIRS_END_WITH_WORD, REACHED_FILL_WORDS, ALL_REACHED, WORD_ENDS };
static const char *const word_end_names[WORD_ENDS] = {"pairs ending with a word", "64 reached or a multiple", "all reached"};
static uint64_t word_ends[WORD_ENDS];

/* Parts that were filled: by the number of fluents, the longest, and the longest rules file and most rules that filled one. */
static uint64_t fills[MOST_FLUENTS];
static uint32_t longest_part, longest_rules, most_rules;

static const char *const lendable_names[LENDABLE] = {"file", "line", "line buffer", "list", "words", "log", "rules", "part"};
static uint64_t nulls[LENDABLE];

void count_rivalry(bool lower, enum rivalry rivalry) { told_before[lower][rivalry]++; }

void count_null(enum lendable what) { nulls[what]++; }

static void keep(const char *what, const void *content, size_t content_size)
{
    const char *folder = getenv("TMPDIR");
    char name[4096];
    snprintf(name, sizeof name, "%s/nessflurry_difference.%s", folder ? folder : "/tmp", what);
    FILE *kept = fopen(name, "wb");
    if (kept == NULL || fwrite(content, 1, content_size, kept) != content_size)
        printf("  its %s could not be written to %s\n", what, name);
    else
        printf("  its %s, %zu bytes: %s\n", what, content_size, name);
    if (kept != NULL)
        fclose(kept);
}

/*
 * What the call of the first difference was handed: of a sum its words, as they lie in memory; of a fill its rules file; of the
 * others the job, in a form that the product's program and example read.
 */
static void keep_handed(void)
{
    if (place.operation == FILL)
        keep("rules", place.rules->bytes, place.rules->size);
    else if (place.operation == SUM)
        keep("words", place.words, place.arguments[0] * sizeof *place.words);
    else
        keep("job", place.file->bytes, place.file->size);
}

static void tell_place(void)
{
    printf("first difference: ");
    if (place.number != NO_TRIAL)
        printf("trial %" PRIu32 " (seen again by `compare only %" PRIu32 "`), ", place.number, place.number);
    printf("%s", known[place.operation].name);
    for (int i = 0; i < MOST_ARGUMENTS && known[place.operation].arguments[i] != NULL; i++)
        printf(" %s %" PRIu64, known[place.operation].arguments[i], place.arguments[i]);
    printf("\n");
}

void demand(bool holds, const char *demanded)
{
    if (holds || differing++ > 0) /* one is told, all are counted */
        return;
    tell_place();
    printf("  demanded, and not so: %s\n", demanded);
    keep_handed();
    fflush(stdout);
}

void demand_equal(uint64_t nessflurry, uint64_t plain)
{
    char demanded[80];
    if (nessflurry == plain)
        return;
    snprintf(demanded, sizeof demanded, "equal answers (nessflurry %016" PRIx64 ", plain %016" PRIx64 ")", nessflurry, plain);
    demand(false, demanded);
}

void count_difference(void) { differing++; }

static void note_most(uint32_t *most, uint32_t count)
{
    if (count > *most)
        *most = count;
}

/* The file is not refused, so these bytes of it are W and S. */
static void note_accepted(uint32_t reached)
{
    uint32_t pairs = place.file->bytes[1] * (place.file->bytes[4] + 1u);
    note_most(&most_pairs, reached);
    word_ends[PAIRS_END_WITH_WORD] += pairs % 64 == 0;
    word_ends[REACHED_FILL_WORDS] += reached % 64 == 0;
    word_ends[ALL_REACHED] += reached == pairs;
}

static void note_failure(uint64_t answer)
{
    uint8_t end = nessflurry_end_of(answer);
    note_most(&longest_failing_line, nessflurry_lamps_of(answer));
    demand(end < MOST_ENDS, "an end kind that a job can have");
    if (end < MOST_ENDS)
        failures[end]++;
}

static void note_filled(void)
{
    uint8_t fluents = place.rules->bytes[0];
    note_most(&longest_part, (uint32_t)place.arguments[5]);
    note_most(&longest_rules, (uint32_t)place.rules->size);
    note_most(&most_rules, (uint32_t)rules_in(place.rules));
    demand(fluents >= 1 && fluents <= MOST_FLUENTS, "no part filled with a number of fluents that no rules file has");
    if (fluents >= 1 && fluents <= MOST_FLUENTS)
        fills[fluents - 1]++;
}

static void note_extremes(enum operation operation, uint64_t answer)
{
    uint8_t code = nessflurry_code_of(answer);
    if (operation == CHECK && code == NESSFLURRY_ACCEPTED)
        note_accepted(nessflurry_pairs_of(answer));
    else if (operation == CHECK)
        note_failure(answer);
    else if (operation == REPLAY && code == NESSFLURRY_POSSIBLE)
        note_most(&most_possible_bytes, (uint32_t)place.arguments[0]);
    else if (operation == REPLAY)
        note_most(&furthest_place, nessflurry_place_of(answer));
    else if (operation == FILL)
        note_filled();
}

/* Beside refusal and code a refused report has a state and lamps, and nothing else has anything. */
static void count_refusal(enum operation operation, uint64_t answer)
{
    const uint64_t others = operation == REPORT ? (uint64_t)0xFF << 24 | (uint64_t)0xFFFF << 48 : UINT64_MAX << 16;
    uint8_t refusal = nessflurry_refusal_of(answer);
    bool has = refusal < REFUSALS && known[operation].refusals >> refusal & 1;
    demand(has, "a refusal that the operation has");
    demand((answer & others) == 0, "nothing beside the refusal");
    counts[operation].refused[has ? refusal : 0]++;
}

void count_answer(enum operation operation, uint64_t answer)
{
    uint8_t code = nessflurry_code_of(answer);
    compared++;
    counts[operation].calls++;
    if (code == NESSFLURRY_REFUSED) {
        count_refusal(operation, answer);
        return;
    }
    bool has = code < CODES && known[operation].codes[code] != NULL;
    demand(has, "a code that the operation has");
    demand(nessflurry_refusal_of(answer) == 0, "no refusal beside another code");
    counts[operation].answered[has ? code : 0]++;
    note_extremes(operation, answer);
}

void count_sum(size_t sum, size_t bits)
{
    compared++;
    counts[SUM].calls++;
    counts[SUM].answered[sum == 0 ? NO_ONES : sum < bits ? SOME_ONES : ALL_ONES]++;
}

static void print_operation(enum operation operation)
{
    const char *mark = ":";
    printf("%-11s%9" PRIu64 " calls", known[operation].name, counts[operation].calls);
    for (int code = 0; code < CODES; code++)
        if (known[operation].codes[code] != NULL) {
            printf("%s %s %" PRIu64, mark, known[operation].codes[code], counts[operation].answered[code]);
            mark = ",";
        }
    if (known[operation].refusals != 0)
        printf(", refused");
    for (int refusal = 1; refusal < REFUSALS; refusal++)
        if (known[operation].refusals >> refusal & 1)
            printf(" %d:%" PRIu64, refusal, counts[operation].refused[refusal]);
    printf("\n");
}

/* How many of the reasons there can be for telling a start before a lower one, or a higher one. */
static enum rivalry reasons(bool lower) { return lower ? BY_START : RIVALRIES; }

static void print_rivals(bool lower)
{
    printf("told before a %s start by", rival_names[lower]);
    for (enum rivalry by = EARLIER_LINE; by < reasons(lower); by++)
        printf("%s %s %" PRIu64, by == EARLIER_LINE ? ":" : ";", rivalry_names[by], told_before[lower][by]);
    printf("\n");
}

void print_tally(void)
{
    for (enum operation operation = READ; operation < OPERATIONS; operation++)
        print_operation(operation);
    printf("lent as NULL:");
    for (enum lendable what = JOB_FILE; what < LENDABLE; what++)
        printf("%s %s %" PRIu64, what == JOB_FILE ? "" : ",", lendable_names[what], nulls[what]);
    printf("\nmost pairs reached %" PRIu32 ", longest failing line %" PRIu32 " lamps; failures by end kind:", most_pairs,
           longest_failing_line);
    for (int end = 0; end < MOST_ENDS; end++)
        printf(" %" PRIu64, failures[end]);
    printf("\n");
    print_rivals(true);
    print_rivals(false);
    printf("accepted with");
    for (enum word_end what = PAIRS_END_WITH_WORD; what < WORD_ENDS; what++)
        printf("%s %s %" PRIu64, what == PAIRS_END_WITH_WORD ? "" : ",", word_end_names[what], word_ends[what]);
    printf("\n");
    printf("longest possible log %" PRIu32 " bytes, furthest place of an impossible one %" PRIu32 "\n", most_possible_bytes,
           furthest_place);
    printf("parts filled by fluents:");
    for (int fluents = 1; fluents <= MOST_FLUENTS; fluents++)
        printf(" %" PRIu64, fills[fluents - 1]);
    printf("; longest part %" PRIu32 " bytes, longest rules file %" PRIu32 ", most rules %" PRIu32 "\n", longest_part,
           longest_rules, most_rules);
}

static bool seen(enum operation operation)
{
    bool all = true;
    for (int code = 0; code < CODES; code++)
        if (known[operation].codes[code] != NULL && counts[operation].answered[code] == 0) {
            printf("never seen: %s answering %s\n", known[operation].name, known[operation].codes[code]);
            all = false;
        }
    for (int refusal = 1; refusal < REFUSALS; refusal++)
        if (known[operation].refusals >> refusal & 1 && counts[operation].refused[refusal] == 0) {
            printf("never seen: %s refusing with %d\n", known[operation].name, refusal);
            all = false;
        }
    return all;
}

static bool longest_log_seen(void)
{
    if (most_possible_bytes == NESSFLURRY_MAX_LOG_SIZE)
        return true;
    printf("never seen: a possible log of %d bytes\n", NESSFLURRY_MAX_LOG_SIZE);
    return false;
}

static bool fill_seen(bool was_seen, const char *which)
{
    if (!was_seen)
        printf("never seen: a filled part %s\n", which);
    return was_seen;
}

static bool fills_seen(void)
{
    bool all = fill_seen(longest_part == NESSFLURRY_MAX_CELLS_SIZE, "of the greatest length");
    all = fill_seen(longest_rules > NESSFLURRY_MAX_FILE_SIZE, "from a rules file that is longer than a job file may be") && all;
    all = fill_seen(most_rules > UINT16_MAX, "from more than 65,535 rules") && all;
    for (int fluents = 1; fluents <= MOST_FLUENTS; fluents++)
        if (fills[fluents - 1] == 0) {
            printf("never seen: a part filled by rules with %d fluents\n", fluents);
            all = false;
        }
    return all;
}

static bool end_kinds_seen(void)
{
    bool all = true;
    for (int end = 0; end < MOST_ENDS; end++)
        if (failures[end] == 0) {
            printf("never seen: check failing with end kind %d\n", end);
            all = false;
        }
    return all;
}

static bool rivals_seen(bool lower)
{
    bool all = true;
    for (enum rivalry by = EARLIER_LINE; by < reasons(lower); by++)
        if (told_before[lower][by] == 0) {
            printf("never seen: check telling a failure before that of a %s start by %s\n", rival_names[lower], rivalry_names[by]);
            all = false;
        }
    return all;
}

static bool word_ends_seen(void)
{
    bool all = true;
    for (enum word_end what = PAIRS_END_WITH_WORD; what < WORD_ENDS; what++)
        if (word_ends[what] == 0) {
            printf("never seen: check accepting with %s\n", word_end_names[what]);
            all = false;
        }
    return all;
}

bool all_seen(void)
{
    bool all = longest_log_seen();
    all = fills_seen() && all;
    all = end_kinds_seen() && all;
    all = rivals_seen(true) && all;
    all = rivals_seen(false) && all;
    all = word_ends_seen() && all;
    for (enum operation operation = READ; operation < OPERATIONS; operation++)
        all = seen(operation) && all;
    for (enum lendable what = JOB_FILE; what < LENDABLE; what++)
        if (nulls[what] == 0) {
            printf("never seen: NULL for %s\n", lendable_names[what]);
            all = false;
        }
    return all;
}

uint64_t differences(void) { return differing; }

void print_comparisons(void) { printf("%" PRIu64 " comparisons, %" PRIu64 " differences\n", compared, differing); }
