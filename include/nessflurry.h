/*
 * Nessflurry for C and C++: a proved checker for the plans of street lamp cabinets, and the stepper that runs inside a cabinet.
 * The library is for x86-64 Linux; this header is for C99 or later and C++11 or later.
 *
 * `make`, or `rt lib` in crates/nessflurry_c, builds the library; then compile and link against it, in place or after `make install`:
 *
 *     cc -Iinclude program.c crates/nessflurry_c/out/libnessflurry_c.a
 *     cc program.c $(pkg-config --cflags --libs nessflurry)
 *
 * Each operation returns its answer as one 64-bit number. Test its code first: NESSFLURRY_REFUSED means that the call did nothing,
 * and nessflurry_refusal_of(answer) is the reason. For any other code, the comment at the operation says which of the functions
 * nessflurry_..._of give what it found.
 *
 *     uint64_t answer = nessflurry_check(file, file_size, line, NESSFLURRY_LINE_SIZE, list, NESSFLURRY_LIST_SIZE,
 *                                        words, NESSFLURRY_WORDS_SIZE);
 *     switch (nessflurry_code_of(answer)) {
 *     case NESSFLURRY_REFUSED:  return cannot_check(nessflurry_refusal_of(answer));
 *     case NESSFLURRY_ACCEPTED: return install(file, file_size);
 *     default:                  return fails_on(line, nessflurry_lamps_of(answer), nessflurry_end_of(answer),
 *                                               nessflurry_start_of(answer));
 *     }
 *
 * Terms. A job file holds tables, which say what each action does at each kind of lamp and of line's end, and a plan. It has A
 * actions, W world states, C lamp kinds, E end kinds, R sensed results, and S program states besides the final one. Lamp kinds are
 * numbered from 1, everything else from 0; the final program state is S. A world state stands for everything that actions can
 * change, but for the place on the line. A line is an array of lamp kinds, and an end kind. A column says where the cabinet is: columns 0 to E - 1 are the end
 * kinds, and a lamp of kind k is column E - 1 + k. A start is a world state that the job marks as one.
 *
 * What holds for every call:
 *
 * - Sizes count elements, not bytes. A pointer must be aligned for its type and refer to at least as many elements as its size
 *   says; it may be NULL if the size is 0. Contents, sizes and numbers may be anything: a call that makes no sense is refused. (A
 *   number of a wider type is cut by C before the call: 272 handed over as a uint8_t is 16.)
 * - Only `head` of nessflurry_read, `line`, `list` and `words` of the two checks and `part` of nessflurry_fill_cells are ever written.
 *   They must not overlap each other, the file or the rules. A refused call writes nothing.
 * - No call allocates memory, keeps a pointer, or touches anything but what it is handed, and every call returns.
 * - Threads: the library has no state of its own. Any number of calls may run at once, and may share a file, a line, a log or rules
 *   that nobody writes meanwhile. What a call writes must not be shared while the call runs.
 * - Stack: each of the two checks needs NESSFLURRY_CHECK_STACK bytes, whatever the file; every other call needs less than 600 bytes.
 * - Time: nothing is remembered between calls, so each one that takes a job file tests the whole of it again and costs at least what
 *   nessflurry_read does: some 0.1 microseconds for a file of a hundred bytes, some ten for the largest tables. A check takes a few
 *   milliseconds at most, and a check up to a number of lamps no longer than that. A walk makes at most S * W steps, and a run at
 *   most that many for each lamp and for the end of the line; a step takes some ten nanoseconds. A replay takes some twenty
 *   nanoseconds for an entry, and a microsecond for one that leaves every world state possible at every column: 40 milliseconds at
 *   most. To fill the largest part with cells takes a few microseconds, and up to about one more for each rule (docs/SPEED.md).
 */
#ifndef NESSFLURRY_H
#define NESSFLURRY_H

#include <stddef.h>
#include <stdint.h>

/*
 * The version of this header. nessflurry_version() returns the library's. If the two differ, the library has other functions or
 * answers than this header describes: call nothing else of it. A library that has more functions keeps its version.
 *
 * A caller of version 2 has to be compiled with this header, and to change only what relies on which of several shortest failing
 * lines the checks tell: up to version 2 the one with the lowest start came first, then the one with the lower kind at the first
 * lamp that differs, then the one with the lower end kind. No function, code or field has another form.
 *
 * A caller of version 1, which knew one kind of line's end, has to change this besides:
 *
 * - nessflurry_run takes an end kind after the line. For a file of one end kind, 0 does what version 1 did.
 * - `head` of nessflurry_read has 17 elements: NESSFLURRY_HEAD_LAST_END is new, and the index of each offset and length is one higher.
 * - nessflurry_raw_run and nessflurry_raw_read have changed in the same two ways under the same names. A linker does not notice: an object
 *   that was compiled with version 1, or a binding made for it, links and goes wrong.
 * - A failure of the checks has an end kind, nessflurry_end_of, where version 1 had 0.
 * - Byte 6 of a job file, which had to be 0, is the number of end kinds less one. A file in which it is 0 means what it meant, and
 *   its answers are as they were, but for which of several shortest failing lines is told. Others, which version 1 refused with 2,
 *   may be accepted now; a caller whose lines have one kind of end tests that head[NESSFLURRY_HEAD_LAST_END] is 0. A caller that
 *   takes any file must not take a lamp's kind for its column: kind k is column head[NESSFLURRY_HEAD_LAST_END] + k, in
 *   nessflurry_walk and in the tables, and the tables have E + C columns instead of C + 1.
 *
 * The walk, both checks, the replay, begin, action and report are called as before. A cabinet is not told what its line ends in: its plan
 * senses that.
 */
#define NESSFLURRY_VERSION 3

/* Makes the compiler warn if an answer is dropped. */
#if (defined __cplusplus && __cplusplus >= 201703L) || (defined __STDC_VERSION__ && __STDC_VERSION__ > 201710L)
#define NESSFLURRY_NODISCARD [[nodiscard]]
#elif defined __GNUC__
#define NESSFLURRY_NODISCARD __attribute__((warn_unused_result))
#else
#define NESSFLURRY_NODISCARD
#endif

#ifdef __cplusplus
#define NESSFLURRY_CAST(type, value) static_cast<type>(value)
extern "C" {
#else
#define NESSFLURRY_CAST(type, value) ((type)(value))
#endif

/* ---- Numbers ---- */

/* Codes. 0 is success, under a name for each operation; a refused call has a code of its own. */
enum {
    NESSFLURRY_DONE = 0,       /* read, begin, report, fill cells: done */
    NESSFLURRY_GOAL = 0,       /* walk, run: ended in the final state with the goal true */
    NESSFLURRY_ACCEPTED = 0,   /* check: the plan is right on every line */
    NESSFLURRY_ACTION = 0,     /* action: there is an action to perform */
    NESSFLURRY_POSSIBLE = 0,   /* replay: some start and line give the log */
    NESSFLURRY_NOT_LEGAL = 1,  /* walk, run, the checks: failure 1, the plan's action is not legal */
    NESSFLURRY_NO_BRANCH = 2,  /* failure 2, the plan has no branch for the sensed result */
    NESSFLURRY_CIRCLES = 3,    /* failure 3, the plan goes on for ever at one lamp or at the end of the line */
    NESSFLURRY_GOAL_FALSE = 4, /* failure 4, ended in the final state with the goal false */
    NESSFLURRY_STOPPED = 5,    /* run: not ended within the limit of steps */
    NESSFLURRY_ARRIVED = 6,    /* walk: moved on, to the next lamp or to the end of the line */
    NESSFLURRY_ENDED = 7,      /* action: the cabinet is in the final state */
    NESSFLURRY_IMPOSSIBLE = 8, /* replay: no start and line give the log */
    NESSFLURRY_NONE_UP_TO = 9, /* check up to: no line of up to that many lamps fails; longer ones are not looked at */
    NESSFLURRY_REFUSED = 255   /* any: see nessflurry_refusal_of */
};

/* Reasons for a refusal. Where several apply, the lowest number is given. */
enum {
    /* The job file: refused by every operation that takes one. */
    NESSFLURRY_REFUSED_FILE_SIZE = 1,   /* shorter than 28 or longer than 65,535 bytes */
    NESSFLURRY_REFUSED_NUMBERS = 2,     /* one of the first eight bytes is out of range, or E + C is above 16 */
    NESSFLURRY_REFUSED_PART_PLACE = 3,  /* a part begins before byte 28 or before the previous one ends, or ends after the file */
    NESSFLURRY_REFUSED_PART_LENGTH = 4, /* a part is not as long as the job's numbers make it */
    NESSFLURRY_REFUSED_MARKS = 5,       /* an action's mark is neither 0 nor 1 */
    NESSFLURRY_REFUSED_CELLS = 6,       /* a cell has a world state or result out of range, or is not legal with a world state not 0 */
    NESSFLURRY_REFUSED_END_CELLS = 7,   /* an action that moves on is legal at some kind of line's end */
    NESSFLURRY_REFUSED_STARTS = 8,      /* a byte of the starts is neither 0 nor 1, or none is 1 */
    NESSFLURRY_REFUSED_GOAL = 9,        /* a byte of the goal is neither 0 nor 1 */
    NESSFLURRY_REFUSED_ACTIONS = 10,    /* the plan names an action that the job does not have */
    NESSFLURRY_REFUSED_TARGETS = 11,    /* the plan names a program state that it does not have */
    /* The other arguments. */
    NESSFLURRY_REFUSED_LINE_BUFFER = 12,  /* the checks: fewer than S * W + 1 elements in `line` */
    NESSFLURRY_REFUSED_WORK_BUFFERS = 13, /* the checks: fewer than (S + 1) * W elements in `list`, or bits in `words` */
    NESSFLURRY_REFUSED_WORLD = 14,        /* run: not a start; walk: no such world state */
    NESSFLURRY_REFUSED_LINE = 15,         /* run: over 65,535 lamps, or no such lamp kind or end kind; walk: no such column */
    NESSFLURRY_REFUSED_STATE = 16,        /* walk, action, report: no such program state */
    /* What a cabinet reports. */
    NESSFLURRY_REFUSED_AFTER_END = 17, /* the cabinet is in the final state */
    NESSFLURRY_REFUSED_RESULT = 18,    /* no such result, or the plan has no branch for it here */
    NESSFLURRY_REFUSED_NO_LAMP = 19,   /* the action moves on, but no lamp is left */
    /* A cabinet's log. */
    NESSFLURRY_REFUSED_LOG_SIZE = 20,    /* replay: an odd number of bytes, or more than 65,534 */
    NESSFLURRY_REFUSED_LOG_ENTRIES = 21, /* replay: an entry with an action or a result that the job does not have */
    /* A rules file. */
    NESSFLURRY_REFUSED_RULES = 22,     /* fill cells: something is wrong with the rules file, or one of A, W, C, R and E out of range */
    NESSFLURRY_REFUSED_PART_SIZE = 23  /* fill cells: `part` has not exactly 2 * A * W * (E + C) bytes */
};

/* Sizes. */
enum {
    NESSFLURRY_MAX_FILE_SIZE = 65535,   /* the longest job file, in bytes */
    NESSFLURRY_MAX_LAMPS = 65535,       /* the longest line that can be run */
    NESSFLURRY_MAX_LOG_SIZE = 65534,    /* the longest log that can be replayed, in bytes */
    NESSFLURRY_MAX_CELLS_SIZE = 32768,  /* the longest cells part, in bytes: that of 16 actions, 64 world states and 16 columns */
    NESSFLURRY_LINE_SIZE = 4097,        /* the checks: enough elements in `line` for every job, */
    NESSFLURRY_LIST_SIZE = 4160,        /* in `list`, */
    NESSFLURRY_WORDS_SIZE = 65,         /* and in `words` */
    NESSFLURRY_CHECK_STACK = 256 * 1024 /* the checks: the stack that each needs, in bytes */
};

/* Where nessflurry_read puts what into `head`. Offsets are from the front of the file; lengths are in bytes. */
enum {
    NESSFLURRY_HEAD_ACTIONS = 0,     /* A */
    NESSFLURRY_HEAD_WORLDS = 1,      /* W */
    NESSFLURRY_HEAD_KINDS = 2,       /* C */
    NESSFLURRY_HEAD_RESULTS = 3,     /* R */
    NESSFLURRY_HEAD_STATES = 4,      /* S */
    NESSFLURRY_HEAD_FIRST_STATE = 5, /* where the plan begins */
    NESSFLURRY_HEAD_LAST_END = 6,    /* E - 1, the highest end kind */
    NESSFLURRY_HEAD_MARKS_OFFSET = 7,
    NESSFLURRY_HEAD_MARKS_LENGTH = 8,
    NESSFLURRY_HEAD_CELLS_OFFSET = 9,
    NESSFLURRY_HEAD_CELLS_LENGTH = 10,
    NESSFLURRY_HEAD_STARTS_OFFSET = 11,
    NESSFLURRY_HEAD_STARTS_LENGTH = 12,
    NESSFLURRY_HEAD_GOAL_OFFSET = 13,
    NESSFLURRY_HEAD_GOAL_LENGTH = 14,
    NESSFLURRY_HEAD_PLAN_OFFSET = 15,
    NESSFLURRY_HEAD_PLAN_LENGTH = 16,
    NESSFLURRY_HEAD_SIZE = 17 /* elements in `head` */
};

/* ---- Reading an answer ---- */

/*
 * The fields of an answer; one that the operation's comment does not name is 0. Of a refused answer all fields but code and
 * refusal are 0, except that a refused report has the state and the lamps that it was handed.
 *
 *     bits  0 to  7   refusal: its reason, or 0 if the call was not refused
 *     bits  8 to 15   code
 *     bits 16 to 23   a program state, a start or an action
 *     bits 24 to 31   a world state or an end kind
 *     bits 32 to 63   a number of steps, pairs or lamps, or a place in a log
 */
static inline uint8_t nessflurry_refusal_of(uint64_t answer) { return NESSFLURRY_CAST(uint8_t, answer); }
static inline uint8_t nessflurry_code_of(uint64_t answer) { return NESSFLURRY_CAST(uint8_t, answer >> 8); }
static inline uint8_t nessflurry_state_of(uint64_t answer) { return NESSFLURRY_CAST(uint8_t, answer >> 16); }
static inline uint8_t nessflurry_start_of(uint64_t answer) { return NESSFLURRY_CAST(uint8_t, answer >> 16); }
static inline uint8_t nessflurry_action_of(uint64_t answer) { return NESSFLURRY_CAST(uint8_t, answer >> 16); }
static inline uint8_t nessflurry_world_of(uint64_t answer) { return NESSFLURRY_CAST(uint8_t, answer >> 24); }
static inline uint8_t nessflurry_end_of(uint64_t answer) { return NESSFLURRY_CAST(uint8_t, answer >> 24); }
static inline uint32_t nessflurry_steps_of(uint64_t answer) { return NESSFLURRY_CAST(uint32_t, answer >> 32); }
static inline uint32_t nessflurry_pairs_of(uint64_t answer) { return NESSFLURRY_CAST(uint32_t, answer >> 32); }
static inline uint16_t nessflurry_lamps_of(uint64_t answer) { return NESSFLURRY_CAST(uint16_t, answer >> 32); }
static inline uint16_t nessflurry_place_of(uint64_t answer) { return NESSFLURRY_CAST(uint16_t, answer >> 32); }

/* ---- The library's functions ---- */

uint32_t nessflurry_version(void);

/*
 * These are for other languages. They do what the functions below do, but no pointer may be NULL, even if its size is 0. From C and
 * C++, call the functions below.
 */
NESSFLURRY_NODISCARD
uint64_t nessflurry_raw_read(const uint8_t *file, size_t file_size, uint16_t head[NESSFLURRY_HEAD_SIZE]);
NESSFLURRY_NODISCARD
uint64_t nessflurry_raw_walk(const uint8_t *file, size_t file_size, uint8_t state, uint8_t world, uint8_t column);
NESSFLURRY_NODISCARD
uint64_t nessflurry_raw_run(const uint8_t *file, size_t file_size, uint8_t start, const uint8_t *line, size_t lamps, uint8_t end,
                            uint32_t limit);
NESSFLURRY_NODISCARD
uint64_t nessflurry_raw_check(const uint8_t *file, size_t file_size, uint8_t *line, size_t line_size, uint32_t *list,
                              size_t list_size, uint64_t *words, size_t words_size);
NESSFLURRY_NODISCARD
uint64_t nessflurry_raw_check_up_to(const uint8_t *file, size_t file_size, uint16_t longest, uint8_t *line, size_t line_size,
                                    uint32_t *list, size_t list_size, uint64_t *words, size_t words_size);
NESSFLURRY_NODISCARD
uint64_t nessflurry_raw_begin(const uint8_t *file, size_t file_size, uint16_t lamps);
NESSFLURRY_NODISCARD
uint64_t nessflurry_raw_action(const uint8_t *file, size_t file_size, uint8_t state, uint16_t lamps);
NESSFLURRY_NODISCARD
uint64_t nessflurry_raw_report(const uint8_t *file, size_t file_size, uint8_t state, uint16_t lamps, uint8_t result);
NESSFLURRY_NODISCARD
uint64_t nessflurry_raw_replay(const uint8_t *file, size_t file_size, const uint8_t *log, size_t log_size);
NESSFLURRY_NODISCARD
uint64_t nessflurry_raw_fill_cells(const uint8_t *rules, size_t rules_size, uint8_t actions, uint8_t worlds, uint8_t kinds,
                                   uint8_t results, uint8_t end_kinds, uint8_t *part, size_t part_size);

/* For the functions below: the bytes, or some other pointer that is not NULL where there are none. */
static inline const uint8_t *nessflurry_not_null(const uint8_t *bytes, size_t size)
{
    static const uint8_t none = 0;
    return size == 0 ? &none : bytes;
}

/* ---- The operations ---- */

/* In these comments state_of is short for nessflurry_state_of(answer), and so on; refusals are given by their numbers. */

/*
 * Reads a job file of file_size bytes. NESSFLURRY_DONE: the 17 elements of `head` have been written; NESSFLURRY_HEAD_... says what
 * they are. `head` must not be NULL. Refusals 1 to 11; then it is unchanged.
 */
NESSFLURRY_NODISCARD
static inline uint64_t nessflurry_read(const uint8_t *file, size_t file_size, uint16_t head[NESSFLURRY_HEAD_SIZE])
{
    return nessflurry_raw_read(nessflurry_not_null(file, file_size), file_size, head);
}

/*
 * Follows the plan at one lamp (column E to E + C - 1) or at the end of the line (column 0 to E - 1), from any program state and
 * world state. NESSFLURRY_GOAL or a failure: the walk ended here after steps_of steps. NESSFLURRY_ARRIVED: it moved on after
 * steps_of steps, counting the step that moved on, and arrived with state_of and world_of. Refusals 1 to 11, 14, 15, 16.
 */
NESSFLURRY_NODISCARD
static inline uint64_t nessflurry_walk(const uint8_t *file, size_t file_size, uint8_t state, uint8_t world, uint8_t column)
{
    return nessflurry_raw_walk(nessflurry_not_null(file, file_size), file_size, state, world, column);
}

/*
 * Runs the plan from a start along a line of `lamps` elements, each a lamp kind, that ends in the end kind `end`. NESSFLURRY_GOAL or
 * a failure: the run ended after steps_of steps. NESSFLURRY_STOPPED: it would take more steps than `limit`, and steps_of is the
 * limit; no run takes as many as UINT32_MAX. Refusals 1 to 11, 14, 15; the whole line and `end` are tested, wherever the run ends.
 */
NESSFLURRY_NODISCARD
static inline uint64_t nessflurry_run(const uint8_t *file, size_t file_size, uint8_t start, const uint8_t *line, size_t lamps,
                                      uint8_t end, uint32_t limit)
{
    return nessflurry_raw_run(nessflurry_not_null(file, file_size), file_size, start, nessflurry_not_null(line, lamps), lamps, end,
                              limit);
}

/*
 * Checks the plan on every line of every length and with every end kind, from every start.
 *
 * NESSFLURRY_ACCEPTED: the plan is right on all of them; `line` is unchanged. Over all lines, pairs_of different pairs of program
 * state and world state occur on arriving at a lamp or at the end of the line.
 *
 * A failure: from start_of, the plan fails in this way on the line that is now in the first lamps_of elements of `line` and ends in
 * the end kind end_of; the rest of `line` is unchanged. No shorter line fails. Of several failing lines of that length it is the one
 * with the lower kind at the first lamp that differs, then the one with the lower end kind; and start_of is the lowest start from
 * which the plan fails on it. A failure at a lamp comes with every end kind: then end_of is 0.
 *
 * `line` needs S * W + 1 elements, `list` (S + 1) * W, and `words` as many bits, 64 to an element: NESSFLURRY_LINE_SIZE,
 * NESSFLURRY_LIST_SIZE and NESSFLURRY_WORDS_SIZE elements are enough for every job. `list` and `words` are working memory: they
 * need not be cleared, and have no meaning afterwards. Refusals 1 to 13.
 */
NESSFLURRY_NODISCARD
static inline uint64_t nessflurry_check(const uint8_t *file, size_t file_size, uint8_t *line, size_t line_size, uint32_t *list,
                                        size_t list_size, uint64_t *words, size_t words_size)
{
    uint8_t no_line = 0;
    uint32_t no_list = 0;
    uint64_t no_words = 0;
    return nessflurry_raw_check(nessflurry_not_null(file, file_size), file_size, line_size == 0 ? &no_line : line, line_size,
                                list_size == 0 ? &no_list : list, list_size, words_size == 0 ? &no_words : words, words_size);
}

/*
 * Checks the plan on the lines of up to `longest` lamps, and looks at no longer one.
 *
 * A failure: what nessflurry_check would answer, and it would leave the same in `line`; so the line has at most `longest` lamps.
 *
 * NESSFLURRY_NONE_UP_TO: from every start, the plan is right on every line of up to `longest` lamps, whatever its end kind; lamps_of
 * is `longest`, and `line` is unchanged. It may still fail on a longer line: only nessflurry_check accepts a plan.
 *
 * `line`, `list` and `words` are as for nessflurry_check, and need the same sizes whatever `longest` is. Refusals 1 to 13.
 */
NESSFLURRY_NODISCARD
static inline uint64_t nessflurry_check_up_to(const uint8_t *file, size_t file_size, uint16_t longest, uint8_t *line,
                                              size_t line_size, uint32_t *list, size_t list_size, uint64_t *words,
                                              size_t words_size)
{
    uint8_t no_line = 0;
    uint32_t no_list = 0;
    uint64_t no_words = 0;
    return nessflurry_raw_check_up_to(nessflurry_not_null(file, file_size), file_size, longest, line_size == 0 ? &no_line : line,
                                      line_size, list_size == 0 ? &no_list : list, list_size,
                                      words_size == 0 ? &no_words : words, words_size);
}

/*
 * The cabinet. What it has to remember between calls is its program state and the number of lamps left: state_of and lamps_of of
 * the last begin or report.
 */

/* Begins a line with this number of lamps. NESSFLURRY_DONE: state_of and lamps_of are the cabinet's. Refusals 1 to 11. */
NESSFLURRY_NODISCARD
static inline uint64_t nessflurry_begin(const uint8_t *file, size_t file_size, uint16_t lamps)
{
    return nessflurry_raw_begin(nessflurry_not_null(file, file_size), file_size, lamps);
}

/* What to do now. NESSFLURRY_ACTION: action_of. NESSFLURRY_ENDED: nothing more, the plan is at its end. Refusals 1 to 11, 16. */
NESSFLURRY_NODISCARD
static inline uint64_t nessflurry_action(const uint8_t *file, size_t file_size, uint8_t state, uint16_t lamps)
{
    return nessflurry_raw_action(nessflurry_not_null(file, file_size), file_size, state, lamps);
}

/*
 * Reports the result that the action had. NESSFLURRY_DONE: state_of and lamps_of are the cabinet's now. Refusals 1 to 11 and
 * 16 to 19; then state_of and lamps_of are as handed in: sense again, or stop, since the same result will be refused again.
 */
NESSFLURRY_NODISCARD
static inline uint64_t nessflurry_report(const uint8_t *file, size_t file_size, uint8_t state, uint16_t lamps,
                                         uint8_t result)
{
    return nessflurry_raw_report(nessflurry_not_null(file, file_size), file_size, state, lamps, result);
}

/*
 * Says whether a cabinet that runs this plan can have written a log. A log has log_size bytes: for each step, from the plan's first
 * on, its action and the result that was sensed. It need not go on to the plan's end, and a plan that circles may go on circling.
 *
 * NESSFLURRY_POSSIBLE: some start and some line, of any length and any end kind, give it. NESSFLURRY_IMPOSSIBLE: none does. Entries
 * are counted from 0, and the one at place_of is the first with which it is so: the entries before it are possible, those up to and
 * with it are not. Refusals 1 to 11, 20, 21; for 21 the whole log is read, whatever its first entries are.
 */
NESSFLURRY_NODISCARD
static inline uint64_t nessflurry_replay(const uint8_t *file, size_t file_size, const uint8_t *log, size_t log_size)
{
    return nessflurry_raw_replay(nessflurry_not_null(file, file_size), file_size, nessflurry_not_null(log, log_size), log_size);
}

/*
 * Writes the cells part of a job file from a rules file, for people who think in fluents: whether a cover is open, what is known of a
 * fuse. No job file is needed; the part is for one with these numbers: A `actions`, W `worlds`, C `kinds`, R `results` and E
 * `end_kinds`, in the ranges of a job file (1 to 16, 1 to 64, 1 to 15, 1 to 8, and at least 1 with E + C at most 16). E is the number
 * of end kinds itself; byte 6 of the job file will be E - 1.
 *
 * A rules file has, a byte each: the number m of fluents, 1 to 6; for each fluent how many values it has, which multiply to W; and
 * then, up to its end, any number of rules of 3 + 2 * m bytes, or none.
 *
 * A world state stands for one value of each fluent, counted from 0, and the first fluent changes slowest: with 2 and 3 values, world
 * state 4 is value 1 of the first fluent and value 1 of the second.
 *
 * A rule has, a byte each and in this order: an action, below A; a result, below R; a column, below E + C, or 254 for any lamp, or 255
 * for any column; then for each fluent the value that it wants, below the fluent's number of values, or 255 for any; and then for each
 * fluent its new value, below that number, or 255 for the value that it has. For each action, world state and column, the first rule
 * that matches all three decides; where none does, the action is not legal. No rule can say "not legal": that is so only where no
 * rule matches.
 *
 * `part` needs exactly 2 * A * W * (E + C) bytes, NESSFLURRY_MAX_CELLS_SIZE at most. NESSFLURRY_DONE: all of them have been written. The
 * cell of action a, world state w and column c is at 2 * ((a * W + w) * (E + C) + c): its next world state and then its result, or 0
 * and 255 where the action is not legal. No job with these five numbers is refused with 6 for it; one is refused with 7 if the
 * rules let an action that it marks as moving on be legal at the end of a line.
 *
 * Refusals 22 and 23; then `part` is unchanged. 22 comes first, and reads every rule, whether or not any cell depends on it.
 */
NESSFLURRY_NODISCARD
static inline uint64_t nessflurry_fill_cells(const uint8_t *rules, size_t rules_size, uint8_t actions, uint8_t worlds, uint8_t kinds,
                                             uint8_t results, uint8_t end_kinds, uint8_t *part, size_t part_size)
{
    uint8_t no_part = 0;
    return nessflurry_raw_fill_cells(nessflurry_not_null(rules, rules_size), rules_size, actions, worlds, kinds, results, end_kinds,
                                     part_size == 0 ? &no_part : part, part_size);
}

#ifdef __cplusplus
}
#endif

#undef NESSFLURRY_CAST

#endif
