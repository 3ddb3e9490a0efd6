/*
 * A cabinet's firmware in small. It checks the plan of a job; if the plan is right on every line, it takes a cabinet along one
 * line, with the lamps and the end of that line played by the job's own tables. The cabinet keeps a log, which is replayed at the
 * end.
 *
 *     street JOB END KIND...        the end kind of the line, and the kinds of its lamps; for example:
 *                                   street samples/bench_g.job 0 1 2 1
 */
#include "nessflurry.h"

#include <stdbool.h>
#include <stdio.h>
#include <stdlib.h>

/* One byte and one lamp more than the library takes, so that too large ones are handed in, and refused. */
static uint8_t file[NESSFLURRY_MAX_FILE_SIZE + 1], line[NESSFLURRY_MAX_LAMPS + 1], end;
static size_t file_size, lamps;

static uint16_t head[NESSFLURRY_HEAD_SIZE];

/* Hands on an answer; a refusal ends the program. */
static uint64_t not_refused(const char *operation, uint64_t answer)
{
    if (nessflurry_code_of(answer) == NESSFLURRY_REFUSED) {
        printf("%s refused with %d\n", operation, nessflurry_refusal_of(answer));
        exit(1);
    }
    return answer;
}

/* The number that is written here, or `none` if that is no byte. */
static uint8_t byte_in(const char *text, uint8_t none)
{
    char *rest;
    long number = strtol(text, &rest, 10);
    return rest != text && *rest == '\0' && number >= 0 && number <= 255 ? (uint8_t)number : none;
}

static void take_arguments(int argc, char **argv)
{
    FILE *job = argc >= 3 ? fopen(argv[1], "rb") : NULL;
    if (job == NULL) {
        fprintf(stderr, argc >= 3 ? "street: the job cannot be read\n" : "usage: street JOB END KIND...\n");
        exit(2);
    }
    file_size = fread(file, 1, sizeof file, job);
    fclose(job);
    end = byte_in(argv[2], 255); /* 255 is no end kind, and 0 no lamp's kind: the run refuses them */
    for (int i = 3; i < argc && lamps < sizeof line; i++)
        line[lamps++] = byte_in(argv[i], 0);
}

/* The sizes are enough for every job; nothing has to be cleared. */
static void check_plan(void)
{
    static uint8_t failing[NESSFLURRY_LINE_SIZE];
    static uint32_t list[NESSFLURRY_LIST_SIZE];
    static uint64_t words[NESSFLURRY_WORDS_SIZE];
    uint64_t answer = not_refused("check", nessflurry_check(file, file_size, failing, NESSFLURRY_LINE_SIZE, list,
                                                            NESSFLURRY_LIST_SIZE, words, NESSFLURRY_WORDS_SIZE));
    if (nessflurry_code_of(answer) == NESSFLURRY_ACCEPTED) {
        printf("the plan is accepted; pairs reached: %u\n", nessflurry_pairs_of(answer));
        return;
    }
    int failure = nessflurry_code_of(answer), start = nessflurry_start_of(answer), count = nessflurry_lamps_of(answer);
    printf("the plan fails with failure %d from start %d on the line", failure, start);
    for (int i = 0; i < count; i++)
        printf(" %d", failing[i]);
    printf("%s with end kind %d\n", count == 0 ? " without lamps" : "", nessflurry_end_of(answer));
    exit(1);
}

/* The lamps: the world, and how many of the line have been passed. */
static uint8_t world;
static size_t passed;

/* The end kinds are the first columns, and the lamp kinds come after them. */
static size_t column(void) { return passed < lamps ? (size_t)head[NESSFLURRY_HEAD_LAST_END] + line[passed] : end; }
static size_t columns(void) { return head[NESSFLURRY_HEAD_LAST_END] + 1u + head[NESSFLURRY_HEAD_KINDS]; }

/* Does one action on the world, and answers what is sensed. After an accepted plan the action is legal here. */
static uint8_t perform(uint8_t action)
{
    size_t row = (size_t)action * head[NESSFLURRY_HEAD_WORLDS] + world;
    const uint8_t *cell = &file[head[NESSFLURRY_HEAD_CELLS_OFFSET] + 2 * (row * columns() + column())];
    world = cell[0];
    passed += file[head[NESSFLURRY_HEAD_MARKS_OFFSET] + action];
    return cell[1];
}

static bool goal_holds(void) { return file[head[NESSFLURRY_HEAD_GOAL_OFFSET] + world * columns() + column()] == 1; }

/* Says beforehand how the run ends, which the cabinet itself cannot know; refuses a line with a kind that no lamp or end has. */
static void foretell(void)
{
    uint64_t answer = not_refused("run", nessflurry_run(file, file_size, world, line, lamps, end, UINT32_MAX));
    printf("the run of the line ends with code %d after %u steps\n", nessflurry_code_of(answer), nessflurry_steps_of(answer));
}

/* The cabinet's log: the action and the result of each step. What comes after the longest log is not kept. */
static uint8_t entries[NESSFLURRY_MAX_LOG_SIZE];
static size_t log_size;

static void keep(uint8_t action, uint8_t result)
{
    if (log_size == sizeof entries)
        return;
    entries[log_size++] = action;
    entries[log_size++] = result;
}

/* The cabinet: it is told how many lamps there are, and senses the rest. Its whole state is one answer. */
static void walk_the_line(void)
{
    uint64_t cabinet = not_refused("begin", nessflurry_begin(file, file_size, (uint16_t)lamps));
    for (;;) {
        uint8_t state = nessflurry_state_of(cabinet);
        uint16_t left = nessflurry_lamps_of(cabinet);
        uint64_t next = not_refused("action", nessflurry_action(file, file_size, state, left));
        if (nessflurry_code_of(next) == NESSFLURRY_ENDED)
            break;
        uint8_t action = nessflurry_action_of(next), result = perform(action);
        printf("state %d, %d lamps left: action %d, result %d\n", state, left, action, result);
        cabinet = not_refused("report", nessflurry_report(file, file_size, state, left, result));
        keep(action, result); /* a result that is refused is no step */
    }
    printf("the cabinet ended in state %d with %d lamps left\n", nessflurry_state_of(cabinet), nessflurry_lamps_of(cabinet));
}

/* What the office does with a log that a crew brings back. */
static void replay_the_log(void)
{
    uint64_t answer = not_refused("replay", nessflurry_replay(file, file_size, entries, log_size));
    if (nessflurry_code_of(answer) == NESSFLURRY_POSSIBLE)
        printf("the log of %zu entries is possible\n", log_size / 2);
    else
        printf("no start and line give the log up to entry %d\n", nessflurry_place_of(answer));
}

int main(int argc, char **argv)
{
    if (nessflurry_version() != NESSFLURRY_VERSION) {
        fprintf(stderr, "the library is of another version than nessflurry.h\n");
        return 2;
    }
    take_arguments(argc, argv);
    not_refused("reader", nessflurry_read(file, file_size, head));
    check_plan();
    while (file[head[NESSFLURRY_HEAD_STARTS_OFFSET] + world] != 1) /* the lowest marked start: a job that is not refused has one */
        world++;
    foretell();
    walk_the_line();
    replay_the_log();
    puts(goal_holds() ? "the goal holds" : "the goal does not hold");
    return goal_holds() ? 0 : 1;
}
