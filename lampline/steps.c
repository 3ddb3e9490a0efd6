#include "steps.h"
#include "messages.h"
#include "nessflurry.h"
#include "tables.h"

#include <stdio.h>
#include <string.h>

/* Where the run is: program state and lamps left as the cabinet has them, the world state, and the steps made so far. */
struct position {
    uint8_t state, world;
    uint16_t left;
    uint32_t steps;
};

/* What comes next at a position: a step, with the code MOVES and what it leads to, or an ending with the run's code for it. */
enum { MOVES = NESSFLURRY_ARRIVED };
struct move {
    uint8_t code, action, result;
    struct position after;
};

/* For each pair of program state and world state, when the run was last there: with how many lamps left, and after which step. */
enum { PROGRAM_STATES = 65, WORLD_STATES = 64 };
static struct visit {
    bool been;
    uint16_t left;
    uint32_t steps;
} visits[PROGRAM_STATES][WORLD_STATES];

static struct visit *visit_of(const struct position *at) { return &visits[at->state][at->world]; }

static size_t lamps_passed(const struct line_run *run, const struct position *at) { return run->lamps - at->left; }

static uint8_t column_of(const struct tables *tables, const struct line_run *run, const struct position *at)
{
    return at->left == 0 ? run->end : lamp_column(tables, run->line[lamps_passed(run, at)]);
}

/* A step that is legal, and whose result may have a branch. */
static struct move step(const struct file *file, const struct line_run *run, const struct position *at, uint8_t action,
                        struct cell cell)
{
    const uint64_t report = nessflurry_report(file->bytes, file->size, at->state, at->left, cell.result);
    struct move move = {MOVES, action, cell.result, {0}};
    if (nessflurry_code_of(report) == NESSFLURRY_REFUSED)
        move.code = NESSFLURRY_NO_BRANCH;
    else if (at->steps == run->limit)
        move.code = NESSFLURRY_STOPPED;
    else
        move.after = (struct position){nessflurry_state_of(report), cell.next, nessflurry_lamps_of(report), at->steps + 1};
    return move;
}

static struct move next_move(const struct file *file, const struct tables *tables, const struct line_run *run,
                             const struct position *at)
{
    const uint8_t column = column_of(tables, run, at);
    const uint64_t next = nessflurry_action(file->bytes, file->size, at->state, at->left);
    if (nessflurry_code_of(next) == NESSFLURRY_ENDED)
        return (struct move){.code = goal_holds(tables, at->world, column) ? NESSFLURRY_GOAL : NESSFLURRY_GOAL_FALSE};
    const struct visit *const visit = visit_of(at);
    if (visit->been && visit->left == at->left)
        return (struct move){.code = NESSFLURRY_CIRCLES};
    const uint8_t action = nessflurry_action_of(next);
    const struct cell cell = cell_at(tables, action, at->world, column);
    return cell.legal ? step(file, run, at, action, cell) : (struct move){.code = NESSFLURRY_NOT_LEGAL, .action = action};
}

static void print_place(const struct line_run *run, const struct position *at)
{
    const size_t passed = lamps_passed(run, at);
    if (passed < run->lamps)
        printf("at lamp %zu of %zu (kind %d)", passed + 1, run->lamps, run->line[passed]);
    else
        printf("at the line's end (kind %d)", run->end);
    printf(", state %d, world %d: ", at->state, at->world);
}

static void print_move(const struct line_run *run, const struct position *at, const struct move *move)
{
    printf("    ");
    if (move->code == MOVES)
        printf("step %u ", move->after.steps);
    print_place(run, at);
    switch (move->code) {
    case MOVES:
        printf("action %d, result %d; %sto state %d, world %d\n", move->action, move->result,
               move->after.left < at->left ? "moves on, " : "", move->after.state, move->after.world);
        break;
    case NESSFLURRY_GOAL: printf("the plan's end, and the goal is true\n"); break;
    case NESSFLURRY_NOT_LEGAL: printf("action %d is not legal\n", move->action); break;
    case NESSFLURRY_NO_BRANCH:
        printf("action %d, result %d, for which the plan has no branch\n", move->action, move->result);
        break;
    case NESSFLURRY_CIRCLES: printf("as before step %u, so the plan goes round for ever\n", visit_of(at)->steps + 1); break;
    case NESSFLURRY_GOAL_FALSE: printf("the plan's end, and the goal is false\n"); break;
    default: printf("the limit\n");
    }
}

uint64_t answer_of(const struct file *file, const struct line_run *run)
{
    return nessflurry_run(file->bytes, file->size, run->start, run->line, run->lamps, run->end, run->limit);
}

/*
 * The steps end where the plan first comes back to where it was, and the library's count of a circling run goes on; so a run that
 * circles may be stopped by its limit before the library says so.
 */
static bool agrees(const struct file *file, const struct line_run *run, const struct move *last, const struct position *at)
{
    const uint64_t answer = answer_of(file, run);
    if (last->code == NESSFLURRY_CIRCLES)
        return nessflurry_code_of(answer) == NESSFLURRY_CIRCLES || nessflurry_code_of(answer) == NESSFLURRY_STOPPED;
    return nessflurry_code_of(answer) == last->code && nessflurry_steps_of(answer) == at->steps;
}

bool print_steps(const struct file *file, const struct line_run *run)
{
    struct tables tables;
    struct move move;
    read_tables(&tables, file);
    memset(visits, 0, sizeof visits);
    const uint64_t begun = nessflurry_begin(file->bytes, file->size, (uint16_t)run->lamps);
    struct position at = {nessflurry_state_of(begun), run->start, (uint16_t)run->lamps, 0};
    for (;;) {
        move = next_move(file, &tables, run, &at);
        print_move(run, &at, &move);
        if (move.code != MOVES)
            break;
        *visit_of(&at) = (struct visit){true, at.left, at.steps};
        at = move.after;
    }
    if (agrees(file, run, &move, &at))
        return true;
    complain("%s: these steps do not end as the library's run does, so one of the two is wrong", file->name);
    return false;
}
