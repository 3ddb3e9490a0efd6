/*
 * The file of each trial.
 */
#include "job_files/damage.h"
#include "trials.h"

static void resize_bench(struct trial *trial, uint32_t which)
{
    const size_t largest[] = {NESSFLURRY_MAX_FILE_SIZE - 1, NESSFLURRY_MAX_FILE_SIZE, NESSFLURRY_MAX_FILE_SIZE + 1};
    resize(&trial->file, which < BENCH_BYTES + 32 ? which : largest[which - BENCH_BYTES - 32], &trial->random);
}

static void damage_file(struct trial *trial)
{
    trial->due = damage(&trial->file, &trial->job, &trial->random);
    trial->sound = trial->due == 0;
}

static void scramble_file(struct trial *trial)
{
    if (one_in(&trial->random, 4))
        shift_columns(&trial->file, &trial->job, &trial->random);
    else
        scramble(&trial->file, &trial->random);
    if (one_in(&trial->random, 8))
        resize(&trial->file, below(&trial->random, 41), &trial->random);
    trial->sound = false;
}

static void make_random(struct trial *trial)
{
    random_job(&trial->job, &trial->random);
    write_file(&trial->file, &trial->job, &trial->random);
    if (one_in(&trial->random, 3))
        damage_file(trial);
    else if (one_in(&trial->random, 6))
        scramble_file(trial);
}

/* S and W by a place in the list of all. Two actions are enough, and a crowded job has at least as many kinds as results. */
static void set_states_and_worlds(struct job *job, uint32_t place_in_list)
{
    const uint8_t states = (uint8_t)(place_in_list / MOST_WORLDS), worlds = (uint8_t)(1 + place_in_list % MOST_WORLDS);
    memset(job->gap, 0, sizeof job->gap);
    set_numbers(job, (struct job_numbers){2, worlds, MOST_RESULTS, MOST_RESULTS, states, .last_end = 0});
}

static void make_crowded(struct job *job, uint32_t which)
{
    set_states_and_worlds(job, which);
    crowded_job(job);
}

static void make_counting(struct job *job, uint32_t which)
{
    set_states_and_worlds(job, 2 * MOST_WORLDS + which);
    counting_job(job, NONE);
}

static void make_numbered_job(struct job *job, uint32_t number)
{
    uint32_t large = number - FIRST_LARGE;
    if (number >= FIRST_RULES)
        bench_line(job, BENCH_G); /* which no rules file is tried with */
    else if (number >= FIRST_LARGE)
        sized_job(job, large % SIZED_JOBS, FULL + large / SIZED_JOBS);
    else if (number >= FIRST_COUNTING)
        make_counting(job, number - FIRST_COUNTING);
    else if (number >= FIRST_CROWDED)
        make_crowded(job, number - FIRST_CROWDED);
    else if (number >= FIRST_RIVALS)
        known_rivals(job, (number - FIRST_RIVALS) / 2, (number - FIRST_RIVALS) % 2);
    else if (number >= FIRST_ENDS && number < FIRST_SIZE)
        three_ends_job(job);
    else
        bench_line(job, number >= FIRST_BENCH ? number - FIRST_BENCH : BENCH_G);
}

static void make_numbered(struct trial *trial, uint32_t number)
{
    make_numbered_job(&trial->job, number);
    write_file(&trial->file, &trial->job, &trial->random);
    if (number < FIRST_ENDS)
        trial->file.bytes[number / 256] = (uint8_t)number;
    else if (number < FIRST_SIZE)
        trial->file.bytes[(number - FIRST_ENDS) / 256] = (uint8_t)number;
    else if (number < FIRST_BENCH)
        resize_bench(trial, number - FIRST_SIZE);
}

void make_trial(struct trial *trial, uint32_t number)
{
    trial->random.state = (uint64_t)number << 32;
    trial->due = 0;
    trial->sound = number >= FIRST_BENCH;
    if (number >= FIRST_RANDOM)
        make_random(trial);
    else
        make_numbered(trial, number);
}
