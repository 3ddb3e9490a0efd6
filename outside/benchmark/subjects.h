/*
 * What is measured: a job, with what the measured calls are handed; or words to be summed, or a rules file, and no job.
 */
#ifndef OUTSIDE_SUBJECTS_H
#define OUTSIDE_SUBJECTS_H

#include "job_files/families.h"
#include "job_files/logs.h"
#include "job_files/random_rules.h"

enum { RUN_LAMPS = 1000, NAME_BYTES = 40 };

struct subject {
    char name[NAME_BYTES];
    struct job job;
    struct file file;
    uint8_t start, line[RUN_LAMPS], end, result;
    uint16_t longest;
    size_t lamps;
    struct log log;
    const uint64_t *words;
    size_t words_size, bits;
    const struct rules *rules;
};

/* Each makes the subject anew, with an empty log and 0 lamps to check up to. */
void bench_subject(struct subject *subject, const char *name, enum bench_variant variant);
void example_subject(struct subject *subject);
void sized_subject(struct subject *subject, enum sized_job which, enum size size);
void steps_subject(struct subject *subject);

/* Of the largest numbers but these; its walks are long, or it has many pairs. */
enum growing { LONG_WALKS, MANY_PAIRS, GROWING };
extern const char *const growing_names[GROWING];
void growing_subject(struct subject *subject, enum growing growing, uint8_t worlds, uint8_t states, uint8_t kinds);

/* Words of random content, at most SUBJECT_WORDS, of which this many bits are summed. There is no job. */
enum { SUBJECT_WORDS = 65536 };
void words_subject(struct subject *subject, size_t words_size, size_t bits);

/* A known rules file; and one of this many rules for the longest part there is, each about one cell or about all of an action's. */
void known_rules_subject(struct subject *subject, const char *name, enum known_rules which);
void rules_subject(struct subject *subject, uint32_t fluents, size_t count, bool particular);

/* Makes its log anew: an execution that goes on as far as it can, with this number of entries at most. */
void take_log(struct subject *subject, size_t most);

#endif
