#include "arguments.h"

uint8_t marked_start(const struct job *job, struct random *random)
{
    uint8_t world = (uint8_t)below(random, job->worlds);
    while (!job->starts[world])
        world = (uint8_t)((world + 1) % job->worlds);
    return world;
}

uint8_t choose_end(const struct job *job, struct random *random)
{
    return job->last_end == 0 ? 0 : (uint8_t)below(random, ends_of(job));
}

void choose_kinds(const struct job *job, struct random *random, uint8_t *line, size_t lamps)
{
    uint8_t kind = (uint8_t)(1 + below(random, job->kinds));
    bool mixed = !one_in(random, 4);
    for (size_t i = 0; i < lamps; i++)
        line[i] = mixed ? (uint8_t)(1 + below(random, job->kinds)) : kind;
}

struct sizes enough(const struct job *job)
{
    size_t pairs = (job->states + 1u) * job->worlds;
    return (struct sizes){(size_t)job->states * job->worlds + 1, pairs, (pairs + 63) / 64};
}
