#include "check_answers.h"

#include <stdbool.h>

static bool has_failed(uint64_t answer)
{
    uint8_t code = nessflurry_code_of(answer);
    return code >= NESSFLURRY_NOT_LEGAL && code <= NESSFLURRY_GOAL_FALSE;
}

uint32_t lamps_written(uint64_t answer) { return has_failed(answer) ? nessflurry_lamps_of(answer) : 0; }

uint64_t due_up_to(uint16_t longest, uint64_t full)
{
    bool refused = nessflurry_code_of(full) == NESSFLURRY_REFUSED;
    bool fails_within = has_failed(full) && nessflurry_lamps_of(full) <= longest;
    return refused || fails_within ? full : (uint64_t)NESSFLURRY_NONE_UP_TO << 8 | (uint64_t)longest << 32;
}
