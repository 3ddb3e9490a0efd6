#include "failures.h"

#include "execution.h"

const char *const rivalry_names[RIVALRIES] = {
    "an earlier line", "a lower end", "a lamp before an end", "its start, lamp and end 0", "its start, end 0 and lamp",
    "its start, same place",
};

static int compare_lines(const struct failure *one, const struct failure *other)
{
    int lamps = nessflurry_lamps_of(one->answer), others = nessflurry_lamps_of(other->answer);
    return lamps != others ? lamps - others : memcmp(one->line, other->line, (size_t)lamps);
}

bool comes_first(const struct failure *one, const struct failure *other)
{
    int lines = compare_lines(one, other), ends = nessflurry_end_of(one->answer) - nessflurry_end_of(other->answer);
    if (lines != 0 || ends != 0)
        return lines != 0 ? lines < 0 : ends < 0;
    return nessflurry_start_of(one->answer) < nessflurry_start_of(other->answer);
}

/* Where the plan circles it is left after as many steps as there can be at one lamp. */
static bool fails_at_lamp(const struct job *job, const struct failure *failure)
{
    struct execution at = begun(job, nessflurry_start_of(failure->answer), failure->line, nessflurry_lamps_of(failure->answer),
                                nessflurry_end_of(failure->answer));
    const uint32_t most = (uint32_t)job->states * job->worlds;
    for (uint32_t left = most; left > 0 && goes_on(&at);) {
        size_t passed = at.passed;
        take_step(&at);
        left = at.passed > passed ? most : left - 1;
    }
    return at.passed < at.lamps;
}

enum rivalry rivalry_of(const struct job *job, const struct failure *told, const struct failure *other)
{
    if (compare_lines(told, other) != 0)
        return EARLIER_LINE;
    bool at_lamp = fails_at_lamp(job, told), other_at_lamp = fails_at_lamp(job, other);
    if (nessflurry_end_of(told->answer) < nessflurry_end_of(other->answer))
        return at_lamp ? LAMP_BEFORE_END : LOWER_END;
    if (at_lamp == other_at_lamp)
        return SAME_PLACE;
    return at_lamp ? LAMP_AND_END_0 : END_0_AND_LAMP;
}
