# --steps. Lampline also complains where its steps and the library's run end differently; no input is known to bring that about.

expect 0 "bench_g.job: goal after 8 steps
    step 1 at lamp 1 of 2 (kind 1), state 0, world 0: action 0, result 1; to state 1, world 0
    step 2 at lamp 1 of 2 (kind 1), state 1, world 0: action 1, result 0; to state 3, world 0
    step 3 at lamp 1 of 2 (kind 1), state 3, world 0: action 2, result 0; moves on, to state 0, world 0
    step 4 at lamp 2 of 2 (kind 2), state 0, world 0: action 0, result 1; to state 1, world 0
    step 5 at lamp 2 of 2 (kind 2), state 1, world 0: action 1, result 1; to state 2, world 0
    step 6 at lamp 2 of 2 (kind 2), state 2, world 0: action 3, result 0; to state 3, world 1
    step 7 at lamp 2 of 2 (kind 2), state 3, world 1: action 2, result 0; moves on, to state 0, world 0
    step 8 at the line's end (kind 0), state 0, world 0: action 0, result 0; to state 4, world 0
    at the line's end (kind 0), state 4, world 0: the plan's end, and the goal is true" '' run bench_g.job 0 --steps 1 2
expect 0 "three_ends.job: goal after 4 steps
    step 1 at lamp 1 of 1 (kind 2), state 0, world 0: action 0, result 3; to state 1, world 0
    step 2 at lamp 1 of 1 (kind 2), state 1, world 0: action 1, result 0; moves on, to state 0, world 0
    step 3 at the line's end (kind 2), state 0, world 0: action 0, result 2; to state 3, world 0
    step 4 at the line's end (kind 2), state 3, world 0: action 3, result 0; to state 4, world 2
    at the line's end (kind 2), state 4, world 2: the plan's end, and the goal is true" '' run --steps --end 2 three_ends.job 0 2

# Nothing is to be shown of a plan that is accepted or refused.
expect 1 "walk.job: $accepted
refused_05_marks.job: $refused_5" '' check --steps walk.job refused_05_marks.job
expect 0 "walk.job: none up to 3 lamps ($right)" '' check-up-to --steps 3 walk.job

# The four failures, one after the other.
failing_steps="fails_1_not_legal.job: fails 1 (action not legal) from start 0 on a line of 1 lamp: 1, end kind 0
    step 1 at lamp 1 of 1 (kind 1), state 0, world 0: action 0, result 1; to state 1, world 0
    step 2 at lamp 1 of 1 (kind 1), state 1, world 0: action 1, result 0; moves on, to state 1, world 0
    at the line's end (kind 0), state 1, world 0: action 1 is not legal
fails_2_no_branch.job: fails 2 (no branch for the result) from start 0 on a line of 0 lamps, end kind 0
    at the line's end (kind 0), state 0, world 0: action 0, result 0, for which the plan has no branch
fails_3_circles.job: fails 3 (circles) from start 0 on a line of 1 lamp: 1, end kind 0
    step 1 at lamp 1 of 1 (kind 1), state 0, world 0: action 0, result 1; to state 0, world 0
    at lamp 1 of 1 (kind 1), state 0, world 0: as before step 1, so the plan goes round for ever
fails_4_goal_false.job: fails 4 (goal false at the plan's end) from start 0 on a line of 2 lamps: 1 1, end kind 0
    step 1 at lamp 1 of 2 (kind 1), state 0, world 0: action 0, result 1; to state 1, world 0
    step 2 at lamp 1 of 2 (kind 1), state 1, world 0: action 1, result 0; moves on, to state 2, world 0
    at lamp 2 of 2 (kind 1), state 2, world 0: the plan's end, and the goal is false"
set -- fails_1_not_legal.job fails_2_no_branch.job fails_3_circles.job fails_4_goal_false.job
expect 1 "$failing_steps" '' check --steps "$@"
expect 1 "$failing_steps" '' check-up-to 2 "$@" --steps
expect 1 "three_ends_fuse_set.job: fails 1 (action not legal) from start 2 on a line of 0 lamps, end kind 1
    step 1 at the line's end (kind 1), state 0, world 2: action 0, result 1; to state 2, world 2
    at the line's end (kind 1), state 2, world 2: action 2 is not legal" '' check --steps three_ends_fuse_set.job

# Circles that do not begin with the first step, one at a lamp and one at the end; and another world state, which is no circle.
expect 1 "g_tests_on.job: fails 3 (circles) after 15 steps
    step 1 at lamp 1 of 2 (kind 1), state 0, world 0: action 0, result 1; to state 1, world 0
    step 2 at lamp 1 of 2 (kind 1), state 1, world 0: action 1, result 0; to state 3, world 0
    step 3 at lamp 1 of 2 (kind 1), state 3, world 0: action 2, result 0; moves on, to state 0, world 0
    step 4 at lamp 2 of 2 (kind 2), state 0, world 0: action 0, result 1; to state 1, world 0
    step 5 at lamp 2 of 2 (kind 2), state 1, world 0: action 1, result 1; to state 1, world 0
    at lamp 2 of 2 (kind 2), state 1, world 0: as before step 5, so the plan goes round for ever" '' \
    run --steps g_tests_on.job 0 1 2
expect 1 "g_circles_at_end.job: fails 3 (circles) after 15 steps
    step 1 at lamp 1 of 1 (kind 1), state 0, world 0: action 0, result 1; to state 1, world 0
    step 2 at lamp 1 of 1 (kind 1), state 1, world 0: action 1, result 0; to state 3, world 0
    step 3 at lamp 1 of 1 (kind 1), state 3, world 0: action 2, result 0; moves on, to state 0, world 0
    step 4 at the line's end (kind 0), state 0, world 0: action 0, result 0; to state 0, world 0
    at the line's end (kind 0), state 0, world 0: as before step 4, so the plan goes round for ever" '' \
    run --steps g_circles_at_end.job 0 1
expect 1 "g_flags_twice.job: fails 1 (action not legal) from start 0 on a line of 1 lamp: 2, end kind 0
    step 1 at lamp 1 of 1 (kind 2), state 0, world 0: action 0, result 1; to state 1, world 0
    step 2 at lamp 1 of 1 (kind 2), state 1, world 0: action 1, result 1; to state 2, world 0
    step 3 at lamp 1 of 1 (kind 2), state 2, world 0: action 3, result 0; to state 2, world 1
    at lamp 1 of 1 (kind 2), state 2, world 1: action 3 is not legal" '' check --steps g_flags_twice.job

# A limit: one too few, 0, just enough, and one that stops a circle before and after it is seen.
expect 1 "walk.job: stopped 2 (the limit of steps; the run would go on)
    step 1 at lamp 1 of 1 (kind 1), state 0, world 0: action 0, result 1; to state 1, world 0
    step 2 at lamp 1 of 1 (kind 1), state 1, world 0: action 1, result 0; moves on, to state 0, world 0
    at the line's end (kind 0), state 0, world 0: the limit" '' run walk.job 0 --steps --limit 2 1
expect 1 "walk.job: stopped 0 (the limit of steps; the run would go on)
    at lamp 1 of 1 (kind 1), state 0, world 0: the limit" '' run walk.job 0 --steps --limit 0 1
expect 0 "walk.job: goal after 1 step
    step 1 at the line's end (kind 0), state 0, world 0: action 0, result 0; to state 2, world 0
    at the line's end (kind 0), state 2, world 0: the plan's end, and the goal is true" '' run walk.job 0 --steps --limit 1
expect 1 "fails_1_not_legal.job: fails 1 (action not legal) after 2 steps
    step 1 at lamp 1 of 1 (kind 1), state 0, world 0: action 0, result 1; to state 1, world 0
    step 2 at lamp 1 of 1 (kind 1), state 1, world 0: action 1, result 0; moves on, to state 1, world 0
    at the line's end (kind 0), state 1, world 0: action 1 is not legal" '' run fails_1_not_legal.job 0 --steps --limit 2 1
expect 1 "fails_2_no_branch.job: fails 2 (no branch for the result) after 0 steps
    at the line's end (kind 0), state 0, world 0: action 0, result 0, for which the plan has no branch" '' \
    run fails_2_no_branch.job 0 --steps --limit 0
expect 1 "g_tests_on.job: stopped 1 (the limit of steps; the run would go on)
    step 1 at lamp 1 of 1 (kind 2), state 0, world 0: action 0, result 1; to state 1, world 0
    at lamp 1 of 1 (kind 2), state 1, world 0: the limit" '' run g_tests_on.job 0 --steps --limit 1 2
expect 1 "g_tests_on.job: stopped 2 (the limit of steps; the run would go on)
    step 1 at lamp 1 of 1 (kind 2), state 0, world 0: action 0, result 1; to state 1, world 0
    step 2 at lamp 1 of 1 (kind 2), state 1, world 0: action 1, result 1; to state 1, world 0
    at lamp 1 of 1 (kind 2), state 1, world 0: as before step 2, so the plan goes round for ever" '' \
    run g_tests_on.job 0 --steps --limit 2 2
# shellcheck disable=SC2046
expect 1 "walk.job: stopped 1 (the limit of steps; the run would go on)
    step 1 at lamp 1 of 65535 (kind 1), state 0, world 0: action 0, result 1; to state 1, world 0
    at lamp 1 of 65535 (kind 1), state 1, world 0: the limit" '' run walk.job 0 --steps --limit 1 $(lamps 65535)

# The meter of samples/make: two steps at each of 3,584 lamps, a look for the kind that is there and going past.
{
    lines "$long_failure"
    awk 'BEGIN {
        for (lamp = 0; lamp < 3584; lamp++) {
            world = lamp % 64
            look = int(lamp / 64) % 7
            group = 8 * int(lamp / 448)
            result = world < 63 ? look : look + 1
            after = result < 7 ? group + result : group + 8
            step = "    step %d at lamp %d of 3585 (kind %d), state %d, world %d: action %d, result %d; %sto state %d, world %d\n"
            printf step, 2 * lamp + 1, lamp + 1, look + 1, group + look, world, look, 1, "", group + 7, world
            printf step, 2 * lamp + 2, lamp + 1, look + 1, group + 7, world, 7, result, "moves on, ", after, (world + 1) % 64
        }
    }'
    lines "    at lamp 3585 of 3585 (kind 1), state 64, world 0: the plan's end, and the goal is false"
} > meter_steps
expect_file 1 meter_steps '' check --steps fails_from_3585_lamps.job
