# check and check-up-to.

# ---- check ----

expect 0 "walk.job: $accepted" '' check walk.job
expect 0 "bench_g.job: $accepted" '' check bench_g.job
expect 0 "three_ends.job: $accepted" '' check three_ends.job
expect 0 "longest.job: $accepted" '' check longest.job
expect 0 "two words.job: $accepted" '' check 'two words.job'
expect 0 "-: $accepted" '' check - < walk.job

expect 1 "fails_1_not_legal.job: fails 1 (action not legal) from start 0 on a line of 1 lamp: 1, end kind 0" '' \
    check fails_1_not_legal.job
expect 1 "fails_2_no_branch.job: fails 2 (no branch for the result) from start 0 on a line of 0 lamps, end kind 0" '' \
    check fails_2_no_branch.job
expect 1 "fails_3_circles.job: fails 3 (circles) from start 0 on a line of 1 lamp: 1, end kind 0" '' check fails_3_circles.job
goal_false="fails_4_goal_false.job: fails 4 (goal false at the plan's end) from start 0 on a line of 2 lamps: 1 1, end kind 0"
expect 1 "$goal_false" '' check fails_4_goal_false.job
expect 1 "g_left_faulty.job: fails 4 (goal false at the plan's end) from start 0 on a line of 1 lamp: 2, end kind 0" '' \
    check g_left_faulty.job
expect 1 "three_ends_no_fuse_box.job: fails 2 (no branch for the result) from start 0 on a line of 0 lamps, end kind 2" '' \
    check three_ends_no_fuse_box.job
expect 1 "street_start_2.job: fails 4 (goal false at the plan's end) from start 2 on a line of 0 lamps, end kind 0" '' \
    check street_start_2.job
expect 1 "three_ends_fuse_set.job: fails 1 (action not legal) from start 2 on a line of 0 lamps, end kind 1" '' \
    check three_ends_fuse_set.job

kinds=$(sed 's/^fails 4 0 3585 \(.*\) 0$/\1/' fails_from_3585_lamps.line)
long_failure="fails_from_3585_lamps.job: fails 4 (goal false at the plan's end) from start 0 on a line of 3585 lamps: $kinds, \
end kind 0"
expect 1 "$long_failure" '' check fails_from_3585_lamps.job

refused='refused_01_file_size.job refused_02_numbers.job refused_03_part_place.job refused_04_part_length.job refused_05_marks.job
    refused_06_cells.job refused_07_end_cells.job refused_08_starts.job refused_09_goal.job refused_10_actions.job
    refused_11_targets.job'
# The names are several words.
# shellcheck disable=SC2086
for command in check 'check-up-to 0'; do
    expect 1 "refused_01_file_size.job: $refused_1
refused_02_numbers.job: $refused_2
refused_03_part_place.job: $refused_3
refused_04_part_length.job: $refused_4
refused_05_marks.job: $refused_5
refused_06_cells.job: $refused_6
refused_07_end_cells.job: $refused_7
refused_08_starts.job: $refused_8
refused_09_goal.job: $refused_9
refused_10_actions.job: $refused_10
refused_11_targets.job: $refused_11" '' $command $refused
done
expect 1 "g_not_legal_to_1.job: $refused_6" '' check g_not_legal_to_1.job
expect 1 "bytes_27.job: $refused_1" '' check bytes_27.job
expect 1 "bytes_28.job: $refused_3" '' check bytes_28.job
expect 1 "-: $refused_1" '' check -

# Of several files each is answered, and the worst decides the status.
expect 0 "walk.job: $accepted
bench_g.job: $accepted
walk.job: $accepted" '' check walk.job bench_g.job walk.job
expect 1 "fails_3_circles.job: fails 3 (circles) from start 0 on a line of 1 lamp: 1, end kind 0
walk.job: $accepted" '' check fails_3_circles.job walk.job
expect 1 "walk.job: $accepted
refused_05_marks.job: $refused_5" '' check walk.job refused_05_marks.job
expect 2 "walk.job: $accepted
refused_05_marks.job: $refused_5
bench_g.job: $accepted" 'missing.job: No such file or directory
folder: Is a directory' check walk.job missing.job refused_05_marks.job folder bench_g.job

# ---- check-up-to ----

expect 0 "fails_4_goal_false.job: none up to 0 lamps ($right)" '' check-up-to 0 fails_4_goal_false.job
expect 0 "fails_4_goal_false.job: none up to 1 lamp ($right)" '' check-up-to 1 fails_4_goal_false.job
for longest in 2 3 65535; do
    expect 1 "$goal_false" '' check-up-to $longest fails_4_goal_false.job
done
expect 1 "fails_2_no_branch.job: fails 2 (no branch for the result) from start 0 on a line of 0 lamps, end kind 0" '' \
    check-up-to 0 fails_2_no_branch.job
expect 0 "fails_from_3585_lamps.job: none up to 3584 lamps ($right)" '' check-up-to 3584 fails_from_3585_lamps.job
expect 1 "$long_failure" '' check-up-to 3585 fails_from_3585_lamps.job
expect 0 "walk.job: none up to 65535 lamps ($right)" '' check-up-to 65535 walk.job
expect 0 "-: none up to 7 lamps ($right)" '' check-up-to 7 - < walk.job
expect 1 "walk.job: none up to 1 lamp ($right)
fails_3_circles.job: fails 3 (circles) from start 0 on a line of 1 lamp: 1, end kind 0" '' \
    check-up-to 1 walk.job fails_3_circles.job
expect 2 "walk.job: none up to 1 lamp ($right)" 'missing.job: No such file or directory' check-up-to 1 missing.job walk.job
