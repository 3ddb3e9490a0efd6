# run and walk.

# ---- run ----

# Document 01's cases of bench line G.
expect 0 'bench_g.job: goal after 1 step' '' run bench_g.job 0
expect 0 'bench_g.job: goal after 4 steps' '' run bench_g.job 0 1
expect 0 'bench_g.job: goal after 5 steps' '' run bench_g.job 0 2
expect 0 'bench_g.job: goal after 8 steps' '' run bench_g.job 0 1 2
expect 1 "g_left_faulty.job: fails 4 (goal false at the plan's end) after 4 steps" '' run g_left_faulty.job 0 2
expect 1 'g_circles.job: fails 3 (circles) after 12 steps' '' run g_circles.job 0 1
expect 1 'g_no_branch.job: fails 2 (no branch for the result) after 0 steps' '' run g_no_branch.job 0
expect 1 'g_first_1.job: fails 1 (action not legal) after 0 steps' '' run g_first_1.job 0
expect 0 '-: goal after 5 steps' '' run - 0 2 < bench_g.job

# The limit: none, enough, one too few, and 0.
expect 0 'bench_g.job: goal after 4 steps' '' run bench_g.job 0 --limit 4 1
expect 1 'bench_g.job: stopped 3 (the limit of steps; the run would go on)' '' run bench_g.job 0 --limit 3 1
expect 1 'bench_g.job: stopped 0 (the limit of steps; the run would go on)' '' run bench_g.job 0 --limit 0 1
expect 0 'g_first_4.job: goal after 0 steps' '' run g_first_4.job 0 --limit 0
expect 1 'g_circles.job: fails 3 (circles) after 12 steps' '' run g_circles.job 0 --limit 12 1
expect 1 'g_circles.job: stopped 11 (the limit of steps; the run would go on)' '' run g_circles.job 0 --limit 11 1
expect 0 'bench_g.job: goal after 4 steps' '' run bench_g.job 0 --limit 4294967295 1

# Options stand anywhere and with '=' too, and the last of several counts.
expect 1 'bench_g.job: stopped 3 (the limit of steps; the run would go on)' '' run --limit 3 bench_g.job 0 1
expect 1 'bench_g.job: stopped 3 (the limit of steps; the run would go on)' '' run bench_g.job 0 1 --limit=3
expect 1 'bench_g.job: stopped 2 (the limit of steps; the run would go on)' '' run bench_g.job --limit 9 0 --limit 2 1
expect 0 'bench_g.job: goal after 8 steps' '' run -- bench_g.job 0 1 2

# The end kinds of three ends: a cap needs nothing, a box one step more.
expect 0 'three_ends.job: goal after 1 step' '' run three_ends.job 0
expect 0 'three_ends.job: goal after 1 step' '' run three_ends.job 0 --end 0
expect 0 'three_ends.job: goal after 2 steps' '' run three_ends.job 0 --end 1
expect 0 'three_ends.job: goal after 6 steps' '' run three_ends.job 0 --end=2 1 2
expect 1 'three_ends_no_fuse_box.job: fails 2 (no branch for the result) after 4 steps' '' \
    run three_ends_no_fuse_box.job 0 --end 2 1 2
expect 0 'three_ends_no_fuse_box.job: goal after 6 steps' '' run three_ends_no_fuse_box.job 0 --end 1 2 1

# A start other than 0, refused starts, and lines that the job does not have.
no_start='refused 14 (not a start that the job marks)'
no_line='refused 15 (a lamp kind or an end kind that the job does not have, or over 65,535 lamps)'
expect 1 "street_start_2.job: fails 4 (goal false at the plan's end) after 1 step" '' run street_start_2.job 2
expect 1 "street_start_2.job: $no_start" '' run street_start_2.job 0
expect 1 "street_start_2.job: $no_start" '' run street_start_2.job 255 9
expect 1 "bench_g.job: $no_line" '' run bench_g.job 0 3
expect 1 "bench_g.job: $no_line" '' run bench_g.job 0 1 0
expect 1 "bench_g.job: $no_line" '' run bench_g.job 0 --end 1
expect 1 "three_ends.job: $no_line" '' run three_ends.job 0 --end 3 --steps
expect 1 "refused_07_end_cells.job: $refused_7" '' run refused_07_end_cells.job 0 1

# Lines of many lamps are as many words.
# shellcheck disable=SC2046
{
    expect 0 'walk.job: goal after 2001 steps' '' run walk.job 0 $(lamps 1000)
    expect 0 'walk.job: goal after 131071 steps' '' run walk.job 0 $(lamps 65535)
    expect 1 "walk.job: $no_line" '' run walk.job 0 $(lamps 65536)
    expect 1 "walk.job: $no_line" '' run walk.job 0 --steps $(lamps 65540)
}

# ---- walk ----

expect 0 'bench_g.job: goal after 1 step' '' walk bench_g.job 0 0 0
expect 0 'bench_g.job: goal after 0 steps' '' walk bench_g.job 4 0 0
expect 1 "bench_g.job: fails 4 (goal false at the plan's end) after 0 steps" '' walk bench_g.job 4 0 1
expect 0 'bench_g.job: moves on after 3 steps, with state 0 and world 0' '' walk bench_g.job 0 0 1
expect 0 'bench_g.job: moves on after 1 step, with state 0 and world 2' '' walk bench_g.job 3 1 1
expect 1 'bench_g.job: fails 1 (action not legal) after 2 steps' '' walk bench_g.job 0 1 2
expect 1 'g_no_branch.job: fails 2 (no branch for the result) after 0 steps' '' walk g_no_branch.job 0 0 0
expect 1 'g_circles.job: fails 3 (circles) after 12 steps' '' walk g_circles.job 0 0 2
expect 0 'three_ends.job: goal after 2 steps' '' walk three_ends.job 0 0 2
expect 0 'three_ends.job: moves on after 2 steps, with state 0 and world 1' '' walk three_ends.job 0 1 4
expect 0 '-: goal after 1 step' '' walk - 0 0 0 < bench_g.job
expect 1 'bench_g.job: refused 14 (no such world state)' '' walk bench_g.job 0 3 0
expect 1 'bench_g.job: refused 15 (no such column)' '' walk bench_g.job 0 0 3
expect 1 'bench_g.job: refused 16 (no such program state)' '' walk bench_g.job 5 0 0
expect 1 "refused_11_targets.job: $refused_11" '' walk refused_11_targets.job 0 0 0
