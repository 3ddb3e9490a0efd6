# read, replay and cells.

# ---- read ----

walk_read="walk.job: read
    47 bytes
    A 2 (actions), W 1 (world states), C 1 (lamp kinds), \
R 2 (results), S 2 (program states before the final one), first state 0, E 1 (end kinds)
    marks  at    28,     2 bytes
    cells  at    30,     8 bytes
    starts at    38,     1 byte
    goal   at    39,     2 bytes
    plan   at    41,     6 bytes
    starts marked: 0"
three_ends_read="three_ends_fuse_set.job: read
    190 bytes
    A 4 (actions), W 3 (world states), C 2 (lamp kinds), \
R 4 (results), S 4 (program states before the final one), first state 0, E 3 (end kinds)
    marks  at    28,     4 bytes
    cells  at    32,   120 bytes
    starts at   152,     3 bytes
    goal   at   155,    15 bytes
    plan   at   170,    20 bytes
    starts marked: 2"
expect 0 "$walk_read" '' read walk.job
expect 0 "$three_ends_read" '' read three_ends_fuse_set.job
expect 0 "$walk_read
$three_ends_read" '' read walk.job three_ends_fuse_set.job
expect 0 "street_three_starts.job: read
    131 bytes
    A 3 (actions), W 4 (world states), C 2 (lamp kinds), \
R 3 (results), S 3 (program states before the final one), first state 0, E 1 (end kinds)
    marks  at    28,     3 bytes
    cells  at    31,    72 bytes
    starts at   103,     4 bytes
    goal   at   107,    12 bytes
    plan   at   119,    12 bytes
    starts marked: 0 2 3" '' read street_three_starts.job
expect 0 "-: read
    9380 bytes
    A 8 (actions), W 64 (world states), C 7 (lamp kinds), \
R 8 (results), S 64 (program states before the final one), first state 0, E 1 (end kinds)
    marks  at    28,     8 bytes
    cells  at    36,  8192 bytes
    starts at  8228,    64 bytes
    goal   at  8292,   512 bytes
    plan   at  8804,   576 bytes
    starts marked: 0" '' read - < fails_from_3585_lamps.job
expect 0 "g_first_4.job: read
    128 bytes
    A 4 (actions), W 3 (world states), C 2 (lamp kinds), \
R 2 (results), S 4 (program states before the final one), first state 4, E 1 (end kinds)
    marks  at    28,     4 bytes
    cells  at    32,    72 bytes
    starts at   104,     3 bytes
    goal   at   107,     9 bytes
    plan   at   116,    12 bytes
    starts marked: 0" '' read g_first_4.job

# Of a file that is refused what stands in it, with the lengths that are due.
walk_numbers='A 2 (actions), W 1 (world states), C 1 (lamp kinds), R 2 (results), S 2 (program states before the final one)'
walk_parts='    marks  at    28,     2 bytes
    cells  at    30,     8 bytes
    starts at    38,     1 byte
    goal   at    39,     2 bytes
    plan   at    41,     6 bytes'
change walk_byte_7 walk 7 9
expect 2 "$walk_read
refused_05_marks.job: $refused_5
    47 bytes
    $walk_numbers, first state 0, E 1 (end kinds)
$walk_parts" 'missing.job: No such file or directory' read missing.job walk.job refused_05_marks.job
expect 1 "refused_01_file_size.job: $refused_1
    8 bytes
/dev/null: $refused_1
    0 bytes
walk_byte_7.job: $refused_2
    47 bytes
    $walk_numbers, first state 0, E 1 (end kinds)
    byte 7 is 9, and has to be 0
$walk_parts
refused_03_part_place.job: $refused_3
    47 bytes
    $walk_numbers, first state 0, E 1 (end kinds)
    marks  at  7168,   512 bytes, and 2 due
    cells  at  7680,  2048 bytes, and 8 due
    starts at  9728,   256 bytes, and 1 due
    goal   at  9984,   512 bytes, and 2 due
    plan   at 10496,  1536 bytes, and 6 due
refused_04_part_length.job: $refused_4
    47 bytes
    $walk_numbers, first state 0, E 2 (end kinds)
    marks  at    28,     2 bytes
    cells  at    30,     8 bytes, and 12 due
    starts at    38,     1 byte
    goal   at    39,     2 bytes, and 3 due
    plan   at    41,     6 bytes" '' \
    read refused_01_file_size.job /dev/null walk_byte_7.job refused_03_part_place.job refused_04_part_length.job
expect 1 "bytes_28.job: $refused_3
    28 bytes
    $walk_numbers, first state 0, E 1 (end kinds)
$walk_parts" '' read bytes_28.job
for refusal in 02_numbers 06_cells 07_end_cells 08_starts 09_goal 10_actions 11_targets; do
    status=0
    "$lampline" read "refused_$refusal.job" > output || status=$?
    calls=$((calls + 1))
    number=${refusal%%_*}
    case "$status $(head -n 1 output)" in
        "1 refused_$refusal.job: refused ${number#0} ("*) ;;
        *) differs "lampline read refused_$refusal.job" ;;
    esac
done

# ---- replay ----

: > empty.log
bytes 0 1 > entry.log
cp "$root/samples/bench_g.log" whole.log             # one sound lamp
bytes 0 1 2 1 0 0 > other_action.log              # next instead of test
bytes 0 0 1 0 > after_end.log
bytes 1 0 > other_first.log
bytes 0 1 1 > odd.log
bytes 0 1 4 0 > no_action.log
bytes 0 2 > no_result.log
awk 'BEGIN { for (i = 0; i < 32767; i++) printf "%s", "p1" }' | tr p1 '\000\001' > longest.log
{ cat longest.log && bytes 0; } > one_too_long.log
{ cat longest.log && bytes 0 1; } > two_too_long.log
no_line_gives='no start and line give the log up to and with it'
no_entry='refused 21 (an action or a result that the job does not have)'

expect 0 'empty.log: possible (some start and line give its 0 entries)' '' replay bench_g.job empty.log
expect 0 'entry.log: possible (some start and line give its 1 entry)' '' replay bench_g.job entry.log
expect 0 'whole.log: possible (some start and line give its 4 entries)' '' replay bench_g.job whole.log
expect 0 'longest.log: possible (some start and line give its 32767 entries)' '' replay g_circles.job longest.log
expect 1 "other_action.log: impossible at entry 1, counted from 0 (action 2, result 1): $no_line_gives" '' \
    replay bench_g.job other_action.log
expect 1 "after_end.log: impossible at entry 1, counted from 0 (action 1, result 0): $no_line_gives" '' \
    replay bench_g.job after_end.log
expect 1 "other_first.log: impossible at entry 0, counted from 0 (action 1, result 0): $no_line_gives" '' \
    replay bench_g.job other_first.log
expect 1 'odd.log: refused 20 (an odd number of bytes, or more than 65,534)' '' replay bench_g.job odd.log
expect 1 "no_action.log: $no_entry" '' replay bench_g.job no_action.log
expect 1 "no_result.log: $no_entry" '' replay bench_g.job no_result.log
expect 1 "refused_11_targets.job: $refused_11" '' replay refused_11_targets.job odd.log
expect 0 '-: possible (some start and line give its 4 entries)' '' replay bench_g.job - < whole.log
expect 0 'whole.log: possible (some start and line give its 4 entries)' '' replay - whole.log < bench_g.job
expect 1 "-: $refused_1" '' replay - whole.log
for log in one_too_long.log two_too_long.log; do
    complains "$log: too long for a log, which has at most 65534 bytes" replay g_circles.job $log
done
complains '-: too long for a log, which has at most 65534 bytes' replay g_circles.job - < one_too_long.log
complains 'missing.log: No such file or directory' replay bench_g.job missing.log
complains 'missing.job: No such file or directory' replay missing.job missing.log

# ---- cells ----

# The street's are in its job. Of two end kinds and one lamp kind, column 2 is the lamp's: a rule for any lamp.
tail -c +32 street.job | head -c 72 > street.cells
bytes 1 1 1 2 254 255 255 > lamp.rules
bytes 0 255 0 255 0 255 0 255 0 255 0 2 > lamp.cells
bytes 6 2 2 2 2 2 2 > none.rules
awk 'BEGIN { for (i = 0; i < 16384; i++) printf "%s", "pn" }' | tr pn '\000\377' > largest.cells
bytes 1 1 0 > cut.rules
head -c 16777216 /dev/zero > longest.rules
{ cat longest.rules && bytes 0; } > too_long.rules
no_rules='refused 22 (a number out of its range, or rules that are wrong or cut short)'

expect_file 0 street.cells '' cells street.rules 3 4 2 3 1
expect_file 0 street.cells '' cells - 3 4 2 3 1 < street.rules
expect_file 0 lamp.cells '' cells lamp.rules 2 1 1 3 2
expect_file 0 largest.cells '' cells none.rules 16 64 15 8 1
expect 1 '' "street.rules: $no_rules" cells street.rules 3 4 2 2 1
expect 1 '' "street.rules: $no_rules" cells street.rules 2 4 2 3 1
expect 1 '' "street.rules: $no_rules" cells street.rules 3 5 2 3 1
expect 1 '' "none.rules: $no_rules" cells none.rules 16 64 15 8 2
expect 1 '' "none.rules: $no_rules" cells none.rules 17 64 15 8 1
expect 1 '' "none.rules: $no_rules" cells none.rules 0 64 15 8 1
expect 1 '' "none.rules: $no_rules" cells none.rules 255 255 255 255 255
expect 1 '' "cut.rules: $no_rules" cells cut.rules 1 1 1 1 1
expect 1 '' "-: $no_rules" cells - 1 1 1 1 1
expect 1 '' "longest.rules: $no_rules" cells longest.rules 1 1 1 1 1
complains 'too_long.rules: too long for a rules file of this program, which has at most 16777216 bytes' \
    cells too_long.rules 1 1 1 1 1
complains 'missing.rules: No such file or directory' cells missing.rules 1 1 1 1 1
rm longest.rules too_long.rules
