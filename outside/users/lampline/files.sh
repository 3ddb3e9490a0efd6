# The jobs and other files with which lampline is called, and words that many answers have.

# bytes NUMBER...: a byte for each number.
bytes() {
    for number in "$@"; do
        printf '%b' "\\0$((number / 64))$((number / 8 % 8))$((number % 8))"
    done
}

# change NAME FROM PLACE NUMBER...: NAME.job is FROM.job with these bytes from that place on.
change() {
    name=$1 from=$2 place=$3
    shift 3
    { head -c "$place" "$from.job" && bytes "$@" && tail -c +$((place + $# + 1)) "$from.job"; } > "$name.job"
}

# lamps NUMBER: as many lamps of kind 1.
lamps() { awk -v lamps="$1" 'BEGIN { while (lamps-- > 0) printf " 1" }'; }

# Bench line G with document 01's changes. Its plan is at byte 116, with three bytes for a state: 0 peek, 1 test, 2 flag, 3 next.
change g_left_faulty bench_g 121 3  # state 1: on from a faulty lamp as from a sound one
change g_circles bench_g 118 0      # state 0: at a lamp again to 0
change g_no_branch bench_g 117 255  # state 0: no branch at the end
change g_first_4 bench_g 5 4        # begins in the final state
change g_first_1 bench_g 5 1        # begins with test
# And with others.
change g_tests_on bench_g 121 1     # state 1: at a faulty lamp again to 1, so it circles from its second step at the lamp on
change g_circles_at_end bench_g 117 0
change g_flags_twice bench_g 123 2  # state 2: again to 2, where the world state is another

# The street from other starts, which stand at byte 103. In world states 2 and 3 a lamp was left dark before.
change street_start_2 street 103 0 0 1 0
change street_three_starts street 103 1 0 1 1

# The three ends from a set fuse: the starts at byte 152, and after them the goal, which a set fuse has at a cap too.
change three_ends_fuse_set three_ends 152 0 0 1   1 0 0 0 0   0 1 0 0 0   1 0 1 0 0

# One cell of bench line G, next in world state 0 at the end, is not legal and yet has a next world state that the job has.
change g_not_legal_to_1 bench_g 68 1

{ cat walk.job && head -c $((65535 - 47)) /dev/zero; } > longest.job
{ cat longest.job && bytes 0; } > too_long.job
head -c 27 walk.job > bytes_27.job
head -c 28 walk.job > bytes_28.job
cp walk.job ./-dash.job
cp walk.job 'two words.job'
mkdir folder

accepted='accepted 1 (the plan is right on every line; pairs reached: 1)'
right='right on each of these lines; longer ones are not looked at'

# The refusals of a job file. One that is too long is not handed over, so 1 is given to those that are too short.
refused_1='refused 1 (fewer than 28 or more than 65,535 bytes)'
refused_2='refused 2 (one of the first eight bytes is out of its range)'
refused_3='refused 3 (a part is out of place)'
refused_4='refused 4 (a part has a wrong length)'
refused_5='refused 5 (a mark is neither 0 nor 1)'
refused_6="refused 6 (a cell has a world state or a result that the job does not have, \
or is not legal with a next world state other than 0)"
refused_7="refused 7 (an action that moves on is legal at a line's end)"
refused_8='refused 8 (a byte of the starts is neither 0 nor 1, or no start is marked)'
refused_9='refused 9 (a byte of the goal is neither 0 nor 1)'
refused_10='refused 10 (the plan has an action that the job does not have)'
refused_11='refused 11 (the plan has a target that is no program state)'
