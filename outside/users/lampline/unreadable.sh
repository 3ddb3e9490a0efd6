# Files that cannot be read or are not regular ones, and output that cannot be written.

# ---- Files ----

# Standard input can be named once; after '--' a dash alone is still standard input, and one with more after it a file.
expect 2 "-: $accepted
bench_g.job: $accepted" '-: standard input can be read only once' check - - bench_g.job < walk.job
complains '-: standard input can be read only once' replay - - < walk.job
expect 0 "-: $accepted" '' check -- - < walk.job
expect 0 "-dash.job: $accepted" '' check -- -dash.job
expect 0 "./-dash.job: $accepted" '' check ./-dash.job
complains '--help: No such file or directory' check -- --help
complains '--: No such file or directory' check -- --

complains 'missing.job: No such file or directory' check missing.job
complains ': No such file or directory' check ''
complains 'folder: Is a directory' check folder
complains '-: Is a directory' check - < folder
complains '-: Bad file descriptor' check - <&-
complains 'walk.job/walk.job: Not a directory' run walk.job/walk.job 0
complains 'folder: Is a directory' walk folder 0 0 0
complains 'folder: Is a directory' read folder
complains 'folder: Is a directory' step folder 1
complains 'folder: Is a directory' replay walk.job folder
complains 'folder: Is a directory' cells folder 1 1 1 1 1
too_long='too long for a job file, which has at most 65535 bytes'
complains "too_long.job: $too_long" check too_long.job
complains "-: $too_long" check - < too_long.job
complains "too_long.job: $too_long" run too_long.job 0 1
expect 2 "walk.job: $accepted" "too_long.job: $too_long" check too_long.job walk.job

# Files that are not regular ones: none of them can be asked for its size.
mkfifo pipe
timeout 60 sh -c 'cat walk.job > pipe' &
expect 0 "pipe: $accepted" '' check pipe
expect 1 "/dev/null: $refused_1" '' check /dev/null
complains "/dev/zero: $too_long" check /dev/zero

cp walk.job unreadable.job
chmod 000 unreadable.job
if [ -r unreadable.job ]; then
    echo 'left out: a file without read permission, since this user may read every file'
else
    expect 2 "walk.job: $accepted" 'unreadable.job: Permission denied' check unreadable.job walk.job
fi

# A complaint stands after what was answered before it.
{
    lines "walk.job: $accepted"
    lines 'lampline: missing.job: No such file or directory'
    lines "bench_g.job: $accepted"
} > expected_lines
expected_status=2 expected_output=expected_lines status=0
: > expected_complaints
"$lampline" check walk.job missing.job bench_g.job > output 2>&1 || status=$?
: > complaints
compare 'answers and complaints in one file'

# ---- Output that cannot be written ----

# expect_unwritten COMPLAINTS ARGUMENT...: no answer, with standard output full and with standard output closed.
expect_unwritten() {
    expected_status=2 expected_output=/dev/null
    expect_complaints "$1"
    shift
    : > output
    if [ -c /dev/full ]; then
        status=0
        "$lampline" "$@" > /dev/full 2> complaints || status=$?
        compare "lampline $* > /dev/full"
    fi
    status=0
    "$lampline" "$@" >&- 2> complaints || status=$?
    compare "lampline $* >&-"
}

[ -c /dev/full ] || echo 'left out: a full standard output, since there is no /dev/full'
expect_unwritten 'standard output cannot be written' --help
expect_unwritten 'standard output cannot be written' --version
expect_unwritten 'standard output cannot be written' check walk.job
expect_unwritten 'standard output cannot be written' check fails_from_3585_lamps.job refused_05_marks.job
expect_unwritten 'standard output cannot be written' run bench_g.job 0 1
expect_unwritten 'standard output cannot be written' cells street.rules 3 4 2 3 1
expect_unwritten 'standard output cannot be written' step walk.job 1
expect_unwritten 'missing.job: No such file or directory
standard output cannot be written' check walk.job missing.job
expect_unwritten 'missing.job: No such file or directory' check missing.job
