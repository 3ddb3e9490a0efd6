# How a call of lampline is compared with what it should do.

calls=0 differences=0

# differs WHAT, which may be a line of many lamps.
differs() {
    differences=$((differences + 1))
    printf '%.200s: not as expected\n' "$1"
}

# lines TEXT: the text and a newline, or nothing at all.
lines() { [ -z "$1" ] || printf '%s\n' "$1"; }

# expect_complaints COMPLAINTS: lampline puts its name before each line.
expect_complaints() { lines "$1" | sed 's/^/lampline: /' > expected_complaints; }

# compare WHAT: the status, the file output and the file complaints with those expected.
compare() {
    calls=$((calls + 1))
    [ "$status" -eq "$expected_status" ] && cmp -s "$expected_output" output && cmp -s expected_complaints complaints && return
    differs "$1"
    echo "    status $status, expected $expected_status"
    diff "$expected_output" output || true
    diff expected_complaints complaints || true
}

# expect_file STATUS FILE COMPLAINTS ARGUMENT...: lampline with these arguments ends with this status, prints what is in the file,
# and complains in these lines. What the function has on standard input is lampline's.
expect_file() {
    expected_status=$1 expected_output=$2 status=0
    expect_complaints "$3"
    shift 3
    "$lampline" "$@" > output 2> complaints || status=$?
    compare "lampline $*"
}

# expect STATUS LINES COMPLAINTS ARGUMENT...: the same, and it prints these lines.
expect() {
    lines "$2" > expected_lines
    expected_status=$1
    shift 2
    expect_file "$expected_status" expected_lines "$@"
}

# complains COMPLAINT ARGUMENT...: no answer, and this line on standard error.
complains() { expect 2 '' "$@"; }
