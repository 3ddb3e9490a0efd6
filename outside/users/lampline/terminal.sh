# A terminal, on which results are typed.

# on_terminal SHOWN COMMAND LINE...: the command on a terminal, on which each line is typed when a result is asked for in the file
# SHOWN; the line ^D ends the input, which otherwise stays open. What stood on the terminal is in the file output afterwards.
on_terminal() {
    shown=$1 command=$2 seen=0 status=0
    shift 2
    rm -f keys
    mkfifo keys
    : > "$shown"
    SHELL=/bin/sh timeout 60 script -qec "$command" /dev/null < keys > screen &
    terminal=$!
    exec 3> keys
    for line in "$@"; do
        tries=0
        until [ "$(wc -c < "$shown")" -gt "$seen" ] && [ "$(tail -c 7 "$shown")" = 'result ' ] || [ $tries -eq 200 ]; do
            tries=$((tries + 1))
            sleep 0.05
        done
        [ $tries -lt 200 ] || differs "$command, on a terminal, which asks for no result"
        seen=$(($(wc -c < "$shown") + ${#line} + 2))
        case $line in
            ^D) exec 3>&- ;;
            *) (trap '' PIPE && printf '%s\n' "$line" >&3) 2> /dev/null || true ;;
        esac
    done
    wait "$terminal" || status=$?
    exec 3>&-
    tr -d '\r' < screen > output
}

# expect_typed STATUS LINES COMMAND LINE...
expect_typed() {
    expected_status=$1 expected_output=expected_lines
    lines "$2" > expected_lines
    shift 2
    : > expected_complaints
    : > complaints
    on_terminal screen "$@"
    compare "$1, on a terminal"
}

compare_on_terminal() {
    step="'$lampline' step walk.job 1"

    # What was typed stands there once: a line for each result, one with a blank before or behind it, and several on one line.
    expect_typed 0 "$one_lamp" "$step" 1 0 0
    blank=' '
    expect_typed 0 "state 0, 1 lamp left: action 0, result 1
state 1, 1 lamp left: action 1, result 0$blank
state 0, 0 lamps left: action 0, result   0
state 2, 0 lamps left: ended" "$step" 1 "0$blank" '  0'
    expect_typed 0 'state 0, 1 lamp left: action 0, result 1 0 0
state 1, 1 lamp left: action 1, result 0
state 0, 0 lamps left: action 0, result 0
state 2, 0 lamps left: ended' "$step" '1 0 0'

    # Complaints, refusals, and the end of what is typed.
    expect_typed 2 "state 0, 1 lamp left: action 0, result one
lampline: $not_a_result 'one'
state 0, 1 lamp left: action 0, result 2
walk.job: $no_branch
state 0, 1 lamp left: action 0, result none: the plan has not ended" "$step" one 2 ^D

    # Results that are typed, and shown in a file.
    expected_status=0 expected_output=expected_lines
    lines "$one_lamp" > expected_lines
    on_terminal shown "$step > shown" 1 0 0
    mv shown output
    compare "$step > FILE, on a terminal"

    # Cells are not for a terminal.
    expected_status=2 expected_output=/dev/null
    expect_complaints 'cells are bytes and not for a terminal: send them to a file, as in lampline cells ... > FILE'
    on_terminal screen "'$lampline' cells street.rules 3 4 2 3 1 2> complaints"
    compare 'lampline cells, on a terminal'
}

if command -v script > /dev/null; then
    compare_on_terminal
else
    echo 'left out: a terminal, since there is no script(1)'
fi
