# Wrong words on the command line.

complains 'no command; lampline --help lists the commands'
complains "'' is no command; lampline --help lists the commands" ''
complains "'chekc' is no command; lampline --help lists the commands" chekc walk.job
complains "'--steps' is no command; lampline --help lists the commands" --steps check walk.job
complains "'-' is no command; lampline --help lists the commands" - < walk.job

# Too few words, and too many.
complains 'usage: lampline check [--steps] FILE..' check
complains 'usage: lampline check [--steps] FILE..' check --steps --
complains 'usage: lampline check-up-to [--steps] LAMPS FILE..' check-up-to
complains 'usage: lampline check-up-to [--steps] LAMPS FILE..' check-up-to 3
complains 'usage: lampline run FILE START [--limit STEPS] [--end END] [--steps] [KIND..]' run --limit 3 walk.job
complains 'usage: lampline walk FILE STATE WORLD COLUMN' walk walk.job 0 0
complains 'usage: lampline walk FILE STATE WORLD COLUMN' walk walk.job 0 0 0 0
complains 'usage: lampline read FILE..' read
complains 'usage: lampline step FILE LAMPS' step walk.job
complains 'usage: lampline step FILE LAMPS' step walk.job 1 1
complains 'usage: lampline replay FILE LOG' replay walk.job
complains 'usage: lampline replay FILE LOG' replay walk.job entry.log entry.log
complains 'usage: lampline cells RULES A W C R E' cells street.rules 3 4 2 3
complains 'usage: lampline cells RULES A W C R E' cells street.rules 3 4 2 3 1 1

# no_option OPTION ARGUMENT...
no_option() {
    option=$1
    shift
    complains "'$option' is no option here; lampline --help tells more" "$@"
}
no_option --quick check --quick walk.job
no_option --quick check walk.job --quick --help
no_option --limit check --limit 3 walk.job
no_option --end check-up-to 3 --end 1 walk.job
no_option --steps read --steps walk.job
no_option --steps walk walk.job 0 0 0 --steps
no_option --steps step walk.job 1 --steps
no_option --steps replay --steps walk.job entry.log
no_option --steps cells --steps street.rules 3 4 2 3 1
no_option --version check --version
no_option -s check -s walk.job
no_option -dash.job check -dash.job
no_option -1 run walk.job -1
no_option --steps=1 run walk.job 0 --steps=1
no_option --step run walk.job 0 --step
no_option --limits run walk.job 0 --limits 3
complains "'--limit' needs a number after it" run walk.job 0 --limit
complains "'--end' needs a number after it" run walk.job 0 1 --end

# Numbers are digits, and in range.
for word in '' +1 -1 ' 1' '1 ' 0x1 1.0 one 1a 4294967296 18446744073709551616; do
    complains "the limit must be a number from 0 to 4294967295, not '$word'" run bench_g.job 0 --limit "$word" 1
    complains "the limit must be a number from 0 to 4294967295, not '$word'" run bench_g.job 0 "--limit=$word" 1
done
for word in '' +1 ' 1' '1 ' 0x1 one 256 4294967296; do
    complains "the end kind must be a number from 0 to 255, not '$word'" run bench_g.job 0 --end "$word"
    complains "the start must be a number from 0 to 255, not '$word'" run bench_g.job "$word" 1
    complains "a lamp's kind must be a number from 0 to 255, not '$word'" run bench_g.job 0 1 "$word"
    complains "the program state must be a number from 0 to 255, not '$word'" walk bench_g.job "$word" 0 0
    complains "the world state must be a number from 0 to 255, not '$word'" walk bench_g.job 0 "$word" 0
    complains "the column must be a number from 0 to 255, not '$word'" walk bench_g.job 0 0 "$word"
    complains "A must be a number from 0 to 255, not '$word'" cells street.rules "$word" 4 2 3 1
    complains "W must be a number from 0 to 255, not '$word'" cells street.rules 3 "$word" 2 3 1
    complains "C must be a number from 0 to 255, not '$word'" cells street.rules 3 4 "$word" 3 1
    complains "R must be a number from 0 to 255, not '$word'" cells street.rules 3 4 2 "$word" 1
    complains "E must be a number from 0 to 255, not '$word'" cells street.rules 3 4 2 3 "$word"
done
for word in '' +1 ' 1' one 65536 4294967297; do
    complains "the number of lamps must be a number from 0 to 65535, not '$word'" check-up-to "$word" walk.job
    complains "the number of lamps must be a number from 0 to 65535, not '$word'" step walk.job "$word"
done
complains "the limit must be a number from 0 to 4294967295, not '--steps'" run bench_g.job 0 --limit --steps
complains "a lamp's kind must be a number from 0 to 255, not '-1'" run bench_g.job 0 -- 1 -1
expect 0 'bench_g.job: goal after 4 steps' '' run bench_g.job 000 0000000000000000000000001
expect 1 "walk.job: $no_line" '' run walk.job 0 255 --end 255
