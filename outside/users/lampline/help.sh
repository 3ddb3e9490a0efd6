# Help, version and man page.

version=$(sed -n 's/^#define NESSFLURRY_VERSION //p' "$root/include/nessflurry.h")
expect 0 "lampline $version (library $version)" '' --version

cat > help << 'end'
lampline: the operations of Nessflurry, the proved checker for plans of street lamp cabinets

    lampline check [--steps] FILE..
        is the plan right on every line? One line for each file; with --steps, where it fails, each step to the failure
    lampline check-up-to [--steps] LAMPS FILE..
        the short check: the same for the lines of up to LAMPS lamps alone
    lampline run FILE START [--limit STEPS] [--end END] [--steps] [KIND..]
        the plan on the line of lamps of these kinds, from this start; the line's end is of kind 0 if no other is named
    lampline walk FILE STATE WORLD COLUMN
        the plan at one lamp or one end of a line, until it moves on or ends
    lampline read FILE..
        the numbers of a job, where its parts stand, and its starts
    lampline step FILE LAMPS
        takes a cabinet along a line of LAMPS lamps, by results that are typed or piped in
    lampline replay FILE LOG
        can a cabinet with this plan have written this log?
    lampline cells RULES A W C R E
        the cells of a job from a rules file, as bytes on standard output
    lampline --help
    lampline --version

FILE is a job file; '-' for a file is standard input, but not for step. After '--' no word is an option. Numbers
are as in the job file, from 0 on; lamp kinds are from 1 on. The exit status is 0 if all is well (accepted, none
up to LAMPS, goal, moves on, read, ended, possible, cells written), 1 if it is not (fails, refused, stopped,
impossible, not ended), and 2 if there is no answer (wrong words, a file that cannot be read, output that cannot
be written). lampline(1) and docs/FORMAT.md tell more. The library's answers are proved; this program only
prints them.
end
expect_file 0 help '' --help
expect_file 0 help '' --help check
expect_file 0 help '' check --help
expect_file 0 help '' run missing.job --help --limit 3
no_option --help=1 check --help=1 walk.job

# Each command and option that one of --help and the man page names is named in the other. Commands stand at the beginnings of
# lines, in the page's synopsis as in the help.
commands_in() { sed -n 's/^ *lampline \([a-z-][a-z-]*\).*/\1/p' "$1" | sort -u; }
options_in() { grep -o -e '--[a-z][a-z-]*' "$1" | sort -u; }

compare_man_page() {
    env -u MANOPT -u MAN_KEEP_FORMATTING -u MANROFFSEQ LC_ALL=C MANWIDTH=200 \
        man --warnings --nh --nj -l "$root/lampline/lampline.1" > page 2> warnings
    [ ! -s warnings ] || differs "the man page, of which man says: $(cat warnings)"
    sed -n '/^SYNOPSIS/,/^[A-Z]/p' page > synopsis
    calls=$((calls + 1))
    commands_in help > help_names
    options_in help >> help_names
    commands_in synopsis > page_names
    options_in page >> page_names
    diff help_names page_names || differs 'the commands and options of lampline --help and of the man page'
}

if command -v man > /dev/null; then
    compare_man_page
else
    echo 'left out: the man page, since there is no man(1)'
fi
