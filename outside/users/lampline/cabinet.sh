# step, by results that are piped in.

one_lamp='state 0, 1 lamp left: action 0, result 1
state 1, 1 lamp left: action 1, result 0
state 0, 0 lamps left: action 0, result 0
state 2, 0 lamps left: ended'
after_end='refused 17 (the plan is at its end already)'
no_branch='refused 18 (there is no such result, or the plan has no branch for it here)'

# Results on a line each, on one line, with blanks and empty lines around them, and without a newline at the end.
expect 0 "$one_lamp" '' step walk.job 1 << end
1
0
0
end
expect 0 "$one_lamp" '' step walk.job 1 << end
1 0 0
end
printf '\n \t1\r\n\n\n  0\v00' > results
expect 0 'state 0, 1 lamp left: action 0, result 1
state 1, 1 lamp left: action 1, result 0
state 0, 0 lamps left: action 0, result 00
state 2, 0 lamps left: ended' '' step walk.job 1 < results

# Bench line G on a line of 1 and 2, and the final state from the beginning on.
expect 0 'state 0, 2 lamps left: action 0, result 1
state 1, 2 lamps left: action 1, result 0
state 3, 2 lamps left: action 2, result 0
state 0, 1 lamp left: action 0, result 1
state 1, 1 lamp left: action 1, result 1
state 2, 1 lamp left: action 3, result 0
state 3, 1 lamp left: action 2, result 0
state 0, 0 lamps left: action 0, result 0
state 4, 0 lamps left: ended' '' step bench_g.job 2 << end
1 0 0   1 1 0 0   0
end
expect 0 'state 4, 3 lamps left: ended' '' step g_first_4.job 3

# Refused reports leave the cabinet where it is.
expect 1 "state 0, 1 lamp left: action 0, result 2
walk.job: $no_branch
state 0, 1 lamp left: action 0, result 1
state 1, 1 lamp left: action 1, result 1
walk.job: $no_branch
state 1, 1 lamp left: action 1, result 0
state 0, 0 lamps left: action 0, result 255
walk.job: $no_branch
state 0, 0 lamps left: action 0, result 0
state 2, 0 lamps left: ended, result 0
walk.job: $after_end
state 2, 0 lamps left: ended, result 7
walk.job: $after_end
state 2, 0 lamps left: ended" '' step walk.job 1 << end
2 1 1 0 255 0 0 7
end
expect 1 'state 0, 0 lamps left: action 0, result 1
state 1, 0 lamps left: action 1, result 0
walk.job: refused 19 (the action moves on, but no lamp is left)
state 1, 0 lamps left: action 1, result none: the plan has not ended' '' step walk.job 0 << end
1 0
end

# An input that ends early, and the longest line.
expect 1 'state 0, 1 lamp left: action 0, result none: the plan has not ended' '' step walk.job 1
expect 1 'state 0, 65535 lamps left: action 0, result 1
state 1, 65535 lamps left: action 1, result 0
state 0, 65534 lamps left: action 0, result none: the plan has not ended' '' step walk.job 65535 << end
1 0
end

# Words that are no results. The fourth has 15 letters, and the fifth one more; in the last is a zero byte.
not_a_result='a result must be a number from 0 to 255, not'
printf 'one 256 -1 000000000000001 0000000000000000 averyverylongword 0\0' > results
expect 2 'state 0, 1 lamp left: action 0, result one
state 0, 1 lamp left: action 0, result 256
state 0, 1 lamp left: action 0, result -1
state 0, 1 lamp left: action 0, result 000000000000001
state 1, 1 lamp left: action 1, result 000000000000...
state 1, 1 lamp left: action 1, result averyverylon...
state 1, 1 lamp left: action 1, result 0?
state 1, 1 lamp left: action 1, result none: the plan has not ended' "$not_a_result 'one'
$not_a_result '256'
$not_a_result '-1'
$not_a_result '000000000000...'
$not_a_result 'averyverylon...'
$not_a_result '0?'" step walk.job 1 < results
expect 2 "state 0, 0 lamps left: action 0, result x
state 0, 0 lamps left: action 0, result 0
state 2, 0 lamps left: ended" "$not_a_result 'x'" step walk.job 0 << end
x 0
end

expect 1 "refused_10_actions.job: $refused_10" '' step refused_10_actions.job 1
complains 'step takes the results from standard input, so the job cannot come from there' step - 1
complains 'missing.job: No such file or directory' step missing.job 1
expect 2 'state 0, 1 lamp left: action 0, result none: the plan has not ended' 'standard input cannot be read' step walk.job 1 < folder
expect 2 'state 0, 1 lamp left: action 0, result none: the plan has not ended' 'standard input cannot be read' step walk.job 1 <&-
