#!/usr/bin/env bash
# Tests that the bench (bench/run) works from end to end: it lists its logs with all three programs, finds that their listings are
# the same, and prints the ratios of the times and the visits per record. No time is judged.
cd "$(dirname "$0")/.." && . tests/common.bash
printed=$(bash bench/run --short)

# shows WORDS PATTERN COUNT: tests that COUNT lines match PATTERN, an extended regular expression
shows() { pass_if "$1" [ "$(grep -cE "$2" <<<"$printed")" -eq "$3" ]; }

shows 'four logs, each with three times and two ratios' '^ *[0-9]+ +[0-9]+ +1500 +1500 +[0-9]+( +[0-9]+\.[0-9]){3}( +[0-9]+\.[0-9]{2}){2}$' 4
shows 'the ratios of laylist' '^laylist/C: worst [0-9]+\.[0-9]{2}, mean [0-9]+\.[0-9]{2}$' 1
shows 'the ratios of the second program' '^second/C: worst [0-9]+\.[0-9]{2}, mean [0-9]+\.[0-9]{2}$' 1
shows 'the visits a record for k 8 to 24' '^ *[0-9]+ +[0-9]+\.[0-9] +([0-9]+\.[0-9])?$' 17

# At each step of k, from 9 to 24, the window's area grows fourfold, but the visits per record grow by less than a hundred.
pass_if 'the visits grow with k and not with the area' awk '
    NF == 3 && $1 ~ /^[0-9]+$/ && $2 ~ /\./ { steps++; if ($3 <= 0 || $3 >= 100) wrong = 1 }
    END { exit wrong || steps != 16 }' <<<"$printed"
done_testing
