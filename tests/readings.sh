#!/usr/bin/env bash
# Tests of lay_expected, which gives the readings expected at a place: compared with document 01's examples, with the readings
# printed in source document 002, on the plane and on the ground, and with the rule, worked out here in whole numbers with roots by
# bisection.
cd "$(dirname "$0")/.." && . tests/common.bash && . tests/library.bash

east=100000000 north=1000000000

# root N: leaves the whole part of the square root of N in `root`
root() {
    local lo=0 hi=2000000000 mid
    while ((lo + 1 < hi)); do
        mid=$(((lo + hi) / 2))
        if ((mid * mid <= $1)); then lo=$mid; else hi=$mid; fi
    done
    root=$lo
}

range() { # E N E N FACTOR: leaves the range between the two places in `range`
    root $((($1 - $3) * ($1 - $3) + ($2 - $4) * ($2 - $4)))
    range=$((root * 1000000 / $5))
}

out_of_range() { (($1 > east || $2 > north)); }

unsound() { # ME MN AE AN BE BN FACTOR
    (($7 < 999000 || $7 > 1001000)) || out_of_range "$1" "$2" || out_of_range "$3" "$4" || out_of_range "$5" "$6" ||
        [ "$1 $2" = "$3 $4" ] || [ "$1 $2" = "$5 $6" ] || [ "$3 $4" = "$5 $6" ]
}

# expected ME MN AE AN BE BN FACTOR E N: leaves the refusal and the readings in `expected`
expected() {
    local master a
    expected='4 0 0'
    if out_of_range "$8" "$9"; then return; fi
    expected='5 0 0'
    if unsound "$@"; then return; fi
    range "$8" "$9" "$1" "$2" "$7" && master=$range
    range "$8" "$9" "$3" "$4" "$7" && a=$((range - master))
    range "$8" "$9" "$5" "$6" "$7"
    expected="0 $a $((range - master))"
}

# at CHAIN PLACE...: prints a request for the readings at each place; a chain is one argument, with or without its factor, and so is
# a place
at() {
    local chain factor place
    chain=$(cut -d ' ' -f 1-6 <<<"$1") factor=$(cut -d ' ' -f 7 <<<"$1")
    shift
    for place in "$@"; do echo "expected 2 -7 ${chain// /,} ${factor:-1000000} $place"; done
}

# found CHAIN PLACE: the readings that were answered there
found() { sed -n "s/^$(at "$1" "$2"):0 //p" "$both"; }

# off READING PRINTED LEAST MOST: that the reading is so much more than the printed one
off() { (($1 - $2 >= $3 && $1 - $2 <= $4)); }

# Document 01's chain 1 and the stations of source document 002, at the places for which these documents give the readings; on the
# ground with the factor that fits 002's lines to the master and A.
first='0 0 30000 0 0 40000'
paper='50000000 500000000 40000000 490000000 60000000 500000000'
ground="$paper 999641"
points=('60000000 490000000' '60000000 490100000' '60100000 490000000' '60100000 490100000')
corners=('0 0' "$east 0" "0 $north" "$east $north")
{
    at "$first" '30000 40000' '30001 40000' '30000 40001' '1 1'
    at "$paper" "${points[@]}"
    at "$ground" "${points[@]}"
    at "$paper" '60002450 490001960' '59999990 490100040' '60100050 489999960' '60099990 490100040'
    # Stations and places in the corners of the chart: readings over 1,000,000,000 in size are not refused.
    at "0 0 $east $north $east 0" "${corners[@]}"
    at "$east $north 0 0 0 $north" "${corners[@]}"
    at "0 $north 0 $((north - 1)) 1 $north" "${corners[@]}"
    # Places out of range, by little and by much, in one number and in both; then with a chain that is not sound either.
    at "$first" "$((east + 1)) 0" "0 $((north + 1))" "$((east + 1)) $((north + 1))" '4294967295 40000' '30000 4294967295'
    at "0 0 0 0 0 $((north + 1))" "$((east + 1)) 0" "0 $((north + 1))"
    # Chains that are not sound: each station out of range, and each two of them equal.
    at "$((east + 1)) 0 30000 0 0 40000" '30000 40000'
    at "0 $((north + 1)) 30000 0 0 40000" '30000 40000'
    at "0 0 $((east + 1)) 0 0 40000" '30000 40000'
    at "0 0 30000 $((north + 1)) 0 40000" '30000 40000'
    at "0 0 30000 0 $((east + 1)) 40000" '30000 40000'
    at '0 0 30000 0 0 4294967295' '30000 40000'
    at '30000 0 30000 0 0 40000' '30000 40000'
    at '0 40000 30000 0 0 40000' '30000 40000'
    at '0 0 30000 40000 30000 40000' '30000 40000'
    # Factors within their range, at 01's places and at the corners of the chart; then factors out of range, also at such a place.
    for factor in 999000 999001 999999 1000001 1000999 1001000; do
        at "$first $factor" '30000 40000' '30001 40000' '30000 40001' '1 1' "${corners[@]}"
        at "0 0 $east $north $east 0 $factor" "${corners[@]}" '61234567 487654321'
    done
    for factor in 0 1 998999 1001001 4294967295; do at "$first $factor" '30000 40000'; done
    at "$first 0" "$((east + 1)) 0"
} >"$requests"

# Every answer is what the rule gives.
by_the_rule() {
    while read -r _ _ _ chain factor place; do
        expected ${chain//,/ } $factor $place
        echo "$expected"
    done
}
ask by_the_rule

# Document 01's examples, chain 1: place, then readings A and B.
while IFS=: read -r place answer; do
    told "$(at "$first" "$place")" "0 $answer"
done <<'END'
30000 40000:-10000 -20000
30001 40000:-10000 -19999
30000 40001:-9999 -20000
1 1:29998 39998
END

# Source document 002, Table 4 and appendix II: place, then the plane readings printed, in centimetres. They are printed to
# a tenth of a metre, so rounding and the cut to whole centimetres explain a difference of at most 6.
while read -r e n a b; do
    found=$(found "$paper" "$e $n")
    pass_if "002's reading A at ($e, $n): $found" off "${found% *}" "$a" -6 6
    pass_if "002's reading B at ($e, $n): $found" off "${found#* }" "$b" -6 6
done <<'END'
60000000 490000000 5857860 -4142140
60000000 490100000 5928650 -4171600
60100000 490000000 5886980 -4212520
60100000 490100000 5957410 -4242340
60002450 490001960 5859970 -4144440
59999990 490100040 5928670 -4171610
60100050 489999960 5886970 -4212550
60099990 490100040 5957430 -4242340
END

# Source document 002, Table 4 (its last B as in appendix II): the readings that would be observed, on the ground. 002 scales each
# line by itself, and a chain has one factor: with that of the lines to the master and A the readings of A come within 8 cm, and
# those of B miss by 8.1 to 8.2 m, as the lines to B have factors of 999723 and 999724. That is the request's simplification, and no
# fault.
while read -r e n a b; do
    found=$(found "$ground" "$e $n")
    pass_if "002's reading A on the ground at ($e, $n): $found" off "${found% *}" "$a" -8 8
    pass_if "002's reading B on the ground at ($e, $n): $found" off "${found#* }" "$b" 805 824
done <<'END'
60000000 490000000 5859970 -4144440
60000000 490100000 5930780 -4173910
60100000 490000000 5889100 -4214860
60100000 490100000 5959550 -4244670
END

# By two cuts of each range: 50000 is 50050 by the least factor and 49950 by the greatest, 40000 is 40040 or 39960, 30000 is 30030
# or 29970. And the four points by the factor of their lines to the master and A, worked out independently.
while IFS=: read -r chain place answer; do
    told "$(at "$chain" "$place")" "0 $answer"
done <<END
$first 999000:30000 40000:-10010 -20020
$first 1001000:30000 40000:-9990 -19980
$ground:${points[0]}:5859969 -4143622
$ground:${points[1]}:5930776 -4173100
$ground:${points[2]}:5889092 -4214036
$ground:${points[3]}:5959545 -4243861
END

# Readings over 1,000,000,000 in size are given, with either sign; each refusal occurs.
told "$(at "0 0 $east $north $east 0" '0 0')" '0 1004987562 100000000'
told "$(at "$east $north 0 0 0 $north" '0 0')" '0 -1004987562 -4987562'
told "$(at "0 0 $east $north $east 0 999000" '0 0')" '0 1005993555 100100100'
pass_if 'eight places refused' [ "$(grep -c '^4 0 0$' "$answers")" -eq 8 ]
pass_if 'nine chains refused for their stations, and five for their factor' [ "$(grep -c '^5 0 0$' "$answers")" -eq 14 ]

# Lists and chains of wrong lengths are refused before a place out of range and a chain that is not sound. Each list held -7.
chain=0000000000000000307500000000000000000000409c0000
cat >"$requests" <<END
expected 2 -7 $chain 1000000 30000 40000
expected 0 -7 $chain 1000000 30000 40000
expected 1 -7 $chain 1000000 100000001 40000
expected 3 -7 0,0,0,0,0,40000 0 30000 40000
expected 2 -7 ${chain}00 0 100000001 40000
expected 2 -7 ${chain%00} 1000000 30000 40000
expected 2 -7 - 0 30000 40000
END
printf '%s\n' '0 -10000 -20000' 1 '1 0' '1 0 0 0' '1 0 0' '1 0 0' '1 0 0' >"$asked/literal"
ask cat "$asked/literal"
done_testing
