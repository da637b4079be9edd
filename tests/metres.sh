#!/usr/bin/env bash
# Tests of lay_centimetres and lay_metres, which turn metres into centimetres and back, and of the marks of what was rounded: compared
# with document 01's examples and with the rule, worked out in two ways (metres.py, rule.py). A seed other than the gate's may be given.
cd "$(dirname "$0")/.." && . tests/common.bash && . tests/library.bash
seed=${1:-20261115}

# The chosen requests, then those at random.
python3 tests/metres.py named >"$requests"
python3 tests/metres.py random "$seed" >>"$requests"
ask python3 tests/metres.py answers
refuses centimetres 0 3
refuses metres 0 3

# 01's examples, as bit patterns of the numbers, with centimetres and mark (0 equal, 1 below, 2 above): 0.125, 0.375, -0.125, -0.375,
# 0.625, minus zero, NaN, the infinities; 10,000,000, the number before it and the next, also below zero; -0.001 and -0.01; 300.01,
# 400 and 1,000,000.005. Then 0.25 and its neighbours, 0.005 and its neighbours, and the smallest numbers on both sides of zero.
while read -r pattern answer; do
    told "centimetres $pattern" "$answer"
done <<'END'
3fc0000000000000 0 12 2
3fd8000000000000 0 38 1
bfc0000000000000 0 -12 1
bfd8000000000000 0 -38 2
3fe4000000000000 0 62 2
8000000000000000 0 0 0
7ff8000000000000 3 0 0
7ff0000000000000 3 0 0
fff0000000000000 3 0 0
416312d000000000 0 1000000000 0
416312cfffffffff 0 1000000000 1
416312d000000001 3 0 0
c16312d000000000 0 -1000000000 0
c16312cfffffffff 0 -1000000000 2
c16312d000000001 3 0 0
bf50624dd2f1a9fc 0 0 1
bf847ae147ae147b 0 -1 1
4072c028f5c28f5c 0 30001 1
4079000000000000 0 40000 0
412e8480028f5c29 0 100000001 1
3fd0000000000000 0 25 0
3fcfffffffffffff 0 25 1
3fd0000000000001 0 25 2
bfd0000000000000 0 -25 0
bfd0000000000001 0 -25 1
3f747ae147ae147a 0 0 2
3f747ae147ae147b 0 1 1
3f747ae147ae147c 0 1 1
bf747ae147ae147a 0 0 1
bf747ae147ae147b 0 -1 2
0000000000000001 0 0 2
8000000000000001 0 0 1
END

# marked SIGN MARK: how many numbers that are read have this mark; SIGN is the first digit of a pattern, [0-7] or [89a-f]
marked() { grep -cE "^centimetres $1[0-9a-f]{15}:0 -?[0-9]+ $2$" "$both"; }
for sign in '[0-7]' '[89a-f]'; do
    for mark in 0 1 2; do
        pass_if "a hundred numbers or more, their first digit $sign, have the mark $mark" [ "$(marked "$sign" "$mark")" -ge 100 ]
    done
done

# After a refusal centimetres and mark are 0, whatever the number was.
pass_if 'a refused number has no centimetres and no mark' [ -z "$(grep -E '^centimetres [0-9a-f]*:3 ' "$both" | grep -v ':3 0 0$')" ]

# Centimetres over the limit are refused and give plus zero; then the lowest number that is written, 300.01, and plus zero.
told 'metres 1000000001' '3 0000000000000000'
told 'metres -1000000001' '3 0000000000000000'
told 'metres -9223372036854775808' '3 0000000000000000'
told 'metres -1000000000' '0 c16312d000000000'
told 'metres 30001' '0 4072c028f5c28f5c'
told 'metres 0' '0 0000000000000000'

# comes_back: tests that every number that was written gives the same centimetres when it is read, and that there are 1,000 or more
comes_back() {
    awk -F '[: ]' '
        $1 == "metres" && $3 == 0 { written[$4] = $2 }
        $1 == "centimetres" && $3 == 0 { again[$2] = $4 }
        END {
            for (pattern in written) if (again[pattern] != written[pattern]) { print pattern, written[pattern]; exit 1 }
            exit length(written) < 1000
        }' "$both"
}
pass_if 'what is written gives the same centimetres when it is read' comes_back
done_testing
