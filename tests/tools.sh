#!/usr/bin/env bash
# Tests what the desk's tools make of text, arguments and files, against docs/FORMATS.md and document 01, byte by byte, and against
# the rule (tools.py, rule.py); what they report if a file cannot be read or written; bin/; and the walk of README.md. A
# seed other than the gate's may be given.
cd "$(dirname "$0")/.." && . tests/common.bash
export LC_ALL=C
seed=${1:-20261115}
folders=$(mktemp -d)
trap 'rm -rf "$folders"' EXIT
folder=$folders/folder printed=$folders/printed said=$folders/said
files=(chain.dat job.dat lay.dat scale.dat)
one_chain='chain.dat: 1 chain written, 1 there now
scale.dat: 1 factor written, 1 there now'
records='1 1 1 -10000 -20000
2 0 2 30001 40000
3 0 3 0 0'

# run TOOL ARGUMENTS...: runs it in the folder; in `status` how it ended
run() {
    status=0
    (cd "$folder" && program "$@") >"$printed" 2>"$said" || status=$?
}

# holds FILES...: that the folder has these files of 01's example, in the order of their names, and nothing else
holds() {
    local file
    [ "$(ls -A "$folder")" = "$(printf "${1:+%s\n}" "$@")" ] || return 1
    for file; do cmp -s "$folder/$file" "$example/$file" || return 1; done
}

# refused TOOL NUMBERS...: that these refusals were reported, a line each, and nothing was printed; LINE:NUMBER if a line is named,
# and then their sum is reported as well
refused() {
    local tool=$1 told wanted
    told=$(sed -E "s/^$tool: line ([0-9]+) REFUSED ([0-9]+): [^ ].*/\1:\2/; s/^$tool: REFUSED ([0-9]+): [^ ].*/\1/
        s/^($tool: .* refused .*), [0-9]+ accepted; nothing is written$/\1/" "$said")
    wanted=$(printf '%s\n' "${@:2}")
    case $#:$2 in
    2:*:*) wanted+=$'\n'"$tool: 1 line refused (line ${2%:*})" ;;
    *:*:*) wanted+=$'\n'"$tool: $(($# - 1)) lines refused (the first is line ${2%:*})" ;;
    esac
    [ "$status" -eq 0 ] && [ ! -s "$printed" ] && [ "$told" = "$wanted" ]
}

# accepted: that nothing but notes was reported
accepted() { [ "$status" -eq 0 ] && ! grep -qv '^lay[a-z]*: note: ' "$said"; }

# reports NAME: that it reported NAME in one line, and nothing else
reports() { [ "$status" -eq 0 ] && [[ "$(<"$said")" == lay*": $1: "?* ]] && [ "$(wc -l <"$said")" -eq 1 ]; }

# 01's example from text: the files are those of the example, and listed as 01 says.
fresh
give layjob 30000 40000 1 0 100
pass_if "01's job: $(head -n 3 "$said")" prints 'job.dat: 1 job written, 1 there now; a search may make 100 visits'
pass_if "01's job, written" holds job.dat
give laychain 0 0 30000 0 0 40000
pass_if "01's chain: $(head -n 3 "$said")" prints "$one_chain"
pass_if "01's chain, written" holds chain.dat job.dat scale.dat
give laywrite "$records"
pass_if "01's log: $(head -n 3 "$said")" prints 'lay.dat: 3 records written, 3 there now'
pass_if "01's log, written" holds "${files[@]}"
run laylist
pass_if "01's listing from text: $(head -n 9 "$printed" "$said")" prints "$(<"$example/listing")"

# It is shown as docs/FORMATS.md shows it, and the readings at 01's places are 01's. The last word of each says whether its bytes are
# rounded when they are read.
shown='JOB 30000 40000 1 0 100
CHAIN 1 0 0 30000 0 0 40000 1000000
LOG 1 1 1 -10000 -20000
LOG 2 0 2 30001 40000
LOG 3 0 3 0 0'
give layshow
pass_if "01's example, shown: $(head -n 9 "$printed" "$said")" prints "$shown"
while IFS=: read -r place a b; do
    give layexpect 1 $place
    pass_if "readings at $place: $(head -n 9 "$printed" "$said")" prints "A$a
B$b"
done <<'END'
30000 40000: -10000 -100.00 00000000000059c0 0: -20000 -200.00 00000000000069c0 0
30001 40000: -10000 -100.00 00000000000059c0 0: -19999 -199.99 48e17a14aeff68c0 1
30000 40001: -9999 -99.99 8fc2f5285cff58c0 1: -20000 -200.00 00000000000069c0 0
1 1: 29998 299.98 48e17a14aebf7240 1: 39998 399.98 48e17a14aeff7840 1
END
pass_if 'the files stay' holds "${files[@]}"

# By a factor: that of 999641 millionths, typed as the seventh word, is d9400f00 in the side file. At (30000, 40000) the ranges
# 50000, 40000 and 30000 are then 50017, 40014 and 30010, so the readings are -10003 and -20007; the whole files are shown, and
# typed again they are the same.
fresh "${files[@]}"
give laychain 0 0 30000 0 0 40000 999641
pass_if "a chain with its factor: $(head -n 3 "$said")" prints "$one_chain"
pass_if 'the table is the same' cmp "$folder/chain.dat" "$example/chain.dat"
pass_if 'the side file is another' cmp "$folder/scale.dat" <(printf '\xd9\x40\x0f\x00')
give layshow
pass_if "a factor, shown: $(head -n 9 "$printed" "$said")" prints "${shown/1000000/999641}"
give layexpect 1 30000 40000
pass_if "readings by a factor: $(head -n 9 "$printed" "$said")" prints 'A -10003 -100.03 52b81e85eb0159c0 1
B -20007 -200.07 0ad7a3703d0269c0 1'
give layone 1 -10003 -20007
pass_if "a question by a factor: $(head -n 9 "$printed" "$said")" prints 'SEVERAL 5'
give layone 1 -10000 -20000
pass_if "another by a factor: $(head -n 9 "$printed" "$said")" prints 'NONE 5'

# shown_chains LINES: that layshow prints these of the chains and the side file, and nothing but a note
shown_chains() { give layshow && accepted && [ "$(grep -E '^(CHAIN|SCALE)' "$printed")" = "$1" ]; }

# A side file that does not fit is shown by its bytes, at most 65 of them, and the chains without a factor; a factor out of range is
# refused with 5; of the side file of a refused table nothing is said.
bytes_24=0000000000000000307500000000000000000000409c0000
while IFS=: read -r count scale lines; do
    fresh job.dat lay.dat
    for ((n = 0; n < count; n++)); do cat "$example/chain.dat"; done >"$folder/chain.dat"
    [ "$scale" = none ] || printf "$(sed 's/../\\x&/g' <<<"$scale")" >"$folder/scale.dat"
    pass_if "$count chains and the side file $scale: $(head -n 9 "$printed" "$said")" shown_chains "$(printf "${lines# }")"
done <<END
1:40420f00: CHAIN 1 0 0 30000 0 0 40000 1000000
1:583e0f00: CHAIN 1 0 0 30000 0 0 40000 999000
1:28460f00: CHAIN 1 0 0 30000 0 0 40000 1001000
1:573e0f00: CHAIN 1 0 0 30000 0 0 40000 998999 REFUSED 5 $bytes_24
1:29460f00: CHAIN 1 0 0 30000 0 0 40000 1001001 REFUSED 5 $bytes_24
1:00000000: CHAIN 1 0 0 30000 0 0 40000 0 REFUSED 5 $bytes_24
1:ffffffff: CHAIN 1 0 0 30000 0 0 40000 4294967295 REFUSED 5 $bytes_24
2:40420f00573e0f00: CHAIN 1 0 0 30000 0 0 40000 1000000\nCHAIN 2 0 0 30000 0 0 40000 998999 REFUSED 5 $bytes_24
1:none: CHAIN 1 0 0 30000 0 0 40000\nSCALE REFUSED 1
1:: CHAIN 1 0 0 30000 0 0 40000\nSCALE REFUSED 1
1:40420f: CHAIN 1 0 0 30000 0 0 40000\nSCALE REFUSED 1 40420f
1:40420f0041: CHAIN 1 0 0 30000 0 0 40000\nSCALE REFUSED 1 40420f0041
2:40420f00: CHAIN 1 0 0 30000 0 0 40000\nCHAIN 2 0 0 30000 0 0 40000\nSCALE REFUSED 1 40420f00
1:$(printf %0140d 7): CHAIN 1 0 0 30000 0 0 40000\nSCALE REFUSED 1 $(printf %0130d 0)
0:40420f00: CHAIN REFUSED 1
0:none: CHAIN REFUSED 1
END

# A folder from before there were factors is mended by the command that the documents have. Its chains then have the factor
# 1,000,000.
while IFS=: read -r page command; do
    fresh chain.dat job.dat lay.dat
    run laylist
    pass_if "a folder without a side file: $(cat "$printed" "$said")" [ "$(<"$printed")" = 'SCALE REFUSED 1' ]
    status=0
    (cd "$folder" && PATH=$PATH:$repository/bin bash -c "$command") >"$printed" 2>"$said" || status=$?
    pass_if "$page: the command that mends it: $(cat "$printed" "$said")" [ "$status $(<"$printed")" = "0 $one_chain" ]
    pass_if "$page: it is mended" holds "${files[@]}"
done < <(grep -E '^    layshow \|.* laychain$' examples/README.md docs/FORMATS.md)
pass_if 'both pages have the command' [ "$(grep -lE '^    layshow \|.* laychain$' examples/README.md docs/FORMATS.md | wc -l)" -eq 2 ]

# How many places there are, by 01's cases: after the words of a job, the readings, in centimetres or in metres. P4, also with just enough
# visits; P5; P8; P9; the first cell of P4's window alone; P2; the master's place, with three cells to visit after it. Nothing changes.
while IFS=: read -r job readings line; do
    fresh chain.dat scale.dat
    run layjob $job
    cp "$folder/job.dat" "$folders/asked"
    give layone 1 $readings
    pass_if "layone 1 $readings in the window $job: $(head -n 9 "$printed" "$said")" prints "${line# }"
    pass_if 'the files stay' cmp "$folder/job.dat" "$folders/asked"
done <<'END'
30000 40000 1 0 100:-10000 -20000: SEVERAL 5
30000 40000 1 0 5:-100.00 -200.00: SEVERAL 5
30000 40000 1 1 100:-10000 -200.00: SEVERAL 3
30001 40000 0 0 100:-100.00 -20000: NONE 1
30000 40000 1 0 100:0 0: NONE 1
30000 40000 0 0 100:-10000 -20000: ONE 1 30000 40000
30001 40000 0 0 1:-100.00 -199.99: ONE 1 30001 40000
0 0 1 0 5:30000 40000: ONE 5 0 0
END

# More than 100,000,000 visits: a note, before the answer. Here that does not take long.
for allowance in 100000000 100000001; do
    fresh chain.dat scale.dat
    run layjob 30000 40000 1 0 $allowance
    give layone 1 -10000 -20000
    pass_if "layone with $allowance visits: $(cat "$said")" [ "$(<"$printed")" = 'SEVERAL 5' ]
    note=
    [ $allowance -eq 100000000 ] || note='layone: note: job.dat allows more than 100000000 visits: the answer may take minutes'
    pass_if "layone with $allowance visits says '$note': $(cat "$said")" [ "$(<"$said")" = "$note" ]
done

# Records that are refused are shown as docs/FORMATS.md shows them, from the bytes that stand there.
refusals=$(sed -n 's/^    \(LOG .* REFUSED .*\)/\1/p' docs/FORMATS.md)
pass_if 'docs/FORMATS.md shows refused records' [ "$(wc -l <<<"$refusals")" -eq 2 ]
while read -r line; do
    fresh
    printf "$(sed 's/.* //; s/../\\x&/g' <<<"$line")" >"$folder/lay.dat"
    give layshow
    pass_if "docs/FORMATS.md: $line" [ "$(grep '^LOG' "$printed")" = "$line" ]
done <<<"$refusals"

# Limits: what is just accepted (0) and what is just refused, and what comes first.
while IFS=: read -r words answer; do
    fresh "${files[@]}"
    give $words
    if [ "$answer" -eq 0 ]; then
        pass_if "$words: $(head -n 3 "$said")" accepted
        continue
    fi
    case $words in laychain* | laywrite*) answer="1:${answer# }" ;; esac
    pass_if "$words, refused with $answer: $(head -n 3 "$said")" refused "${words%% *}" "${answer# }"
    pass_if "$words: the files stay" holds "${files[@]}"
done <<'END'
layjob 30000 40000 24 0 100: 0
layjob 30000 40000 25 0 100: 6
layjob 100000000 40000 0 0 100: 0
layjob 100000000 40000 1 0 100: 6
layjob 99999999 40000 1 0 100: 0
layjob 30000 1000000000 0 0 100: 0
layjob 30000 1000000000 1 0 100: 6
layjob 4294997296 40000 1 0 100: 6
layjob 30000 40000 257 0 100: 6
layjob 30000 40000 1 100000 100: 0
layjob 30000 40000 1 100001 100: 7
layjob 30000 40000 1 4294967296 100: 7
layjob 30000 40000 1 0 18446744073709551615: 0
layjob 30000 40000 1 0 18446744073709551616: 12
layjob 30000 40000 25 100001 100: 6
layjob 30000 40000 25 100001 x: 12
layjob -0 40000 1 0 100: 12
layjob 30000 40000 1 0: 0
layjob 30000 40000 1: 12
layjob 30000 40000 1 0 100 1: 12
layjob 0030000 00040000 01 00 0100: 0
layjob 1000000.00 10000000.00 0 1000.00 100: 0
layjob 1000000.01 400.00 0 0.00 100: 6
layjob 300.00 10000000.01 0 0.00 100: 6
layjob 300.00 400.00 1 1000.01 100: 7
layjob 300.00 400.00 1.00 0.00 100: 12
layjob 300.00 400.00 1 0.00 100.00: 12
layjob 300.0 400.00 1 0.00 100: 12
layjob 300.00 400.00 1 -0.00 100: 12
laychain 0 0 30000 0 0 40000: 0
laychain 100000000 1000000000 0 1000000000 100000000 0: 0
laychain 100000001 0 30000 0 0 40000: 5
laychain 0 0 30000 1000000001 0 40000: 5
laychain 4294967296 0 30000 0 0 40000: 5
laychain 0 0 0 0 0 40000: 5
laychain 0 0 30000 0 0 0: 5
laychain 0 0 30000 0 30000 0: 5
laychain 0 0 0 0 0 x: 12
laychain 0 0 30000 0 0: 12
laychain 0 0 30000 0 0 40000 1: 5
laychain 0 0 30000 0 0 40000 999000: 0
laychain 0 0 30000 0 0 40000 1001000: 0
laychain 0 0 30000 0 0 40000 0001000000: 0
laychain 0 0 30000 0 0 1000000: 0
laychain 0 0 30000 0 0 40000 0: 5
laychain 0 0 30000 0 0 40000 998999: 5
laychain 0 0 30000 0 0 40000 1001001: 5
laychain 0 0 30000 0 0 40000 4295967296: 5
laychain 0 0 30000 0 0 40000 18446744073710551616: 5
laychain 0 0 30000 0 0 40000 0.9996: 12
laychain 0 0 30000 0 0 40000 1000000.00: 12
laychain 0 0 30000 0 0 40000 -1000000: 12
laychain 0 0 30000 0 0 40000 x: 12
laychain 0 0 30000 0 0 40000 1000000 1: 12
laychain 0 0 0 0 0 40000 998999: 5
laychain 0 0 0 0 0 40000 x: 12
laychain 1000000.00 10000000.00 0.00 10000000.00 1000000.00 0.00: 0
laychain 1000000.01 0 30000 0 0 40000: 5
laychain 0 0 300.00 10000000.01 0 40000: 5
laychain 0 0 0.00 0 0 400.00: 5
laychain 0 0 300.000 0 0 400.00: 12
laychain -0.00 0 300.00 0 0 400.00: 12
laywrite 0 1 1 0 0: 2
laywrite 4 1 1 0 0: 2
laywrite 257 1 1 0 0: 2
laywrite 1 1 4294967295 1000000000 -1000000000: 0
laywrite 1 1 4294967296 1000000000 -1000000000: 12
laywrite 1 1 1 1000000001 0: 3
laywrite 1 1 1 0 -1000000001: 3
laywrite 1 1 1 18446744073709551616 0: 3
laywrite 2 0 1 100000000 1000000000: 0
laywrite 2 0 1 100000001 0: 4
laywrite 2 0 1 0 -1: 4
laywrite 2 0 1 -0 -0: 0
laywrite 1 0 1 0 0: 5
laywrite 1 16 1 0 0: 0
laywrite 1 17 1 0 0: 5
laywrite 1 257 1 0 0: 5
laywrite 3 17 1 -1000000001 x: 12
laywrite 3 17 1 -1000000001 1000000001: 0
laywrite 2 17 1 30001 40000: 0
laywrite 0 0 1 1000000001 -1: 2
laywrite 1 0 1 1000000001 -1: 3
laywrite 2 0 1 -1 1000000001: 3
laywrite 1 1 1 +1 0: 12
laywrite 1 1 1 1.5 0: 12
laywrite 1 1 1 1e3 0: 12
laywrite 1 1 1 10000000.00 -10000000.00: 0
laywrite 1 1 1 10000000.01 0: 3
laywrite 1 1 1 0 -10000000.01: 3
laywrite 2 0 1 1000000.00 10000000.00: 0
laywrite 2 0 1 1000000.01 0.00: 4
laywrite 2 0 1 0.00 -0.01: 4
laywrite 2 0 1 -0.00 -0.00: 0
laywrite 3 17 1 99999999999999999999.99 -99999999999999999999.99: 0
laywrite 1.00 1 1 0 0: 12
laywrite 1 1.00 1 0 0: 12
laywrite 1 1 1.00 0 0: 12
laywrite 1 1 1 300.1 0: 12
laywrite 1 1 1 300. 0: 12
laywrite 1 1 1 .50 0: 12
laywrite 1 1 1 300.011 0: 12
laywrite 1 1 1 3.00.00 0: 12
laywrite 1 1 1 -.50 0: 12
laywrite 1 1 1 +1.00 0: 12
laywrite 1 1 1 1,00 0: 12
layexpect 1 100000000 1000000000: 0
layexpect 1 100000001 0: 4
layexpect 1 0 1000000001: 4
layexpect 0 30000 40000: 5
layexpect 2 30000 40000: 5
layexpect 0 100000001 0: 4
layexpect 1 30000: 12
layexpect 1 30000 -1: 12
layexpect 1 1000000.00 10000000.00: 0
layexpect 1 1000000.01 0.00: 4
layexpect 1 0.00 10000000.01: 4
layexpect 1.00 300.00 400.00: 12
layexpect 1 300.0 400.00: 12
layexpect 1 -0.00 400.00: 12
layone 1 1000000000 -1000000000: 0
layone 1 1000000001 0: 3
layone 1 0 -1000000001: 3
layone 1 18446744073709541616 -20000: 3
layone 0 -10000 -20000: 5
layone 2 -10000 -20000: 5
layone 257 -10000 -20000: 5
layone 2 1000000001 0: 3
layone 1 -10000: 12
layone 1 -10000 -20000 0: 12
layone 1 10000000.00 -10000000.00: 0
layone 1 10000000.01 0.00: 3
layone 1 0.00 -10000000.01: 3
layone 1 -0 -0.00: 0
layone 1.00 -100.00 -200.00: 12
layone -1 -10000 -20000: 12
layone 1 -100.0 -200.00: 12
layone 1 +1 -200.00: 12
layshow 1: 12
laylist 1: 12
END

# came_of FOLDER: that each of its runs came to what it must; how many things were compared is counted
came_of() {
    local compared
    compared=$(python3 tests/tools.py judge "$1") && passed=$((passed + compared))
}

# all_hold VERB...: that of every run that tools.py writes. Nothing else is started for a run: there are many.
all_hold() {
    local made=$folders/$1 each arguments
    mkdir "$made"
    python3 tests/tools.py "$@" "$made"
    for each in "$made"/*; do
        mapfile -d '' arguments <"$each/arguments"
        status=0
        cd "$each/files"
        program "$(<../tool)" "${arguments[@]}" <../input >../printed 2>../said || status=$?
        echo "$status" >../status
    done
    cd "$repository"
    pass_if "$1" came_of "$made"
}
all_hold cases
all_hold random "$seed"

# shown_again: that what layshow prints of the folder, given to the tools, makes the same files
shown_again() {
    local again=$folders/again
    rm -rf "$again"
    mkdir "$again"
    run layshow
    ended_well || return 1
    (
        cd "$again"
        program layjob $(sed -n 's/^JOB //p' "$printed")
        sed -n 's/^CHAIN [0-9]* //p' "$printed" | program laychain
        sed -n 's/^LOG //p' "$printed" | program laywrite
    ) >"$folders/written" 2>"$said"
    [ ! -s "$said" ] && [ "$(wc -l <"$folders/written")" -eq 4 ] && diff -r "$folder" "$again"
}
for name in double_crossing three_records; do
    fresh
    cp "examples/$name/"*.dat "$folder"
    pass_if "$name, shown and written again" shown_again
done
fresh
run layjob 83222785 983222785 24 100000 18446744073709551615
pass_if "the largest job: $(head -n 3 "$said")" ended_well
run laychain < <(for i in {1..16}; do echo $i $((i * i)) $((100000000 - i)) $i $((7 * i)) $((1000000000 - i)) $((999000 + 125 * i)); done)
pass_if "the largest table: $(head -n 3 "$said")" ended_well
run laywrite < <(for i in {0..4999}; do echo $((1 + i % 3)) $((1 + i % 16)) $((i * 858993)) $((i * 19991)) $((i * 199999)); done)
pass_if "a log of 5,000 records: $(head -n 3 "$said")" ended_well
pass_if 'a large folder, shown and written again' shown_again

# Help is the same whatever comes after it.
tools=(layjob laychain laywrite layexpect layone layshow laylist)
for tool in "${tools[@]}"; do
    fresh
    run "$tool" --help </dev/null
    cp "$printed" "$folders/$tool.help"
    pass_if "$tool --help is printed" [ -s "$printed" ]
    run "$tool" --help 1 30000 '' </dev/null
    pass_if "$tool --help with others after it" cmp -s "$printed" "$folders/$tool.help"
    pass_if "$tool --help does nothing else" holds
done

pass_if 'laylist --help names scale.dat' grep -qF scale.dat "$folders/laylist.help"
pass_if 'laychain --help explains the factor' grep -qi factor "$folders/laychain.help"

# That of laylist and of layone has the form of each line that docs/FORMATS.md has: after the tool, how many, and how they begin.
while read -r tool count first; do
    forms=$(sed -nE 's/^\| `(('"$first"') [^`]*)` \|.*/\1/p' docs/FORMATS.md)
    pass_if "docs/FORMATS.md has $count forms of a line of $tool" [ "$(wc -l <<<"$forms")" -eq "$count" ]
    while read -r form; do
        pass_if "$tool --help has the form $form" grep -qE "^  ${form//./\\.}  " "$folders/$tool.help"
    done <<<"$forms"
done <<'END'
laylist 4 LINE
layone 3 NONE|ONE|SEVERAL
END

# pieces TEXT...: one text, in pieces that come one after the other
pieces() {
    local piece
    for piece; do
        printf %s "$piece"
        sleep 0.05
    done
}
fresh chain.dat job.dat scale.dat
run laywrite < <(pieces '1 1 1 -100' '00 -20000' $'\n2 0 2 3' $'0001 40000\n3 0 3 0 0' $'\n')
pass_if "a log in pieces: $(head -n 3 "$said")" holds "${files[@]}"
fresh job.dat lay.dat
run laychain < <(pieces '0 0 300' '00 0 0 4000' '0 10000' '0' $'0\n')
pass_if "a table in pieces: $(head -n 3 "$said")" holds "${files[@]}"

# Files that cannot be read or written. A folder in place of one is reported, nothing is printed for it, and nothing else changes.
while read -r file mark words; do
    fresh "${files[@]}"
    rm "$folder/$file"
    mkdir "$folder/$file"
    give $words
    pass_if "$words, with a folder $file, is reported: $(head -n 3 "$said")" reports "$file"
    pass_if "$words, with a folder $file, prints nothing of it" [ -z "$(grep "^$mark" "$printed")" ]
    pass_if "$words: the folder $file stays" rmdir "$folder/$file"
    cp "$example/$file" "$folder"
    pass_if "$words, with a folder $file: nothing else changes" holds "${files[@]}"
done <<'END'
job.dat . layjob 30000 40000 1 0 100
chain.dat . laychain 0 0 30000 0 0 40000
scale.dat . laychain 0 0 30000 0 0 40000
lay.dat . laywrite 3 0 3 0 0
chain.dat . layexpect 1 30000 40000
scale.dat . layexpect 1 30000 40000
chain.dat . layone 1 -10000 -20000
scale.dat . layone 1 -10000 -20000
job.dat . layone 1 -10000 -20000
job.dat JOB layshow
chain.dat CHAIN layshow
scale.dat SCALE layshow
lay.dat LOG layshow
END

# Memory where there is none can be opened, but not read.
while read -r file words; do
    fresh "${files[@]}"
    ln -sf /proc/self/mem "$folder/$file"
    give $words
    pass_if "$words, with memory as $file, is reported: $(head -n 3 "$said")" reports "$file"
done <<'END'
chain.dat layexpect 1 30000 40000
scale.dat layexpect 1 30000 40000
chain.dat layone 1 -10000 -20000
scale.dat layone 1 -10000 -20000
job.dat layone 1 -10000 -20000
job.dat layshow
chain.dat layshow
scale.dat layshow
lay.dat layshow
END

# Standard input that cannot be read is not taken for an empty one.
for tool in laychain laywrite; do
    fresh "${files[@]}"
    run "$tool" </
    pass_if "$tool of a folder reports it: $(head -n 3 "$said")" reports 'standard input'
    pass_if "$tool of a folder: the files stay" holds "${files[@]}"
    run "$tool" <&-
    pass_if "$tool without standard input: the files stay" holds "${files[@]}"
done

# Without standard error nothing that would be reported goes to a file instead.
fresh "${files[@]}"
(cd "$folder" && program laywrite 2>&- <<<'4 0 0 0 0') || true
pass_if 'a line refused without standard error' holds "${files[@]}"
fresh chain.dat job.dat scale.dat
(cd "$folder" && program laywrite 2>&- <<<"$records") >"$printed" || true
pass_if 'lines accepted without standard error' holds "${files[@]}"

# A folder in which no file can be made, as in /proc, is reported.
while read -r file words; do
    folder=/proc give $words
    pass_if "$words where no file can be made: $(head -n 3 "$said")" reports "$file"
done <<'END'
job.dat layjob 30000 40000 1 0 100
chain.dat laychain 0 0 30000 0 0 40000
lay.dat laywrite 3 0 3 0 0
END

# limited BLOCKS TOOL ARGUMENTS...: runs it where no file may have more than so many times 1,024 bytes
limited() {
    local reported
    status=0
    reported=$(trap '' XFSZ && cd "$folder" && ulimit -f "$1" && program "${@:2}" 2>&1) || status=$?
    echo "$reported" >"$said"
}

# A file that grows too large is reported, and stays as it was.
fresh "${files[@]}"
limited 0 layjob 30000 40000 0 0 1
pass_if "a job that cannot be written is reported: $(head -n 3 "$said")" reports job.dat
limited 0 laychain < <(echo 1 0 30000 0 0 40000)
pass_if "a table that cannot be written is reported: $(head -n 3 "$said")" reports chain.dat
limited 0 laywrite < <(echo 3 0 3 0 0)
pass_if "a log that cannot be written is reported: $(head -n 3 "$said")" reports lay.dat
pass_if 'what cannot be written changes nothing' holds "${files[@]}"
fresh chain.dat
head -c 992 /dev/zero >"$folder/lay.dat"
limited 1 laywrite < <(echo "$records")
pass_if "a log that ends at its limit is reported: $(head -n 3 "$said")" reports lay.dat
pass_if 'and has its old length' [ "$(wc -c <"$folder/lay.dat")" -eq 992 ]
pass_if 'with nothing beside it' [ "$(ls -A "$folder")" = $'chain.dat\nlay.dat' ]

# What cannot be printed is reported as well.
unprinted() {
    status=0
    (cd "$folder" && program "$@") >/dev/full 2>"$said" </dev/null || status=$?
    pass_if "$* on a full device: $(head -n 3 "$said")" reports 'standard output'
    (cd "$folder" && program "$@" >&-) 2>"$said" </dev/null || status=$?
    pass_if "$* with standard output closed: $(head -n 3 "$said")" reports 'standard output'
}
fresh "${files[@]}"
unprinted layshow
unprinted layexpect 1 30000 40000
unprinted layone 1 -10000 -20000
for tool in "${tools[@]}"; do unprinted "$tool" --help; done
head -c 320000 /dev/zero >"$folder/lay.dat"
unprinted layshow

# by_bin TOOL ARGUMENTS...: runs it in the folder by bin/
by_bin() {
    status=0
    (cd "$folder" && "${bin:-$repository/bin}/$1" "${@:2}") >"$printed" 2>"$said" || status=$?
}

# By bin/ they do the same, and end with 1 if something was reported.
fresh
by_bin layjob 30000 40000 1 0 100
pass_if "bin/layjob: $(head -n 3 "$said")" prints 'job.dat: 1 job written, 1 there now; a search may make 100 visits'
by_bin laychain <<<'0 0 30000 0 0 40000'
pass_if "bin/laychain: $(head -n 3 "$said")" prints "$one_chain"
by_bin laywrite <<<"$records"
pass_if "bin/laywrite: $(head -n 3 "$said")" prints 'lay.dat: 3 records written, 3 there now'
pass_if 'the files made by bin/' holds "${files[@]}"
by_bin layshow
pass_if "bin/layshow: $(head -n 3 "$said")" prints "$shown"
by_bin layexpect 1 30000 40000
pass_if "bin/layexpect: $(head -n 3 "$said")" prints 'A -10000 -100.00 00000000000059c0 0
B -20000 -200.00 00000000000069c0 0'
by_bin layone 1 -10000 -20000
pass_if "bin/layone: $(head -n 3 "$said")" prints 'SEVERAL 5'
by_bin laylist
pass_if "bin/laylist: $(head -n 3 "$said")" prints "$(<"$example/listing")"
mkdir "$folders/links"
ln -s "$repository/bin/layshow" "$folders/links"
bin=$folders/links by_bin layshow
pass_if "a link to bin/layshow: $(head -n 3 "$said")" prints "$shown"
by_bin layjob --help
pass_if 'bin/layjob --help ends with 0' ended_well
while read -r number words; do
    by_bin $words </dev/null
    pass_if "bin/$words ends with 1" [ "$status" -eq 1 ]
    status=0
    pass_if "bin/$words is refused with $number: $(head -n 3 "$said")" refused "${words%% *}" "$number"
done <<'END'
6 layjob 30000 40000 25 0 100
12 layjob 30000 40000 1
1 laychain
12 laywrite 1
5 layexpect 2 30000 40000
3 layone 1 -10000 1000000001
12 layone 1 -10000
12 layshow job.dat
END
status=0
(cd "$folder" && "$repository/bin/layshow") >/dev/full 2>"$said" || status=$?
pass_if 'bin/layshow ends with 1 on a full device' [ "$status" -eq 1 ]
# Where no file may grow, they report it, and are not killed by the system.
fresh "${files[@]}"
while read -r file tool words; do
    arguments= status=0
    [ $tool != layjob ] || arguments=$words
    reported=$(cd "$folder" && ulimit -f 0 && echo $words | "$repository/bin/$tool" $arguments 2>&1) || status=$?
    pass_if "bin/$tool where no file may grow: $reported" [ "$reported" = "$tool: $file: File too large" ]
    pass_if "bin/$tool where no file may grow ends with 1" [ "$status" -eq 1 ]
    pass_if "bin/$tool where no file may grow: the files stay" holds "${files[@]}"
done <<'END'
job.dat layjob 30001 40000 1 0 100
chain.dat laychain 1 0 30000 0 0 40000
lay.dat laywrite 3 0 3 0 0
END
# A note leaves the status 0; visits that end too soon are a refusal.
for allowance in 200000000:0 4:1; do
    fresh chain.dat scale.dat
    run layjob 30000 40000 1 0 ${allowance%:*}
    by_bin layone 1 -10000 -20000
    pass_if "bin/layone with ${allowance%:*} visits ends with $status: $(head -n 3 "$said")" [ "$status" -eq ${allowance#*:} ]
    pass_if "bin/layone with ${allowance%:*} visits says one thing" [ "$(wc -l <"$said")" -eq 1 ]
done
fresh "${files[@]}"
by_bin layjob '30000 40000' 1 0 100
pass_if 'bin/layjob passes its arguments on as they are' [ "$status" -eq 1 ]
by_bin laywrite < <(printf '4 0 0 0 0\n3 0 3 0')
pass_if 'bin/laywrite ends with 1 where lines are refused' [ "$status" -eq 1 ]
status=0
pass_if "bin/laywrite reports each line: $(head -n 3 "$said")" refused laywrite 1:2 2:12
pass_if 'refused by bin/, the files stay' holds "${files[@]}"

# walk: writes a script of the commands of a section of README.md, and what it shows of each. Commands stand after four spaces and `$ `,
# what belongs to them after four spaces and `> `, and what they print after four spaces.
walk() {
    awk -v to="$walked" '
        /^##/ { inside = $0 == "### From text to places" }
        !inside { next }
        /^    \$ / { n++; print "exec >" to "/printed." n " 2>&1" >(to "/script"); print substr($0, 7) >(to "/script"); next }
        /^    >( |$)/ { print substr($0, 7) >(to "/script"); next }
        /^    / { print substr($0, 5) >(to "/shown." n) }
        END { print n + 0 }
    ' README.md
}
walked=$folders/walked
mkdir -p "$walked/folder" "$walked/temporary"
steps=$(walk)
pass_if 'README.md has a section "From text to places" with commands' [ "$steps" -gt 0 ]
for time in first second; do
    (cd "$walked/folder" && TMPDIR=$walked/temporary PATH=$PATH:$repository/bin bash ../script </dev/null)
    for ((n = 1; n <= steps; n++)); do
        touch "$walked/shown.$n"
        pass_if "the $time time, command $n of README.md prints what it shows" diff "$walked/shown.$n" "$walked/printed.$n"
    done
done
pass_if 'nothing is left where it began' [ -z "$(ls -A "$walked/folder")" ]
done_testing
