#!/usr/bin/env bash
# Compares the listing program and the library with the second program, second/, which shares no code and no definition with
# them: both list the same folders, byte for byte, and both answer the same requests.
#
#   bash tests/comparison.sh [SEED [FOLDERS [REQUESTS]]]
cd "$(dirname "$0")/.." && . tests/common.bash && . tests/library.bash
seed=${1:-20261115} folders=${2:-2100} count=${3:-180000}

quietly cargo build --release --offline --manifest-path second/Cargo.toml --target-dir target/second
second=$repository/target/second/release/second
logs=$asked/logs listed=$asked/listed printed=$asked/printed said=$asked/said
mkdir "$logs"

# In each folder the second program has left its listing in `expected`; here laylist leaves its own in `printed`. There are many
# folders, so nothing else is started for each.
list_all() {
    local folder
    for folder in "$logs"/*; do
        cd "$folder"
        program laylist >printed 2>>"$said"
    done
    cd "$repository"
}

# joined NAME: the bytes of the files NAME of all folders, then the length of each, so that bytes missing in one folder cannot be
# made up for by bytes too many in the next
joined() { (cd "$logs" && printf '%s\0' */"$1" | xargs -0 cat && printf '%s\0' */"$1" | xargs -0 stat -c %s); }

# first_folder: prints the first folder whose listings differ, and where they differ
first_folder() {
    local folder
    for folder in "$logs"/*; do
        cmp -s "$folder/expected" "$folder/printed" && continue
        echo "folder $(basename "$folder") of seed $seed and $folders folders"
        diff "$folder/expected" "$folder/printed" | head -n 4 | cut -c 1-300
        return
    done
}

"$second" logs "$seed" "$folders" "$logs"
pass_if "there are $folders folders" [ "$(ls "$logs" | wc -l)" -eq "$folders" ]
list_all
others=$(sed '/^laylist: note: .* is missing, and counts as empty$/d' "$said")
pass_if "laylist has nothing to tell but that files are missing: $(head -n 1 <<<"$others")" [ -z "$others" ]
joined expected >"$listed"
joined printed >"$printed"
cmp -s "$printed" "$listed" || pass_if "$(first_folder)" false
passed=$((passed + folders))

"$second" requests "$seed" "$count" >"$requests"
pass_if "there are $count requests" [ "$(wc -l <"$requests")" -eq "$count" ]
ask "$second" answers

# among FILE: that each line of standard input is a line of the file
among() {
    local line
    while read -r line; do
        pass_if "$line" grep -qxF "$line" "$1"
    done
}

# With fewer folders or requests than the gate uses, what is tested below need not occur.
((folders >= 2100 && count >= 180000)) || {
    done_testing
    exit
}

# Every form of line that a listing may have occurs, with each refusal of a job, a table, a side file and a record; and there is a
# long log.
while read -r line; do
    pass_if "a line $line is among the listings" grep -qE "^$line" "$listed"
done <<'END'
[0-9]+ FIX 1 [0-9]+ [0-9]+ [0-9]+ 0$
[0-9]+ FIX 1 [0-9]+ [0-9]+ [0-9]+ 1$
[0-9]+ FIX 2 [0-9]+ [0-9]+ [0-9]+ [0-9]+ [0-9]+ 0$
[0-9]+ FIX 2 [0-9]+ [0-9]+ [0-9]+ [0-9]+ [0-9]+ 1$
[0-9]+ GRID 1 0 [0-9]+ [0-9]+ 0$
[0-9]+ GRID 1 0 [0-9]+ [0-9]+ 1$
[0-9]+ HOLD 1 0 [0-9]+ [0-9]+ 0$
[0-9]+ HOLD 1 0 [0-9]+ [0-9]+ 1$
[0-9]+ REFUSED 2 0$
[0-9]+ REFUSED 3 0$
[0-9]+ REFUSED 4 0$
[0-9]+ REFUSED 5 0$
[0-9]+ REFUSED 8 [0-9]+$
[0-9]+ REFUSED 9 [0-9]+$
[0-9]+ REFUSED 10 [0-9]+$
[0-9]+ REFUSED 11 0$
- REFUSED 1 0$
JOB REFUSED 1$
JOB REFUSED 2$
JOB REFUSED 6$
JOB REFUSED 7$
CHAIN REFUSED 1$
SCALE REFUSED 1$
END

# hold_of WORD FIELD: that a line with this word and this last field has a HOLD below it, which repeats the field
hold_of() {
    awk -v word="$1" -v field="$2" '
        $2 == "HOLD" && above == word && last == field && $NF == field { found = 1; exit }
        { above = $2; last = $NF }
        END { exit !found }' "$listed"
}
for word in FIX GRID HOLD; do
    for field in 0 1; do
        pass_if "a HOLD of a $word line ends with $field" hold_of $word $field
    done
done

pass_if 'a log of 20,000 records is among them' [ -n "$(find "$logs" -name lay.dat -size +639999c -print -quit)" ]
for file in job.dat chain.dat scale.dat lay.dat; do
    pass_if "$file is missing somewhere" [ "$(find "$logs" -name "$file" | wc -l)" -lt "$folders" ]
done

# Every wrong side file, alone and with a refused job or table, which is reported first. Factors of 1,000,000 and at both ends of the
# range; and one beyond each end, 0 and the largest number, of chains that records name and of chains that none does.
python3 tests/comparison.py "$logs" >"$said"
among "$said" <<'END'
missing side file: JOB REFUSED
missing side file: CHAIN REFUSED
missing side file: SCALE REFUSED
empty side file: JOB REFUSED
empty side file: CHAIN REFUSED
empty side file: SCALE REFUSED
short side file: JOB REFUSED
short side file: CHAIN REFUSED
short side file: SCALE REFUSED
long side file: JOB REFUSED
long side file: CHAIN REFUSED
long side file: SCALE REFUSED
999000: FIX
1000000: FIX
1001000: FIX
998999: REFUSED 5
998999: not named
1001001: REFUSED 5
1001001: not named
0: REFUSED 5
0: not named
4294967295: REFUSED 5
4294967295: not named
END

# minus_zero: that a grid record whose easting is minus zero is listed, and is exact. Each record of a log has its line.
minus_zero() {
    local folder at
    for folder in "$logs"/*; do
        [ -f "$folder/lay.dat" ] || continue
        at=$(od -An -v -tx1 -w32 "$folder/lay.dat" | grep -nE '^ 02 00 00 00( ..){4}( 00){7} 80' | head -n 1 | cut -d : -f 1)
        [ -n "$at" ] && sed -n "${at}p" "$folder/expected" | grep -qE ' GRID 1 0 0 [0-9]+ 0$' && return
    done
    return 1
}
pass_if 'a place of minus zero is listed as exact' minus_zero

# Every verb has been answered with each refusal that it can give; 0 is none.
refuses centimetres 0 3
refuses metres 0 3
refuses expected 0 1 4 5
refuses search 0 1 2 3 5 6 7 8 9 10
refuses how_many 0 1 2 3 5 6 7 10
refuses read_record 0 1 2 3 4
refuses write_record 0 1 2 3 4 5
refuses read_job 0 1 2 6 7
refuses write_job 0 1 6 7
refuses count_chains 0 1
refuses chain 0 1 5
refuses read_chain 0 1 5
refuses write_chain 0 1 5
refuses write_factor 0 1 5
refuses list 0 9
told version 3

# Each mark, above and below zero; then half a centimetre, which is no binary64 number, and its neighbours; ties; quarters of a metre;
# zeros and the smallest numbers; the limit. A refusal has no mark.
for mark in 0 1 2; do
    told 'centimetres [0-7][0-9a-f]{15}' "0 [1-9][0-9]* $mark"
    told 'centimetres [89a-f][0-9a-f]{15}' "0 -[1-9][0-9]* $mark"
done
while read -r number answer; do
    told "centimetres $number" "$answer"
done <<'END'
3f747ae147ae147a 0 0 2
3f747ae147ae147b 0 1 1
3f747ae147ae147c 0 1 1
bf747ae147ae147a 0 0 1
bf747ae147ae147b 0 -1 2
bf747ae147ae147c 0 -1 2
3fc0000000000000 0 12 2
3fd8000000000000 0 38 1
bfc0000000000000 0 -12 1
bfd8000000000000 0 -38 2
3fd0000000000000 0 25 0
bfd0000000000000 0 -25 0
0000000000000000 0 0 0
8000000000000000 0 0 0
0000000000000001 0 0 2
8000000000000001 0 0 1
416312cfffffffff 0 1000000000 1
416312d000000000 0 1000000000 0
416312d000000001 3 0 0
c16312cfffffffff 0 -1000000000 2
c16312d000000000 0 -1000000000 0
c16312d000000001 3 0 0
7ff0000000000000 3 0 0
END

# Records with every two marks. A hold has none, and neither has a refused record whose first number is rounded: one below 2 metres
# with the last bit set.
for kind in 1 2; do
    for marks in {0,1,2}' '{0,1,2}; do
        told 'read_record [0-9a-f]{64}' "0 $kind [0-9]+ [0-9]+ -?[0-9]+ -?[0-9]+ $marks"
    done
done
told 'read_record 03.{62}' '0 3 0 [0-9]+ 0 0 0 0'
for refusal in 2 3 4; do
    told 'read_record 0[12].{14}.[13579bdf].{12}[3b]f.{32}' "$refusal 0 0 [0-9]+ 0 0 0 0"
done

# What is held: an empty log passes it on as 0 or 1, a hold prints it, and a refusal leaves nothing of it.
lent='[0-9]+ [0-9]+' place='[0-9]+ [0-9]+' files='[0-9a-f]+ [0-9a-f]+ [0-9a-f]+'
hold='(3[0-9])+20484f4c442031203020(3[0-9])+20(3[0-9])+20'
for rounded in 0 1 7; do
    told "list $lent 0 $place $rounded $files -" '0 0 0 0 0 0 - kept'
    for held in 1 7; do
        given="list $lent $held $place $rounded" last=$((rounded > 0))
        told "$given $files -" "0 0 1 $place $last - kept"
        told "$given $files 03[0-9a-f]+" "0 [0-9]+ [01] $place [01] ${hold}3${last}0a[0-9a-f]* kept"
    done
done
told "list $lent [17] $place [17] .*" '9 0 0 0 0 0 - kept'
job_refused='0 14 0 0 0 0 4a4f422052454655534544203[1267]0a kept'
chain_refused='0 16 0 0 0 0 434841494e205245465553454420310a kept'
scale_refused='0 16 0 0 0 0 5343414c45205245465553454420310a kept'
told "list $lent [17] $place [17] .*" "$job_refused"

# A side file of another length for a table of two chains is reported after the job and the table, also if the log is empty.
given="list $lent [17] $place [0-9]+ [0-9a-f]{64}"
short='(-|[0-9a-f]{8}|[0-9a-f]{14})' long='([0-9a-f]{18}|[0-9a-f]{24}|[0-9a-f]{32})'
for wrong in "$short" "$long"; do
    told "$given [0-9a-f]{96} $wrong [0-9a-f]{64,}" "$scale_refused"
    told "$given [0-9a-f]{96} $wrong -" "$scale_refused"
done
told "$given ([0-9a-f]{94}|[0-9a-f]{98}) ($short|$long) [^ ]+" "$chain_refused"
told "$given [0-9a-f]{96} ($short|$long) [^ ]+" "$job_refused"

# Searches and how_many with the chain and the job given by numbers and by bytes, and with lengths that do not fit.
numbers='[0-9]+(,[0-9]+)+' readings='-?[0-9]+ -?[0-9]+'
for verb in "search $lent" how_many; do
    told "$verb $numbers [0-9]+ $numbers $readings" '0 .*'
    told "$verb [0-9a-f]{48} [0-9]+ [0-9a-f]{64} $readings" '0 .*'
    for digits in 46 50 96; do
        told "$verb [0-9a-f]{$digits} [0-9]+ [^ ]+ $readings" '1 .*'
    done
    for digits in 62 66; do
        told "$verb [^ ]+ [0-9]+ [0-9a-f]{$digits} $readings" '1 .*'
    done
    for given in 0 1 3; do
        told "$verb [^ ]+ [0-9]+ [^ ]+( -?[0-9]+){$given}" '1 .*'
    done
    told "$verb [^ ]+ [0-9]+ [0-9a-f]{64} $readings" '2 .*'
done

# Every function that takes a factor accepts 1,000,000 and both ends of the range, and refuses with 5, leaving zeros, what is beyond.
while read -r request; do
    for factor in 999000 1000000 1001000; do
        told "${request/FACTOR/$factor}" '0 .*'
    done
    for factor in 998999 1001001 0 4294967295; do
        told "${request/FACTOR/$factor}" '5( 0+)+'
    done
done <<'END'
expected 2 -?[0-9]+ [^ ]+ FACTOR [0-9]+ [0-9]+
search [1-9][0-9]* [0-9]+ [^ ]+ FACTOR [^ ]+ -?[0-9]+ -?[0-9]+
how_many [^ ]+ FACTOR [^ ]+ -?[0-9]+ -?[0-9]+
read_chain 6 [0-9]+ [^ ]+ FACTOR
write_chain 24 [0-9]+ FACTOR( [0-9]+){6}
write_factor 4 [0-9]+ FACTOR
END

# What is tested before a factor that is out of range is refused first, and what is tested after it is not. A search's list and the
# results of how_many are zero then too.
bad='(998999|1001001|0|4294967295)'
for verb in "search [1-9][0-9]* [0-9]+" how_many; do
    given="$verb [^ ]+ $bad"
    told "$verb [0-9a-f]{46} $bad [^ ]+ $readings" '1( 0)+'
    told "$given [^ ]+ -?[0-9]+" '1( 0)+'
    told "$given [0-9a-f]{66} $readings" '1( 0)+'
    told "$given [0-9a-f]{64} $readings" '2( 0)+'
    told "$given [^ ]+ 1000000001 -?[0-9]+" '3( 0)+'
    told "$given [0-9]+,[0-9]+,(25|255),[0-9]+,[0-9]+ $readings" '5( 0)+'
    told "$given [0-9]+,[0-9]+,[0-9]+,(100001|4294967295),[0-9]+ $readings" '5( 0)+'
done
told "expected [134] -?[0-9]+ [^ ]+ $bad $place" '1( 0)+'
told "expected 2 -?[0-9]+ [0-9a-f]{46} $bad $place" '1( 0)+'
told "expected 2 -?[0-9]+ [^ ]+ $bad 100000001 [0-9]+" '4( 0)+'
told "read_chain [57] [0-9]+ [^ ]+ $bad" '1( 0)+'
told "read_chain 6 [0-9]+ [0-9a-f]{46} $bad" '1( 0)+'
told "write_chain 24 [0-9]+ $bad( [0-9]+){5}" '1 0+'
told "write_chain 2[35] [0-9]+ $bad( [0-9]+){6}" '1 0+'
for length in 0 1 2 3 5 6; do
    told "write_factor $length [0-9]+ $bad" '1 (-|0+)'
    told "write_factor $length [0-9]+ (999|1000)[0-9]{3}" '1 (-|0+)'
done

# A chain comes with its factor. A side file of another length is refused before a number that is not in the table, and a factor out of
# range before a buffer of another length.
while read -r scale factor; do
    told "chain 24 [0-9]+ 1 [0-9a-f]{48} $scale" "0 [0-9a-f]{48} $factor"
done <<'END'
583e0f00 999000
40420f00 1000000
28460f00 1001000
END
for scale in 573e0f00 29460f00 00000000 ffffffff; do
    told "chain 24 [0-9]+ 1 [0-9a-f]{48} $scale" '5 0+ 0'
done
told 'chain (23|25|48) [0-9]+ 1 [0-9a-f]{48} (573e0f00|29460f00|00000000|ffffffff)' '5 0+ 0'
for wrong in - '[0-9a-f]{6}' '[0-9a-f]{10}' '[0-9a-f]{16}'; do
    told "chain 24 [0-9]+ 1 [0-9a-f]{48} $wrong" '1 0+ 0'
    told "chain $lent (0|2|1[67]|25[567]|4294967295) [0-9a-f]{48} $wrong" '1 (-|0+) 0'
done

# How many places: each answer, by numbers and by bytes; no visit allowed, and one; and what never is an answer.
pass_if 'how_many is asked 20,000 times' [ "$(grep -c '^how_many ' "$requests")" -ge 20000 ]
pass_if 'how_many never answers with 8 or 9' [ -z "$(grep -xE 'how_many [89]' "$met")" ]
for answer in '1 0 0' "2 $place" '3 0 0'; do
    told "how_many $numbers [0-9]+ $numbers $readings" "0 $answer [0-9]+"
    told "how_many [0-9a-f]{48} [0-9]+ [0-9a-f]{64} $readings" "0 $answer [0-9]+"
done
for allowance in 0 1; do
    told "how_many [^ ]+ [0-9]+ [0-9]+(,[0-9]+){3},$allowance $readings" "10 0 0 0 $allowance"
done
told "how_many [^ ]+ [0-9]+ [0-9]+(,[0-9]+){3},1 $readings" '0 1 0 0 1'
told "how_many [^ ]+ [0-9]+ [0-9]+(,[0-9]+){3},1 $readings" "0 2 $place 1"

# questions: what is met where how_many has its job by numbers, each on a line. The next request may be the same with another
# allowance, or a search for the same with the same allowance and room for all places.
questions() {
    grep -E '^(how_many|search) ' "$both" | awk -F '[ :]' '
        function at_least(east, north, offset) { return east - job[1] >= offset && north - job[2] >= offset }
        function agrees() {
            if ($9 == 8) return answer == 1 && visits == $11
            if ($10 == 1) return answer == 2 && visits == $11 && place == $12 " " $13
            return answer == 3 && visits <= $11
        }
        {
            at = $1 == "search" ? 4 : 2
            numbers = split($(at + 2), job, ",")
            before = question
            question = $at " " $(at + 1) " " job[1] " " job[2] " " job[3] " " job[4] " " $(at + 3) " " $(at + 4)
            again = numbers == 5 && question == before
        }
        $1 == "search" && again && job[5] "" == allowance "" {
            if ($9 == 10 && answer == 3) print "several where a search gives 10"
            if ($9 == 0 || $9 == 8) print agrees() ? "a search agrees with " answer : "a search disagrees: " $0
            if ($9 == 0 && answer == 3 && at_least($12, $13, 2 ^ (job[3] - 1))) print "several in the last quarter alone"
        }
        $1 == "how_many" && numbers == 5 && NF == 11 {
            if ($8 == 2 && job[3] >= 1 && at_least($9, $10, 2 ^ job[3] - 1)) print "one at the last cell"
            if (again && visits == allowance && $7 == 10 && job[5] == allowance - 1)
                print "the visits of " answer " are enough and one less is not"
            if ($7 == 0 && job[5] == $11 + 1) print "one visit more than " $8 " needs"
            answer = $7 == 0 ? $8 : "none"
            place = $9 " " $10
            visits = $11
            allowance = job[5]
        }
        $1 == "search" { question = "" }' | sort -u
}
questions >"$said"
among "$said" <<'END'
a search agrees with 1
a search agrees with 2
a search agrees with 3
one at the last cell
one visit more than 1 needs
one visit more than 2 needs
one visit more than 3 needs
several in the last quarter alone
several where a search gives 10
the visits of 1 are enough and one less is not
the visits of 2 are enough and one less is not
the visits of 3 are enough and one less is not
END
disagreeing=$(sed -n '/^a search disagrees/{p;q}' "$said")
pass_if "$disagreeing" [ -z "$disagreeing" ]
done_testing
