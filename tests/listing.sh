#!/usr/bin/env bash
# Tests of laylist: what it prints for folders, compared byte by byte with document 01's listing and limits, with the last field that
# 02's A1 adds and the side file of its A3, and with the rule's listing (listing.py); how it ends if a file cannot be read or its
# listing cannot be written; and the examples, listed by bin/laylist. A seed other than the gate's may be given.
cd "$(dirname "$0")/.." && . tests/common.bash
seed=${1:-20261115}
folders=$(mktemp -d)
trap 'rm -rf "$folders"' EXIT
folder=$folders/folder printed=$folders/printed said=$folders/said

# bytes HEXADECIMAL: the bytes themselves
bytes() { printf "$(sed 's/[^ ][^ ]/\\x&/g; s/ //g' <<<"$1")"; }

# put JOB TABLE LOG [SCALE]: makes the folder anew, with files of these bytes; a file given as `none` is missing. Unless a side file
# is given, it has the factor 1,000,000 for each chain of the table.
put() {
    local file digits=${2// /} scale
    printf -v scale '40420f00%.0s' $(seq $((${#digits} / 48)))
    [ ${#digits} -ge 48 ] || scale=
    set -- "$1" "$2" "${4-$scale}" "$3"
    rm -rf "$folder"
    mkdir "$folder"
    for file in job chain scale lay; do
        [ "$1" = none ] || bytes "$1" >"$folder/$file.dat"
        shift
    done
}

# run FOLDER: runs laylist there; its output goes to the file $printed, its standard error to $said, its exit status to `status`
run() {
    status=0
    (cd "$1" && program laylist) >"$printed" 2>"$said" || status=$?
}

# listed JOB TABLE LOG LINES [SCALE]: tests that a folder with these files has the listing LINES
listed() {
    put "$1" "$2" "$3" "${@:5}"
    run "$folder"
    pass_if "job $1, table $2, log $3, side file ${5-usual}: $(cat "$printed" "$said"), not $4" prints "$4"
}

# only_missing FOLDER: tests that nothing is told but notes of files that the folder does not have
only_missing() {
    local tool word file rest
    while read -r tool word file rest; do
        [ "$tool $word $rest" = 'laylist: note: is missing, and counts as empty' ] && [ ! -e "$1/$file" ] || return 1
    done <"$said"
}

# agrees FOLDER: tests that laylist prints what the file `listing` of the folder has
agrees() {
    run "$1"
    [ "$status" -eq 0 ] && only_missing "$1" && cmp -s "$printed" "$1/listing" || {
        cat "$said"
        diff "$1/listing" "$printed" | head -n 4 | cut -c 1-200
        return 1
    }
}

# all_agree VERB...: tests the same for every folder that `listing.py VERB...` writes
all_agree() {
    local made=$folders/$1 each
    mkdir "$made"
    python3 tests/listing.py "$@" "$made"
    for each in "$made"/*; do
        pass_if "$1: the folder $(basename "$each")" agrees "$each"
    done
}

# 01's job, its chain and its log of three records; 01 gives their whole output.
job='30750000 409c0000 01 000000 00000000 6400000000000000 0000000000000000'
table='00000000 00000000 30750000 00000000 00000000 409c0000'
fix='01 01 0000 01000000 00000000000059c0 00000000000069c0 0000000000000000'
grid='02 00 0000 02000000 5c8fc2f528c07240 0000000000007940 0000000000000000'
hold='03 00 0000 03000000 0000000000000000 0000000000000000 0000000000000000'
listed "$job" "$table" "$fix$grid$hold" \
    '1 FIX 2 5 30000 40000 30001 40001 0
2 GRID 1 0 30001 40000 1
3 HOLD 1 0 30001 40000 1'

# Jobs: k 24 and 25; the easting and the northing at their limits with k 0 and k 1; tolerances; k and tolerance both wrong; a byte
# that must be zero, with other faults and alone; lengths of 31 and 33.
held='2 GRID 1 0 30001 40000 1
3 HOLD 1 0 30001 40000 1'
while IFS=: read -r asked answer; do
    [ "$answer" != ' passes' ] || answer=$held
    listed "$asked" "$table" "$grid$hold" "${answer# }"
done <<'END'
30750000 409c0000 18 000000 00000000 6400000000000000 0000000000000000: passes
30750000 409c0000 19 000000 00000000 6400000000000000 0000000000000000: JOB REFUSED 6
00e1f505 409c0000 00 000000 00000000 6400000000000000 0000000000000000: passes
00e1f505 409c0000 01 000000 00000000 6400000000000000 0000000000000000: JOB REFUSED 6
30750000 00ca9a3b 00 000000 00000000 6400000000000000 0000000000000000: passes
30750000 00ca9a3b 01 000000 00000000 6400000000000000 0000000000000000: JOB REFUSED 6
30750000 409c0000 01 000000 a0860100 6400000000000000 0000000000000000: passes
30750000 409c0000 01 000000 a1860100 6400000000000000 0000000000000000: JOB REFUSED 7
30750000 409c0000 19 000000 a1860100 6400000000000000 0000000000000000: JOB REFUSED 6
30750000 409c0000 19 000001 a1860100 6400000000000000 0000000000000000: JOB REFUSED 2
30750000 409c0000 01 000000 00000000 6400000000000000 0000000000000080: JOB REFUSED 2
30750000 409c0000 01 000000 00000000 6400000000000000 00000000000000: JOB REFUSED 1
30750000 409c0000 01 000000 00000000 6400000000000000 0000000000000000 00: JOB REFUSED 1
END

# Tables of 0, 23 and 25 bytes, of 16 chains, of 16 chains and a byte, and of 17 chains. A bad job is reported before a bad table.
printf -v sixteen "$table%.0s" {1..16}
listed "$job" '' "$grid$hold" 'CHAIN REFUSED 1'
listed "$job" "${table%??}" "$grid$hold" 'CHAIN REFUSED 1'
listed "$job" "$table 00" "$grid$hold" 'CHAIN REFUSED 1'
listed "$job" "$sixteen" "$grid$hold" "$held"
listed "$job" "$sixteen 00" "$grid$hold" 'CHAIN REFUSED 1'
listed "$job" "$sixteen$table" "$grid$hold" 'CHAIN REFUSED 1'
listed "${job/ 01 / 19 }" "$table 00" "$grid$hold" 'JOB REFUSED 6'

# Side files for one chain, of every length up to nine bytes, and for 16 chains, of one byte less, one more and four more. A bad job
# and a bad table are reported before.
scale=40420f00
listed "$job" "$table" "$fix$grid$hold" 'SCALE REFUSED 1' ''
for ((n = 2; n <= 18; n += 2)); do
    answer='SCALE REFUSED 1' its_scale=$scale$scale$scale
    [ $n -ne 8 ] || answer=$held
    listed "$job" "$table" "$grid$hold" "$answer" "${its_scale:0:n}"
done
printf -v scales "$scale%.0s" {1..16}
listed "$job" "$sixteen" "$grid$hold" "$held" "$scales"
listed "$job" "$sixteen" "$grid$hold" 'SCALE REFUSED 1' "${scales%00}"
listed "$job" "$sixteen" "$grid$hold" 'SCALE REFUSED 1' "${scales}00"
listed "$job" "$sixteen" "$grid$hold" 'SCALE REFUSED 1' "$scales$scale"
listed "$job" "$sixteen" '' 'SCALE REFUSED 1' "$scale"
listed "$job" "$table" "${grid%??}" 'SCALE REFUSED 1' "${scale}00"
listed "$job" "$table 00" "$grid$hold" 'CHAIN REFUSED 1' "${scale}00"
listed "${job/ 01 / 19 }" "$table" "$grid$hold" 'JOB REFUSED 6' "${scale}00"
listed "${job/ 01 / 19 }" "$table 00" "$grid$hold" 'JOB REFUSED 6' ''

# Files that are missing: a note says so of each that is looked for.
without() {
    put "${@:2:3}" "${@:6}"
    run "$folder"
    pass_if "job $2, table $3, log $4: $(cat "$printed" "$said"), not $5" cmp -s "$printed" <(printf "${5:+%s\n}" "$5")
    pass_if "$1 is missing: $(cat "$said")" [ "$(<"$said")" = "laylist: note: $1 is missing, and counts as empty" ]
}
without job.dat none "$table" "$grid$hold" 'JOB REFUSED 1'
without chain.dat "$job" none "$grid$hold" 'CHAIN REFUSED 1'
without scale.dat "$job" "$table" "$grid$hold" 'SCALE REFUSED 1' none
without scale.dat "$job" "$table" none 'SCALE REFUSED 1' none
without chain.dat "$job" none "$grid$hold" 'CHAIN REFUSED 1' none
without lay.dat "$job" "$table" none ''
without job.dat none none none 'JOB REFUSED 1'

# Logs of 0, 1, 31, 32 and 33 bytes, and one whose second record is short.
listed "$job" "$table" '' ''
listed "$job" "$table" '01' '- REFUSED 1 0'
listed "$job" "$table" "${grid%??}" '- REFUSED 1 0'
listed "$job" "$table" "$grid" '2 GRID 1 0 30001 40000 1'
listed "$job" "$table" "$grid 03" '2 GRID 1 0 30001 40000 1
- REFUSED 1 0'
listed "$job" "$table" "$grid${hold%??}" '2 GRID 1 0 30001 40000 1
- REFUSED 1 0'

# Single records: eastings of -0.001 m and -0.01 m; the greatest line number, also of a refused record; the far corner of the
# chart; chains that are not in the table; NaN; readings that no cell matches; minus zero in an unused field.
while IFS=: read -r record answer; do
    listed "$job" "$table" "$record" "${answer# }"
done <<'END'
02 00 0000 02000000 fca9f1d24d6250bf 0000000000007940 0000000000000000: 2 GRID 1 0 0 40000 1
02 00 0000 02000000 7b14ae47e17a84bf 0000000000007940 0000000000000000: 2 REFUSED 4 0
02 00 0000 ffffffff 5c8fc2f528c07240 0000000000007940 0000000000000000: 4294967295 GRID 1 0 30001 40000 1
04 00 0000 ffffffff 5c8fc2f528c07240 0000000000007940 0000000000000000: 4294967295 REFUSED 2 0
02 00 0000 00000000 0000000080842e41 00000000d0126341 0000000000000000: 0 GRID 1 0 100000000 1000000000 0
01 00 0000 01000000 00000000000059c0 00000000000069c0 0000000000000000: 1 REFUSED 5 0
01 02 0000 01000000 00000000000059c0 00000000000069c0 0000000000000000: 1 REFUSED 5 0
01 ff 0000 01000000 00000000000059c0 00000000000069c0 0000000000000000: 1 REFUSED 5 0
01 01 0000 01000000 000000000000f87f 00000000000069c0 0000000000000000: 1 REFUSED 3 0
01 01 0000 01000000 0000000000000000 0000000000000000 0000000000000000: 1 REFUSED 8 1
01 01 0000 01000000 00000000000059c0 00000000000069c0 0000000000000080: 1 REFUSED 2 0
END

# An unsound chain matters only if a record names it.
listed "$job" "00000000 00000000 00000000 00000000 00000000 409c0000 $table" "$grid$fix${fix/01 01/01 02}" \
    '2 GRID 1 0 30001 40000 1
1 REFUSED 5 0
1 FIX 2 5 30000 40000 30001 40001 0'

# So does a factor that is out of range: 0, 998999, 1001001 and the largest number, in the first of two chains.
for factor in 00000000 573e0f00 29460f00 ffffffff; do
    listed "$job" "$table$table" "$grid$fix$hold${fix/01 01/01 02}" \
        '2 GRID 1 0 30001 40000 1
1 REFUSED 5 0
3 REFUSED 11 0
1 FIX 2 5 30000 40000 30001 40001 0' "$factor$scale"
    listed "$job" "$table" "$grid$hold" "$held" $factor
done

# By the least factor, 999000, the ranges 50000, 40000 and 30000 are 50050, 40040 and 30030, and by the greatest, 1001000, they are
# 49950, 39960 and 29970. So the place of 01's first record reads -100.10 m and -200.20 m, or -99.90 m and -199.80 m.
least='01 01 0000 01000000 66666666660659c0 66666666660669c0 0000000000000000'
greatest='01 01 0000 02000000 9a99999999f958c0 9a99999999f968c0 0000000000000000'
listed "${job/ 01 / 00 }" "$table" "$least$greatest$fix" '1 FIX 1 1 30000 40000 1
2 REFUSED 8 1
1 REFUSED 8 1' 583e0f00
listed "${job/ 01 / 00 }" "$table" "$least$greatest$fix" '1 REFUSED 8 1
2 FIX 1 1 30000 40000 1
1 REFUSED 8 1' 28460f00

# A hold as the first record, after a grid record, after holds, after two places, after one place (k 0), after a refusal.
listed "$job" "$table" "$hold" '3 REFUSED 11 0'
listed "$job" "$table" "$grid$hold$hold$fix$hold$hold" \
    '2 GRID 1 0 30001 40000 1
3 HOLD 1 0 30001 40000 1
3 HOLD 1 0 30001 40000 1
1 FIX 2 5 30000 40000 30001 40001 0
3 REFUSED 11 0
3 REFUSED 11 0'
listed "${job/ 01 / 00 }" "$table" "$grid$fix$hold${grid/02/04}$hold" \
    '2 GRID 1 0 30001 40000 1
1 FIX 1 1 30000 40000 0
3 HOLD 1 0 30000 40000 0
2 REFUSED 2 0
3 REFUSED 11 0'

# The last field is 0 if both numbers are exact, and 1 if the first, the second or both were rounded: readings next to -100 m and
# -200 m, places of 300 m or 300.01 m and 400 m or 400.01 m. Minus zero is exact. A hold repeats the field, and so does a hold after it,
# until another record comes; where a fix has two places, a hold after it is refused whatever the field.
fix_a=${fix/ 00000000000059c0/ 01000000000059c0} fix_b=${fix/ 00000000000069c0/ ffffffffffff68c0}
exact=${grid/5c8fc2f528c07240/0000000000c07240}
northing=${exact/0000000000007940/5c8fc2f528007940} both=${grid/0000000000007940/5c8fc2f528007940}
listed "$job" "$table" "$fix$fix_a$fix_b${fix_a/ 00000000000069c0/ ffffffffffff68c0}" \
    '1 FIX 2 5 30000 40000 30001 40001 0
1 FIX 2 5 30000 40000 30001 40001 1
1 FIX 2 5 30000 40000 30001 40001 1
1 FIX 2 5 30000 40000 30001 40001 1'
listed "$job" "$table" "$exact$grid$northing$both${exact/0000000000c07240/0000000000000080}" \
    '2 GRID 1 0 30000 40000 0
2 GRID 1 0 30001 40000 1
2 GRID 1 0 30000 40001 1
2 GRID 1 0 30001 40001 1
2 GRID 1 0 0 40000 0'
listed "$job" "$table" "$exact$hold$hold$northing$hold$hold$exact$hold$fix_a$hold$hold" \
    '2 GRID 1 0 30000 40000 0
3 HOLD 1 0 30000 40000 0
3 HOLD 1 0 30000 40000 0
2 GRID 1 0 30000 40001 1
3 HOLD 1 0 30000 40001 1
3 HOLD 1 0 30000 40001 1
2 GRID 1 0 30000 40000 0
3 HOLD 1 0 30000 40000 0
1 FIX 2 5 30000 40000 30001 40001 1
3 REFUSED 11 0
3 REFUSED 11 0'
listed "${job/ 01 / 00 }" "$table" "$fix$hold$fix_a$hold$hold$fix_b$hold$fix$hold" \
    '1 FIX 1 1 30000 40000 0
3 HOLD 1 0 30000 40000 0
1 FIX 1 1 30000 40000 1
3 HOLD 1 0 30000 40000 1
3 HOLD 1 0 30000 40000 1
1 FIX 1 1 30000 40000 1
3 HOLD 1 0 30000 40000 1
1 FIX 1 1 30000 40000 0
3 HOLD 1 0 30000 40000 0'

# Allowances of 0, 4 and 5 for 01's first record. Then windows in which every cell matches: one of 1,024 cells, with an allowance
# that lasts until the list is found full and with one visit less; and one of 256 cells, which all fit into the list.
listed "${job/ 64/ 00}" "$table" "$fix$hold" '1 REFUSED 10 0
3 REFUSED 11 0'
listed "${job/ 64/ 04}" "$table" "$fix" '1 REFUSED 10 4'
listed "${job/ 64/ 05}" "$table" "$fix" '1 FIX 2 5 30000 40000 30001 40001 0'
listed '30750000 409c0000 05 000000 a0860100 5b01000000000000 0000000000000000' "$table" "$fix" '1 REFUSED 9 347'
listed '30750000 409c0000 05 000000 a0860100 5a01000000000000 0000000000000000' "$table" "$fix" '1 REFUSED 10 346'
put '30750000 409c0000 04 000000 a0860100 5501000000000000 0000000000000000' "$table" "$fix"
run "$folder"
pass_if '256 places are a fix' ended_well
pass_if '256 places are counted, and 341 visits' [ "$(cut -d ' ' -f 1-6 "$printed")" = '1 FIX 256 341 30000 40000' ]
pass_if '256 places are all printed, and the last field' [ "$(wc -w <"$printed")" -eq 517 ]
pass_if '256 places differ' [ "$(cut -d ' ' -f 5-516 "$printed" | tr ' ' '\n' | paste - - | sort -u | wc -l)" -eq 256 ]
pass_if '256 places of exact readings end with 0' [ "$(cut -d ' ' -f 517- "$printed")" = 0 ]

# The chosen folders, and folders whose logs end near the edges of the buffers: the program reads 65,536 bytes of the log at a
# time and lists them in parts of 4,096.
all_agree cases
all_agree edges

# Long logs: 100,000 records, and lines of up to 256 places, which lie across the ends of what the program writes at a time.
all_agree long

# The log need not fit into memory. A pipe that is not read keeps the program waiting near the end of its listing, and /proc gives
# the most memory that it has used so far. This works under the emulator too, whose own memory is in both figures. The longer log
# has 2,900 kilobytes more than the shorter one, and its listing 2,800 more.
memory_of() { python3 tests/listing.py memory "$folders/long/$1" "${loader[@]}" "$repository/target/bin/laylist"; }
few=$(memory_of records_8000)
many=$(memory_of records_100000)
pass_if "a log of 100,000 records takes $many kB, one of 8,000 takes $few" [ $((many - few)) -lt 1000 ]

# tells NAME: tests that standard error has one line, which begins with `laylist: NAME: `
tells() { [[ "$(<"$said")" == "laylist: $1: "?* ]] && [ "$(wc -l <"$said")" -eq 1 ]; }

# What cannot be read in place of a file: a folder; and /proc/self/mem, as there is no memory at address 0.
for file in job.dat chain.dat scale.dat lay.dat; do
    for unreadable in mkdir 'ln -s /proc/self/mem'; do
        put "$job" "$table" "$fix$grid$hold"
        rm "$folder/$file"
        $unreadable "$folder/$file"
        run "$folder"
        pass_if "$unreadable $file is told: $(cat "$said")" tells "$file"
        pass_if "$unreadable $file: nothing is printed" [ ! -s "$printed" ]
    done
done

# A refused job, table or side file is reported even if a file after it cannot be read.
for bad in {chain,scale,lay}.dat:"${job/ 01 / 19 }":"$table":$scale:'JOB REFUSED 6' \
    {scale,lay}.dat:"$job":"$table 00":$scale:'CHAIN REFUSED 1' lay.dat:"$job":"$table"::'SCALE REFUSED 1'; do
    IFS=: read -r file its_job its_table its_scale answer <<<"$bad"
    for unreadable in mkdir 'ln -s /proc/self/mem'; do
        put "$its_job" "$its_table" "$fix" "$its_scale"
        rm "$folder/$file"
        $unreadable "$folder/$file"
        run "$folder"
        pass_if "$unreadable $file: $(cat "$printed" "$said"), not $answer" prints "$answer"
    done
done

# That a listing cannot be written is reported, whether it is short, long or the refusal of a job.
unwritten() {
    (cd "$1" && program laylist) 2>"$said" >/dev/full
    pass_if "$1 on a full device: $(cat "$said")" tells 'standard output'
    (cd "$1" && program laylist >&-) 2>"$said"
    pass_if "$1 with standard output closed: $(cat "$said")" tells 'standard output'
}
unwritten examples/three_records
unwritten examples/refused_job
unwritten "$folders/long/records_100000"

# by_bin ARGUMENTS...: runs bin/laylist in the current folder; leaves what it does as `run` does
laylist=$repository/bin/laylist
by_bin() {
    status=0
    "$laylist" "$@" >"$printed" 2>"$said" || status=$?
}

# lists FILE ARGUMENTS...: tests that bin/laylist with these arguments prints what FILE has, and ends with 0
lists() {
    by_bin "${@:2}"
    ended_well && cmp "$printed" "$1"
}

# The examples: their files are those that listing.py makes, and bin/laylist prints what their `listing` has.
mkdir "$folders/examples"
python3 tests/listing.py examples "$folders/examples"
examples=$(ls "$folders/examples")
pass_if 'every example is one of listing.py' [ "$(cd examples && ls -d */)" = "$(sed 's,$,/,' <<<"$examples")" ]
for name in $examples; do
    for file in job.dat chain.dat scale.dat lay.dat listing; do
        pass_if "examples/$name/$file" cmp "examples/$name/$file" "$folders/examples/$name/$file"
    done
    pass_if "bin/laylist examples/$name" lists "examples/$name/listing" "examples/$name"
    pass_if "examples/README.md has $name" grep -qF "[$name]($name/README.md)" examples/README.md
done
pass_if 'the example of three records is 01'"'"'s' [ "$(<examples/three_records/listing)" = \
    '1 FIX 2 5 30000 40000 30001 40001 0
2 GRID 1 0 30001 40000 1
3 HOLD 1 0 30001 40000 1' ]
pass_if 'the first command of README.md, and what it shows of it' [ "$(sed -n 's/^    //p' README.md | head -n 4)" = \
    "bin/laylist examples/three_records
$(<examples/three_records/listing)" ]

# A folder from before 02's A3, which has no side file, is refused as examples/README.md and docs/FORMATS.md say.
cp -r examples/three_records "$folders/old"
rm "$folders/old/scale.dat"
by_bin "$folders/old"
pass_if "bin/laylist of a folder without a side file: $(cat "$printed" "$said")" [ "$status $(<"$printed")" = '0 SCALE REFUSED 1' ]
for page in examples/README.md docs/FORMATS.md; do pass_if "$page has SCALE REFUSED 1" grep -qF 'SCALE REFUSED 1' $page; done

# bin/laylist FOLDER from another folder. That one has another example, which shows if it is listed by mistake; in it are folders
# with the three records, under names that are easily misread.
three=$repository/examples/three_records/listing
desk=$folders/desk
cp -r examples/every_refusal "$desk"
cd "$desk"
pass_if 'bin/laylist without a folder' lists "$repository/examples/every_refusal/listing"
pass_if 'bin/laylist of an absolute path' lists "$three" "$repository/examples/three_records"
for name in three 'three records' ' three' -three - -- -P --help '*' '~' a/b; do
    mkdir -p "./$name"
    cp "$repository/examples/three_records/"*.dat "./$name"
    [ "$name" = --help ] || pass_if "bin/laylist '$name'" lists "$three" "$name"
    pass_if "bin/laylist './$name/'" lists "$three" "./$name/"
    pass_if "bin/laylist '../desk/$name'" lists "$three" "../desk/$name"
done
OLDPWD=$repository/examples/refused_job pass_if 'a folder of the name -, and not the one before' lists "$three" -
pass_if 'bin/laylist .' lists "$repository/examples/every_refusal/listing" .
cd three
pass_if 'bin/laylist . of another folder' lists "$three" .
pass_if 'bin/laylist ..' lists "$repository/examples/every_refusal/listing" ..

# In a folder entered by a link, `..` is the parent of the folder itself, not of the link. A folder named by a link; bin/laylist
# called by a link.
ln -s "$desk/a/b" "$folders/examples/linked"
cd "$folders/examples/linked"
cp "$repository/examples/refused_job/"*.dat "$desk/a"
pass_if 'bin/laylist .. of a folder entered by a link' lists "$repository/examples/refused_job/listing" ..
cd ..
pass_if 'bin/laylist of a link to a folder' lists "$three" linked
ln -s "$laylist" "$folders/laylist"
laylist=../laylist pass_if 'a link to bin/laylist, by a path from here' lists "$three" linked
laylist=../laylist pass_if 'a link to bin/laylist, with a path from here' lists "$three" ../desk/three

# CDPATH has no effect, and nothing is printed because of it. The folder that it would lead to has another example.
mkdir -p "$folders/other/three"
cp "$repository/examples/refused_job/"*.dat "$folders/other/three"
cd "$desk"
export CDPATH=$folders/other:$repository/examples
pass_if 'bin/laylist where CDPATH has a folder of that name' lists "$three" three
by_bin refused_job
pass_if 'bin/laylist of a folder that only CDPATH has' [ "$status" -eq 2 ]
unset CDPATH
cd "$repository"

# It ends with 1 if laylist reports something on standard error.
put "$job" "$table" none
mkdir "$folder/lay.dat"
by_bin "$folder"
pass_if 'bin/laylist tells what laylist tells' tells lay.dat
pass_if 'and ends with 1' [ "$status" -eq 1 ]

# misused ARGUMENTS...: tests that bin/laylist prints no listing, reports one line of its own, and ends with 2
misused() {
    by_bin "$@"
    [ "$status" -eq 2 ] && [ ! -s "$printed" ] && [ "$(wc -l <"$said")" -eq 1 ] && grep -q '^laylist: .* ' "$said"
}
pass_if 'bin/laylist with two folders' misused examples/three_records examples/refused_job
pass_if 'bin/laylist with a folder and help' misused examples/three_records --help
pass_if 'bin/laylist with a folder that does not exist' misused "$folders/nowhere"
pass_if 'its name is told' grep -qF "$folders/nowhere: " "$said"
pass_if 'bin/laylist with a file' misused examples/README.md
pass_if 'bin/laylist with a name of no bytes' misused ''
pass_if 'bin/laylist with an option' misused -l

# With --help first, bin/laylist prints the program's help, whatever arguments follow and whatever folder it is run in.
program laylist --help >"$folders/help"
pass_if 'bin/laylist --help' lists "$folders/help" --help
pass_if 'bin/laylist --help with a folder' lists "$folders/help" --help examples/three_records
cd "$desk"
pass_if 'bin/laylist --help beside a folder of that name' lists "$folders/help" --help
cd "$repository"

# 200 folders at random.
all_agree random "$seed"
done_testing
