#!/usr/bin/env bash
# Tests that nothing is lost at the desk, and that nothing hangs: tools that are killed, fail or meet a full disk at any of their
# calls, and several that write at once (desk.py, faults.c); what is typed slowly or at a terminal; links, FIFOs, devices, folders and
# protected files in place of a file; and what the tools say of what they refuse, write and miss.
cd "$(dirname "$0")/.." && . tests/common.bash && . tests/needs.bash
export LC_ALL=C
umask 022
folders=$(mktemp -d)
trap 'rm -rf "$folders"' EXIT
chmod 755 "$folders"
folder=$folders/folder printed=$folders/printed said=$folders/said before=$folders/before
files=(chain.dat job.dat lay.dat scale.dat)
tools=(layjob laychain laywrite layexpect layone layshow laylist)
writes='job.dat layjob 30001 40000 1 0 100
chain.dat laychain 1 0 30000 0 0 40000
scale.dat laychain 0 0 30000 0 0 40000 999641
lay.dat laywrite 3 0 4 0 0'

# The library of faults has every call by which a program reaches a file; else a program would make some that no fault is tried at.
"$compiler" -std=c11 -O2 -Wall -Wextra -Werror -shared -fPIC -o "$folders/faults.so" tests/faults.c
symbols() { "${compiler%gcc}nm" -D "$1" "$2" | sed 's/.* //; s/@.*//'; }
others='__errno_location __libc_start_main __sysv_signal __write __x86_get_cpuid_feature_leaf __xpg_strerror_r memcpy memmove memset memcmp bcmp isatty'
for tool in "${tools[@]}"; do
    unknown=$(comm -23 <(symbols --undefined-only "target/bin/$tool" | grep -v '^__gmon\|^_ITM\|^__cxa' | sort -u) \
        <({ tr ' ' '\n' <<<"$others"; symbols --defined-only "$folders/faults.so"; } | sort -u))
    pass_if "tests/faults.c has every call of $tool, but not $unknown" [ -z "$unknown" ]
done

# held VERB: that all checks of desk.py hold; how many there were is counted
held() {
    local checks
    mkdir "$folders/$1"
    checks=$(python3 tests/desk.py "$1" "$folders/$1" "$folders/faults.so" "${loader[@]}") && passed=$((passed + checks))
}
for verb in faults writers readers keyboard search; do pass_if "$verb" held $verb; done

# run TOOL ARGUMENTS...: runs it in the folder, by bin/ if `by` says so, for ten seconds at most; in `status` how it ended
run() {
    local command=("${loader[@]}" "$repository/target/bin/$1")
    [ -z "${by:-}" ] || command=("$repository/bin/$1")
    status=0
    (cd "$folder" && exec timeout 10 "${command[@]}" "${@:2}") >"$printed" 2>"$said" || status=$?
}

# says LINE...: that standard error has exactly these lines
says() { cmp -s "$said" <(printf "${1:+%s\n}" "$@"); }

# What is in the folder, with links, modes, owners and content: `listed` has it as it was, and `stays` says that it is so still.
look() (cd "$folder" && find . -mindepth 1 -printf '%p %y %m %U %G %i %n %l\n' -type f -exec sha256sum {} + | sort)
stays() { [ "$(look)" = "$listed" ]; }

# Things in place of a file, each made by a command with the file's name as $1. mknod is not allowed to everybody.
odd='this is a folder, a FIFO or a device, not a file'
link='this is a link; go to the folder of the file that it leads to'
another='this file has another name, which would keep the old one; remove one of the two'
protected='this file is write-protected'
declare -A kinds=(
    [folder]='mkdir "$1"'
    [FIFO]='mkfifo "$1"'
    ['link to a FIFO']='mkfifo aside; ln -s aside "$1"'
    ['link to a folder']='mkdir aside; ln -s aside "$1"'
    ['link to /dev/zero']='ln -s /dev/zero "$1"'
    ['link to /dev/null']='ln -s /dev/null "$1"'
    ['link to a terminal']='ln -s /dev/tty "$1"'
    ['link to a file']='cp "$original" aside; ln -s aside "$1"'
    ['dangling link']='ln -s aside "$1"'
    ['link to itself']='ln -s "$1" "$1"'
    ['second name']='cp "$original" aside; ln aside "$1"'
    ['protected file']='cp "$original" "$1"; chmod 444 "$1"'
)
if [ "$(id -u)" -eq 0 ] && mknod "$folders/zero" c 1 5 2>/dev/null; then
    kinds['device of zeros']='mknod "$1" c 1 5' kinds['device of nothing']='mknod "$1" c 1 3'
fi
# who is not root cannot read it
[ "$(id -u)" -ne 0 ] || kinds['file without any mode']='cp "$original" "$1"; chmod 0 "$1"'

# place KIND FILE: puts it into a folder with the other files of 01's example
place() {
    fresh "${files[@]}"
    rm "$folder/$2"
    (cd "$folder" && original=$example/$2 bash -c "${kinds[$1]}" - "$2")
    listed=$(look)
}

# why_not KIND: what a tool that writes says of it
why_not() {
    case $1 in
    *link*) echo "$link" ;;
    second*) echo "$another" ;;
    protected* | *mode) echo "$protected" ;;
    *) echo "$odd" ;;
    esac
}

# A tool that writes says why it does not, and leaves everything as it is; so does laywrite before it reads a line.
while read -r file tool words; do
    for kind in "${!kinds[@]}"; do
        place "$kind" "$file"
        give $tool $words
        pass_if "$tool with a $kind as $file: $(head -n 3 "$said")" says "$tool: $file: $(why_not "$kind")"
        pass_if "$tool with a $kind as $file prints nothing" [ ! -s "$printed" ]
        pass_if "$tool with a $kind as $file ended with $status: everything stays" stays
    done
    by=bin give $tool $words
    pass_if "bin/$tool ends with 1" [ "$status" -eq 1 ]
done <<<"$writes"
while read -r tool file; do
    place 'protected file' $file
    mkfifo "$folders/typed"
    (cd "$folder" && timeout 10 "${loader[@]}" "$repository/target/bin/$tool" <>"$folders/typed") >"$printed" 2>"$said" || true
    rm "$folders/typed"
    pass_if "$tool says so of $file before anything is typed: $(cat "$said")" says "$tool: $file: $protected"
done <<'END'
laychain chain.dat
laychain scale.dat
laywrite lay.dat
END

# A tool that reads follows links, and refuses what is not a file.
while read -r file mark tool words; do
    fresh "${files[@]}"
    give $tool $words
    cp "$printed" "$before"
    for kind in "${!kinds[@]}"; do
        place "$kind" "$file"
        give $tool $words
        what="$tool with a $kind as $file, status $status: $(cat "$said" "$printed" | head -c 300)"
        case $kind in
        'link to a file' | second* | protected* | *mode)
            pass_if "$what" [ ! -s "$said" ]
            pass_if "$what" cmp -s "$printed" "$before"
            ;;
        dangling*)
            pass_if "$what" grep -qxF "$tool: note: $file is missing, and counts as empty" "$said"
            ;;
        *itself)
            pass_if "$what" grep -q "^$tool: $file: ." "$said"
            ;;
        *)
            pass_if "$what" says "$tool: $file: $odd"
            pass_if "$what" [ -z "$(grep "^$mark" "$printed")" ]
            ;;
        esac
        pass_if "$what: everything stays" stays
    done
done <<'END'
chain.dat . layexpect 1 30000 40000
scale.dat . layexpect 1 30000 40000
chain.dat . layone 1 -10000 -20000
scale.dat . layone 1 -10000 -20000
job.dat . layone 1 -10000 -20000
job.dat JOB layshow
chain.dat CHAIN layshow
scale.dat SCALE layshow
lay.dat LOG layshow
job.dat . laylist
chain.dat . laylist
scale.dat . laylist
lay.dat . laylist
END

# laywrite looks into chain.dat as well, and does not hang there; the log is written, or it is said why not.
for kind in "${!kinds[@]}"; do
    place "$kind" chain.dat
    give laywrite 1 1 4 0 0
    what="laywrite with a $kind as chain.dat, status $status: $(cat "$said" "$printed" | head -c 300)"
    pass_if "$what" [ "$status" -eq 0 ]
    size=$(wc -c <"$folder/lay.dat")
    if grep -qx 'lay.dat: 1 record written, 4 there now' "$printed"; then
        pass_if "$what: written" [ "$size" -eq 128 ]
    else
        pass_if "$what: not written" [ "$size" -eq 96 ]
        pass_if "$what: it is said" grep -qv '^laywrite: note: ' "$said"
    fi
done

# Mode and owner stay; a new file has the mode that the caller's umask leaves.
while read -r file tool words; do
    for mode in 600 640 664 666 606 755 200; do
        fresh "${files[@]}"
        chmod $mode "$folder/$file"
        [ "$(id -u)" -ne 0 ] || chown 12:34 "$folder/$file"
        owner=$(stat -c '%a %u %g' "$folder/$file")
        give $tool $words
        pass_if "$tool over a file of mode $mode: $(head -n 3 "$said")" [ ! -s "$said" ]
        pass_if "$tool keeps mode and owner $owner" [ "$(stat -c '%a %u %g' "$folder/$file")" = "$owner" ]
    done
    for mask in 022:644 077:600 002:664; do
        fresh
        (umask ${mask%:*} && give $tool $words)
        pass_if "$tool with the umask $mask" [ "$(stat -c %a "$folder/$file")" -eq ${mask#*:} ]
    done
done <<<"$writes"

# as_nobody TOOL LINE [WORDS...]: runs it in the folder as another user, who is given a copy of the program
as_nobody() {
    cp "target/bin/$1" "$folders"
    status=0
    (cd "$folder" && setpriv --reuid=65534 --regid=65534 --clear-groups timeout 10 "${loader[@]}" "$folders/$1" "${@:3}" <<<"$2") \
        >"$printed" 2>"$said" || status=$?
}
# A file that belongs to another is protected by its mode; where its mode allows it, it is replaced, and belongs to who replaced it.
if [ "$(id -u)" -eq 0 ]; then
    for mode in 644 600 640; do
        fresh "${files[@]}"
        chmod $mode "$folder"/*
        chmod 777 "$folder"
        listed=$(look)
        as_nobody layjob '' 30001 40000 1 0 100
        pass_if "nobody's job over root's of mode $mode: $(cat "$said")" says "layjob: job.dat: $protected"
        as_nobody laychain '1 0 30000 0 0 40000'
        pass_if "nobody's table over root's of mode $mode: $(cat "$said")" says "laychain: chain.dat: $protected"
        as_nobody laywrite '3 0 4 0 0'
        pass_if "nobody's log over root's of mode $mode: $(cat "$said")" says "laywrite: lay.dat: $protected"
        pass_if 'root'"'"'s files stay' stays
    done
    fresh "${files[@]}"
    chmod 666 "$folder/job.dat"
    chmod 777 "$folder"
    as_nobody layjob '' 30001 40000 1 0 100
    pass_if "nobody's job over one for all: $(cat "$said")" [ ! -s "$said" ]
    pass_if 'it is nobody'"'"'s, for all' [ "$(stat -c '%a %u' "$folder/job.dat")" = '666 65534' ]
    chmod 755 "$folder"
    chmod 666 "$folder"/*
    listed=$(look)
    as_nobody layjob '' 30001 40000 1 0 100
    pass_if "a folder that cannot be written to: $(cat "$said")" says 'layjob: job.dat: Permission denied'
    as_nobody laychain x
    pass_if "for a table, before a line is read: $(cat "$said")" says 'laychain: chain.dat: Permission denied'
    as_nobody laywrite x
    pass_if "for a log, before a line is read: $(cat "$said")" says 'laywrite: lay.dat: Permission denied'
    pass_if 'which stays as it is' stays
fi

# A refusal names the word at fault, with its text. After the words: the number, and how the sentence begins.
while IFS='|' read -r words number sentence; do
    fresh "${files[@]}"
    listed=$(look)
    give $words
    tool=${words%% *} first="REFUSED $number: $sentence: "
    case $tool in laychain | laywrite) first="line 1 $first" ;; esac
    told=$(head -n 1 "$said")
    pass_if "$words: $told, not $tool: $first" [ "${told#"$tool: $first"?}" != "$told" ]
    rest=
    case $tool in laychain | laywrite) rest="$tool: 1 line refused (line 1), 0 accepted; nothing is written" ;; esac
    pass_if "$words: $(cat "$said")" [ "$(tail -n +2 "$said")" = "$rest" ]
    pass_if "$words: it printed nothing" [ ! -s "$printed" ]
    pass_if "$words: everything stays" stays
    by=bin give $words
    pass_if "bin/$words ends with $status" [ "$status" -eq 1 ]
done <<'END'
layjob|12|word 1 is missing
layjob 300.00 400.00 1|12|word 4 is missing
layjob 30000 40000 1 0 100 7|12|word 6, `7`
layjob 300.1 40000 1 0 100|12|word 1, `300.1`
layjob 30000 400. 1 0 100|12|word 2, `400.`
layjob 30000 40000 1.00 0 100|12|word 3, `1.00`
layjob 30000 40000 1 .50 100|12|word 4, `.50`
layjob 30000 40000 1 -1 100|12|word 4, `-1`
layjob 30000 40000 1 0 1.00|12|word 5, `1.00`
layjob 30000 40000 1 0 18446744073709551616|12|word 5, `18446744073709551616`
layjob -0.00 40000 1 0 100|12|word 1, `-0.00`
layjob 30000 40000 25 0 100|6|word 3, `25`
layjob 100000001 40000 0 0 100|6|word 1, `100000001`
layjob 30000 10000000.01 0 0 100|6|word 2, `10000000.01`
layjob 30000 40000 1 100001 100|7|word 4, `100001`
layjob 30000 40000 1 1000.01 100|7|word 4, `1000.01`
laychain 0 0 30000 0 0|12|word 6 is missing
laychain 0|12|word 2 is missing
laychain 0 0 30000 0 0 40000 0.9996|12|word 7, `0.9996`
laychain 0 0 30000 0 0 40000 -1000000|12|word 7, `-1000000`
laychain 0 0 30000 0 0 40000 1000000 1|12|word 8, `1`
laychain 0 0 30000 0 0 40000 1|5|word 7, `1`
laychain 0 0 30000 0 0 40000 998999|5|word 7, `998999`
laychain 0 0 30000 0 0 40000 1001001|5|word 7, `1001001`
laychain 0 0 30000 0 0 40000 18446744073710551616|5|word 7, `18446744073710551616`
laychain 0 0 100000001 0 0 40000 998999|5|word 3, `100000001`
laychain 0 0 3.00.00 0 0 40000|12|word 3, `3.00.00`
laychain 0 0 30000 -1.00 0 40000|12|word 4, `-1.00`
laychain 0 0 30000 0 0 40000 # A and B|12|word 7, `#`
laychain 0 0 100000001 0 0 40000|5|word 3, `100000001`
laychain 0 0 30000 0 0 10000000.01|5|word 6, `10000000.01`
laywrite 1 1 1 -10000|12|word 5 is missing
laywrite 1|12|word 2 is missing
laywrite 1 1 1 -10000 -20000 5|12|word 6, `5`
laywrite 1 1 1 300.1 0|12|word 4, `300.1`
laywrite 1 1 1 300. 0|12|word 4, `300.`
laywrite 1 1 1 .50 0|12|word 4, `.50`
laywrite 1 1 1 0 300.011|12|word 5, `300.011`
laywrite 1 1 1 0 3.00.00|12|word 5, `3.00.00`
laywrite 1 1 1 -.50 0|12|word 4, `-.50`
laywrite 1 1 1 +1.00 0|12|word 4, `+1.00`
laywrite 1 1 1 1,00 0|12|word 4, `1,00`
laywrite 1 1 1 x 0|12|word 4, `x`
laywrite -1 1 1 0 0|12|word 1, `-1`
laywrite 1 -1 1 0 0|12|word 2, `-1`
laywrite 1 1 -1 0 0|12|word 3, `-1`
laywrite 1 1 1.00 0 0|12|word 3, `1.00`
laywrite 1 1 4294967296 0 0|12|word 3, `4294967296`
laywrite 4 1 1 0 0|2|word 1, `4`
laywrite 1 1 1 1000000001 0|3|word 4, `1000000001`
laywrite 1 1 1 0 -10000000.01|3|word 5, `-10000000.01`
laywrite 2 0 1 1000000.01 0|4|word 4, `1000000.01`
laywrite 2 0 1 0 -1|4|word 5, `-1`
laywrite 1 17 1 0 0|5|word 2, `17`
layexpect 1 30000|12|word 3 is missing
layexpect 1 30000 40000 0|12|word 4, `0`
layexpect 1 300,00 40000|12|word 2, `300,00`
layexpect 1.00 30000 40000|12|word 1, `1.00`
layexpect 1 30000 -1|12|word 3, `-1`
layexpect 1 100000001 0|4|word 2, `100000001`
layexpect 2 30000 40000|5|word 1, `2`
layone|12|word 1 is missing
layone 1|12|word 2 is missing
layone 1 -10000|12|word 3 is missing
layone 1 -10000 -20000 0|12|word 4, `0`
layone 1.00 -10000 -20000|12|word 1, `1.00`
layone -1 -10000 -20000|12|word 1, `-1`
layone 1 -100,00 -20000|12|word 2, `-100,00`
layone 1 300.1 -20000|12|word 2, `300.1`
layone 1 300. -20000|12|word 2, `300.`
layone 1 -.50 -20000|12|word 2, `-.50`
layone 1 -10000 +1.00|12|word 3, `+1.00`
layone 1 -10000 300.011|12|word 3, `300.011`
layone 1 -10000 x|12|word 3, `x`
layone 1 1000000001 0|3|word 2, `1000000001`
layone 1 1000000001 1000000002|3|word 2, `1000000001`
layone 1 0 -10000000.01|3|word 3, `-10000000.01`
layone 2 -10000 -20000|5|word 1, `2`
layshow job.dat|12|word 1, `job.dat`
END

# A word that is metres with a wrong number of decimals, a sign where there is none, a point where there is none: each has a sentence
# of its own, and not all that is allowed.
told_sentence() { head -n 1 "$said" | sed 's/.*`: //'; }
sentence_of() {
    give laywrite 1 1 $1 $2 0
    told_sentence
}
fresh "${files[@]}"
pass_if 'decimals are told apart from what is no number' [ "$(sentence_of 1 300.1)" != "$(sentence_of 1 x)" ]
pass_if "metres have two decimals: $(sentence_of 1 300.1)" grep -q 'metres.*two' <<<"$(sentence_of 1 300.1)"
for line in '1 300.1' '1 x' '1.00 0' '1 300.011'; do
    pass_if "a sentence of no more than 120 bytes: $(sentence_of $line)" [ "$(sentence_of $line | wc -c)" -le 120 ]
done

# layone says of its readings what laywrite says of X and Y, and of its chain what layexpect says.
for word in 300.1 300. .50 300.011 3.00.00 -.50 +1.00 1,00 x --1; do
    of_x=$(sentence_of 1 $word)
    give layone 1 $word 0
    pass_if "reading A, $word: $(told_sentence)" [ "$(told_sentence)" = "${of_x/#X/reading A}" ]
    give layone 1 0 $word
    pass_if "reading B, $word: $(told_sentence)" [ "$(told_sentence)" = "${of_x/#X/reading B}" ]
    pass_if "X has a name: $of_x" [ "${of_x/#X/}" != "$of_x" ]
done
for word in 1.00 -1 x 0x1; do
    give layexpect $word 30000 40000
    of_chain=$(told_sentence)
    give layone $word -10000 -20000
    pass_if "the chain, $word: $(told_sentence)" [ "$(told_sentence)" = "$of_chain" ]
done
give layone 1 -10000 -20000 0
pass_if "a fourth word: $(cat "$said")" says 'layone: REFUSED 12: word 4, `0`: a question has three words'

# laychain says of a seventh word what a factor is, and of an eighth how many there are.
while IFS='|' read -r word sentence; do
    give laychain 0 0 30000 0 0 40000 $word
    pass_if "a factor, $word: $(told_sentence)" [ "$(told_sentence)" = "$sentence" ]
done <<'END'
0.9996|the factor is a number in digits alone
x|the factor is a number in digits alone
0|a factor is 999000 to 1001000 millionths
998999|a factor is 999000 to 1001000 millionths
1001001|a factor is 999000 to 1001000 millionths
1000000 0|a chain has six words, or seven with its factor
END

# Two stations on one spot and a factor out of range: the leftmost word at fault is named, which is not the factor.
give laychain 0 0 0 0 0 40000 998999
pass_if "a spot before a factor: $(cat "$said")" grep -qE '^laychain: line 1 REFUSED 5: word [1-6], ' "$said"

# What is written is told on standard output, with what is there now.
fresh
give layjob 300.00 400.00 1 0.00
may='job.dat: 1 job written, 1 there now; a search may make'
pass_if "a job without an allowance: $(cat "$said" "$printed")" prints "$may 1000000 visits"
pass_if 'its bytes' [ "$(od -An -v -t x1 "$folder/job.dat" | tr -d ' \n')" = \
    30750000409c0000010000000000000040420f00000000000000000000000000 ]
give layjob 30000 40000 1 0 100
pass_if "01's job: $(cat "$said")" prints "$may 100 visits"
pass_if "01's job" cmp -s "$folder/job.dat" "$example/job.dat"
give layjob 30000 40000 1 0 18446744073709551615
pass_if "the largest allowance: $(cat "$said")" prints "$may 18446744073709551615 visits"
give laychain 0.00 0 300.00 0 0 400.00
pass_if "a chain: $(cat "$said")" prints $'chain.dat: 1 chain written, 1 there now\nscale.dat: 1 factor written, 1 there now'
pass_if "01's chain in metres" cmp -s "$folder/chain.dat" "$example/chain.dat"
pass_if 'its factor' cmp -s "$folder/scale.dat" "$example/scale.dat"
run laychain <<<$'0 0 30000 0 0 40000\n\n# another\n1 0 30000 0 0 40000 999641'
pass_if "two chains: $(cat "$said")" prints $'chain.dat: 2 chains written, 2 there now\nscale.dat: 2 factors written, 2 there now'
pass_if 'their factors' [ "$(od -An -v -t x1 "$folder/scale.dat" | tr -d ' \n')" = 40420f00d9400f00 ]
run laywrite <<<$'# 01\n1 1 1 -100.00 -200.00\n2 0 2 300.01 400.00\n\n3 0 3 0.00 -0.00'
pass_if "three records: $(cat "$said")" prints 'lay.dat: 3 records written, 3 there now'
pass_if "01's log in metres" cmp -s "$folder/lay.dat" "$example/lay.dat"
give laywrite 3 0 4 0 0
pass_if "a fourth: $(cat "$said")" prints 'lay.dat: 1 record written, 4 there now'
run laywrite </dev/null
pass_if "no record: $(cat "$said")" prints 'lay.dat: 0 records written, 4 there now'
run laywrite <<<'# nothing'
pass_if "nothing but a note: $(cat "$said")" prints 'lay.dat: 0 records written, 4 there now'
by=bin give laywrite 3 0 5 0 0
pass_if "bin/laywrite: $(cat "$said")" prints 'lay.dat: 1 record written, 5 there now'
run laychain <<<$'\n# no chain'
pass_if "a table of no chain: $(cat "$said")" grep -q '^laychain: REFUSED 1: ' "$said"

# Where that cannot be printed, it is said that it is written, and it is; by bin/ it ends with 1.
while read -r file tool words; do
    for redirection in '>/dev/full' '>&-'; do
        fresh "${files[@]}"
        status=0
        arguments=
        [ $tool != layjob ] || arguments=$words
        (cd "$folder" && echo $words | bash -c "\"$repository/bin/$tool\" $arguments $redirection") 2>"$said" || status=$?
        pass_if "$tool with $redirection ends with 1" [ "$status" -eq 1 ]
        pass_if "$tool with $redirection: $(cat "$said")" grep -q "^$tool: standard output: ." "$said"
        pass_if "$tool with $redirection: $(cat "$said")" grep -qxE "$tool: note: .*$file .*written all the same" "$said"
        pass_if "$tool with $redirection: written" [ -n "$(cmp "$folder/$file" "$example/$file" 2>&1)" ]
    done
done <<<"$writes"

# The sum of refused and accepted lines.
while IFS='|' read -r lines sum; do
    fresh "${files[@]}"
    run laywrite < <(printf "$lines")
    pass_if "the sum of '$lines': $(tail -n 1 "$said")" [ "$(tail -n 1 "$said")" = "laywrite: $sum; nothing is written" ]
done <<'END'
4 0 1 0 0\n|1 line refused (line 1), 0 accepted
3 0 1 0 0\n\n4 0 1 0 0\n3 0 1 0 0\n|1 line refused (line 3), 2 accepted
4 0 1 0 0\n# x\n3 0 1 0 0\nx\n|2 lines refused (the first is line 1), 1 accepted
3 0 1 0 0\n3 0 1 0 0|1 line refused (line 2), 1 accepted
\n\n1 1\n1 1\n1 1\n|3 lines refused (the first is line 3), 0 accepted
END

# Notes: records that name a chain which the table does not have, and files that are missing. The status stays 0.
while IFS='|' read -r lines there note; do
    fresh
    [ "$there" -eq 0 ] || for ((n = 0; n < there; n++)); do cat "$example/chain.dat"; done >"$folder/chain.dat"
    by=bin run laywrite < <(printf "$lines")
    pass_if "'$lines' with $there chains: $(cat "$said")" says ${note:+"laywrite: note: $note"}
    pass_if "'$lines' with $there chains ends with $status" [ "$status" -eq 0 ]
    pass_if "'$lines' with $there chains: written" [ "$(wc -c <"$folder/lay.dat")" -eq $((32 * $(grep -o 'n' <<<"$lines" | wc -l))) ]
done <<'END'
1 1 1 0 0\n|1|
1 2 1 0 0\n|1|1 record names a chain that chain.dat does not have (line 1)
1 1 1 0 0\n1 3 1 0 0\n2 9 1 0 0\n1 4 1 0 0\n3 9 1 0 0\n|2|2 records name a chain that chain.dat does not have (the first is line 2)
2 5 1 0 0\n3 5 1 0 0\n|1|
1 16 1 0 0\n1 1 1 0 0\n|16|
1 1 1 0 0\n1 1 1 0 0\n|0|2 records name a chain that chain.dat does not have (the first is line 1)
2 0 1 0 0\n|0|
END
fresh
for missing in job.dat chain.dat scale.dat lay.dat; do
    by=bin run laylist
    case $missing in
    job.dat) list='JOB REFUSED 1' ;;
    chain.dat) list='CHAIN REFUSED 1' ;;
    scale.dat) list='SCALE REFUSED 1' ;;
    *) list= ;;
    esac
    pass_if "laylist without $missing: $(cat "$said")" says "laylist: note: $missing is missing, and counts as empty"
    pass_if "laylist without $missing prints the same" [ "$(<"$printed")" = "$list" ]
    pass_if "laylist without $missing ends with $status" [ "$status" -eq 0 ]
    cp "$example/$missing" "$folder"
done
by=bin run laylist
pass_if "laylist with all: $(cat "$said")" prints "$(<"$example/listing")"
fresh
by=bin run layshow
pass_if "layshow without files: $(cat "$said")" says 'layshow: note: job.dat is missing, and counts as empty' \
    'layshow: note: chain.dat is missing, and counts as empty' 'layshow: note: scale.dat is missing, and counts as empty' \
    'layshow: note: lay.dat is missing, and counts as empty'
pass_if 'it ends with 0' [ "$status" -eq 0 ]
by=bin give layexpect 1 30000 40000
pass_if "layexpect without a table: $(cat "$said")" grep -qx 'layexpect: note: chain.dat is missing, and counts as empty' "$said"
pass_if 'which is refused' grep -q '^layexpect: REFUSED 1: ' "$said"
pass_if 'and it ends with 1' [ "$status" -eq 1 ]
by=bin give layone 1 -10000 -20000
pass_if "layone without files: $(cat "$said")" says 'layone: note: chain.dat is missing, and counts as empty' \
    'layone: note: scale.dat is missing, and counts as empty' 'layone: note: job.dat is missing, and counts as empty' \
    'layone: REFUSED 1: chain.dat was expected to hold 1 to 16 chains of 24 bytes'
pass_if 'and it ends with 1' [ "$status" -eq 1 ]

# Without its side file, as in a folder from before there were factors, a table is of no use to any of them.
fresh chain.dat job.dat lay.dat
for words in 'layexpect 1 30000 40000' 'layone 1 -10000 -20000'; do
    by=bin give $words
    tool=${words%% *}
    pass_if "$tool without a side file: $(cat "$said")" says "$tool: note: scale.dat is missing, and counts as empty" \
        "$tool: REFUSED 1: scale.dat was expected to hold 4 bytes for each chain of chain.dat"
    pass_if "$tool without a side file ends with $status" [ "$status" -eq 1 ]
done
by=bin give layshow
pass_if "layshow without a side file: $(cat "$said")" says 'layshow: note: scale.dat is missing, and counts as empty'
pass_if "layshow without a side file ends with $status" [ "$status" -eq 0 ]

# What the help says of the allowance.
run layjob --help
pass_if 'layjob --help: the allowance may be left out' grep -qF 'layjob E N K T [ALLOWANCE]' "$printed"
pass_if 'layjob --help: what it is then' grep -q '1000000\|1,000,000' "$printed"
done_testing
