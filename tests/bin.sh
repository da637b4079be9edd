#!/usr/bin/env bash
# Tests how bin/ finds, builds and runs a program, in copies of the repository: links of any name, copies, closed streams, notes, a
# source that has changed, a clone that cannot be written to, two builds at once; and how the commands install what the tests need.
cd "$(dirname "$0")/.." && . tests/common.bash
folders=$(mktemp -d)
trap 'chmod -R u+w "$folders"; rm -rf "$folders"' EXIT
chmod 755 "$folders"
printed=$folders/printed said=$folders/said

# run COMMAND...: what it prints and says, with its status in `status`
run() {
    status=0
    "$@" >"$printed" 2>"$said" || status=$?
}
listed() { [ "$status" -eq 0 ] && cmp -s "$printed" "$example/listing"; }

# A command of bin/ is bin/lay under another name.
for name in $(commands); do
    pass_if "bin/$name is a copy of bin/lay" cmp "bin/$name" bin/lay
    pass_if "bin/$name is a command" [ -x "bin/$name" ]
done

# Links to a program, to its folder and to a link, each with a name of its own; copies are of no use, and say so.
cd "$folders"
ln -s "$repository/bin" programs
ln -s programs/laylist listing
mkdir elsewhere
ln -s ../listing elsewhere/list
for name in programs/laylist ./listing elsewhere/list "$folders/elsewhere/list"; do
    run "$name" "$example"
    pass_if "$name: $(cat "$said")" listed
done
cp "$repository/bin/laylist" laylist
cp -r "$repository/bin" copied
for name in ./laylist copied/laylist; do
    run "$name" "$example"
    pass_if "$name is a copy: $(cat "$said")" ended 2 'this is a copy; make a link to the one that it was copied from'
done
run "$repository/bin/lay"
pass_if 'bin/lay itself' ended 2 'lay: there is no such program'
cd "$repository"

# Standard streams that are closed or full: what the program says, its status, and nothing of the shell's.
run bash -c 'bin/laylist examples/three_records >&-'
pass_if "standard output closed: $(cat "$said")" ended 1 'standard output: '
run bash -c 'bin/laylist examples/three_records 2>&-'
pass_if 'standard error closed' listed
for redirection in '2>&-' '2>/dev/full' '2>/dev/null' '>&- 2>&-'; do
    run bash -c "printf '4 0 0 0 0\n%.0s' {1..2000} | bin/laywrite $redirection"
    pass_if "2,000 refusals with $redirection end with 1" [ "$status" -eq 1 ]
    pass_if "2,000 refusals with $redirection, and not a word" [ ! -s "$said" ]
done
run bash -c 'bin/layexpect <&- 1 2'
pass_if "standard input closed: $(cat "$said")" ended 1 'layexpect: REFUSED 12: '

# What a program prints on standard error, and the status that follows, by a stand-in for the program: the commands in `plays`.
mkdir "$folders/stage"
cp bin/lay "$folders/stage/lay"
ln -s lay "$folders/stage/laywrite"
printf '%s\n' '# A stand-in.' 'is_program() { true; }' 'ready() { true; }' 'program() { bash -c "$plays"; }' >"$folders/stage/program.bash"

# play COMMANDS [REDIRECTION]: runs them as laywrite, with the status in `status`
play() {
    export plays=$1
    run bash -c "\"$folders/stage/laywrite\" ${2:-}"
}
one_note="printf 'laywrite: note: a record names a chain\n' >&2"
one_refusal="printf 'laywrite: line 1 REFUSED 2: a sentence\n' >&2"

# With which status it ends, and that every byte is passed on as it is.
while IFS='|' read -r wanted words; do
    play "printf '$words' >&2"
    pass_if "'$words' on standard error ends with $wanted" [ "$status" -eq "$wanted" ]
    pass_if "'$words' is passed on" cmp -s "$said" <(printf "$words")
    pass_if "'$words' goes to standard error alone" [ ! -s "$printed" ]
done <<'END'
0|
0|laywrite: note: one\n
0|laywrite: note: one\nlaywrite: note: two\n
0|laywrite: note: without a newline
0|laywrite: note: \377\200 and a zero \000 in it\n
1|laywrite: note: one\nlaywrite: REFUSED 12: word 1\n
1|laywrite: REFUSED 12: word 1\nlaywrite: note: one\n
1|laywrite: line 2 REFUSED 12: word 1, `\377\000`: a sentence\n
1|laywrite: note: one\n\n
1|\n
1|\000
1|laywrite: lay.dat: No space left on device
1|laychain: note: one\n
1| laywrite: note: one\n
1|laywrite: notes: one\n
1|laywrite:note: one\n
1|note: one\n
1|laywrite: REFUSED 12: laywrite: note: one\n
END
play 'echo a line'
pass_if 'standard output is passed on' prints 'a line'
play 'exit 3'
pass_if 'a program that fails without a word ends with 1' [ "$status" -eq 1 ]
play 'kill -9 $$'
pass_if 'and so does one that is killed' [ "$status" -eq 1 ]

# Where standard error is closed, full, or a pipe that nobody reads, the status is the same, and the program is not stopped by it.
many="for i in {1..3000}; do $one_refusal; done"
for redirection in '2>&-' '2>/dev/full' '2>/dev/null' '>&- 2>&-' '2> >(true)'; do
    play "sleep 0.1; $one_note; sleep 0.1; $one_note" "$redirection"
    pass_if "notes with $redirection end with 0" [ "$status" -eq 0 ]
    play "$one_note; sleep 0.1; $one_refusal" "$redirection"
    pass_if "a note and a refusal with $redirection end with 1" [ "$status" -eq 1 ]
    play "sleep 0.1; $one_note; $many; echo whole >'$folders/whole'" "$redirection"
    pass_if "3,000 refusals with $redirection end with 1" [ "$status" -eq 1 ]
    pass_if "the program is not stopped by $redirection" rm "$folders/whole"
done

# A line is passed on at once, while the program goes on: it ends only when the line has been read here.
mkfifo "$folders/going" "$folders/passed"
plays="$one_refusal; read -r <'$folders/going'" timeout 20 "$folders/stage/laywrite" 2>"$folders/passed" &
line=
exec 7<>"$folders/passed"
read -r -t 10 line <&7 || true
exec 7>&-
pass_if "a refusal is passed on while the program runs: $line" [ "$line" = 'laywrite: line 1 REFUSED 2: a sentence' ]
timeout 10 bash -c 'echo >"$1"' - "$folders/going" || true
wait $! || true

# Standard input is what the caller has: a terminal, a file, a pipe.
is_terminal='[ ! -t 0 ] && echo no terminal || echo a terminal'
play "$is_terminal" '</dev/null'
pass_if 'a file is no terminal' prints 'no terminal'
plays=$is_terminal run python3 -c 'import pty, sys; sys.exit(pty.spawn(sys.argv[1:]) >> 8)' "$folders/stage/laywrite"
pass_if "a terminal: $(cat "$printed" "$said")" grep -q '^a terminal' "$printed"
play 'cat' <<<'a line of a pipe'
pass_if 'what is typed' prints 'a line of a pipe'

# copy NAME PATH...: a repository with these paths of this one beside its sources, but not what rt kept of the proofs
copy() {
    mkdir "$folders/$1"
    tar -c --exclude 'crates/*/out/incremental' bin crates.txt crates "${@:2}" | tar -x -p -C "$folders/$1"
}
copy changed target/bin target/stamp
changed=$folders/changed
run "$changed/bin/laylist" "$example"
pass_if "a repository that was built: $(cat "$said")" listed
pass_if 'nothing is said' [ ! -s "$said" ]
touch "$changed/crates/text/src/lib.rt"
run "$changed/bin/laylist" "$example"
pass_if "a source that is newer: $(cat "$said")" listed
pass_if 'it is said' grep -qx 'laylist: older than a source; what is not proved of 13 crates is proved first, which may take some minutes' "$said"
run "$changed/bin/laylist" "$example"
pass_if 'and only once' [ ! -s "$said" ]
touch "$changed/crates/shown/src/lib.rt"
run "$changed/bin/laylist" "$example"
pass_if 'a source that has no part in it' [ ! -s "$said" ]

# A second command that builds there waits, and says so.
touch "$changed/crates/text/src/lib.rt"
exec 8>"$changed/target/.lock"
flock 8
(sleep 1 && exec flock -u 8) &
run "$changed/bin/laylist" "$example"
exec 8>&-
pass_if "two builds at once: $(cat "$said")" listed
pass_if 'the second waits' grep -qx 'waiting for another command that proves and builds here' "$said"

# A source that is no longer proved: the old program is not run.
echo 'fn' >>"$changed/crates/laylist/src/main.rt"
run "$changed/bin/laylist" "$example"
pass_if 'a source that is refused ends with 1' [ "$status" -eq 1 ]
pass_if 'nothing is listed' [ ! -s "$printed" ]
pass_if 'what rt says is printed' grep -q 'src/main.rt.*error\|error.*src/main.rt' <(tr '\n' ' ' <"$said")
pass_if 'and which program it is' grep -qx 'laylist is not proved and built' "$said"

# Not built, in a folder that cannot be written to; root may write everywhere, and becomes nobody.
copy closed
rm -rf "$folders"/closed/crates/*/out
chmod -R a-w "$folders/closed"
drop=()
[ "$(id -u)" -ne 0 ] || drop=(setpriv --reuid=65534 --regid=65534 --clear-groups)
cd /
run "${drop[@]}" "$folders/closed/bin/laylist"
cd "$repository"
pass_if "not built and read-only: $(cat "$said")" ended 2 "laylist: nothing can be written to $folders/closed/target"

# What is printed while crates are proved, by stand-ins for them and for the clock: squares and metres had to be, in so many seconds.
proved=$(
    cd "$folders"
    unset SECONDS
    SECONDS=0
    crates_for() { printf '%s\n' squares fields metres chart; }
    made_since() { [ "$2" = chart ]; }
    build() {
        echo "fn $1::x: proved"
        case $1 in
        squares) SECONDS=$((SECONDS + 3)) && echo 'logic=proved functions=5' ;;
        metres) SECONDS=$((SECONDS + 6)) && echo 'logic=proved functions=9' ;;
        esac
    }
    prove_each
)
pass_if "progress: $proved" [ "$proved" = 'proved squares (3 s), 3 left
proved metres (6 s), 1 left' ]
pass_if 'the crates that laylist rests on' [ "$(crates_for laylist | sort | paste -sd ' ')" = \
    'chart fields files laylist listing metres parsing records refusals search squares text writing' ]
pass_if 'all crates' [ "$(crates_for | sort)" = "$(ls crates)" ]

# What the tests need, by stand-ins for the commands that are missing, for who is asking and for Debian's installer.
few=$folders/few
mkdir "$few"
for name in bash echo uname; do ln -s "$(command -v $name)" "$few"; done
printf '#!/bin/sh\necho $user\n' >"$few/id"
printf '#!/bin/sh\necho apt-get "$@"\n[ -z "$fails" ]\n' >"$few/apt-get"
chmod +x "$few/id" "$few/apt-get"
needed='python3 cargo rustc util-linux g++ gcc libc6-dev'
[ "$(uname -m)" = x86_64 ] || needed+=' gcc-x86-64-linux-gnu libc6-dev-amd64-cross'
# set_up USER [FAILS]: reads tests/needs.bash with only the few commands
set_up() { run env -i PATH="$few" user="$1" fails="${2:-}" bash -c '. tests/needs.bash'; }
set_up 0
pass_if 'root installs what is missing' [ "$status" -eq 0 ]
pass_if "by Debian's packages: $(cat "$printed")" grep -qx "apt-get install -q -y $needed" "$printed"
set_up 0 yes
pass_if 'what cannot be installed ends with 2' [ "$status" -eq 2 ]
set_up 1000
pass_if 'another user is told the command' [ "$(<"$said")" = "this installs it, as root on Debian: apt-get install -y $needed" ]
pass_if 'and nothing is installed' [ "$status" -eq 2 ]
for name in $needed gcc-x86-64-linux-gnu libc6-dev-amd64-cross; do
    pass_if "README.md names $name" grep -qwF -e "$name" <(sed -n '/^## The tests/,/^## /p' README.md)
done
done_testing
