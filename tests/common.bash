# What the tests share: counting, and running a program of target/bin on this machine.
set -euo pipefail
. bin/program.bash
passed=0

# A test that is run by itself must not run a program that is older than its source.
ready $(ls crates/*/src/main.rt | cut -d / -f 2)

# pass_if WORDS TEST...: counts the test if it holds, and else prints the words and ends.
pass_if() {
    local words=$1
    shift
    if ! "$@"; then
        echo "failed: $words"
        exit 1
    fi
    passed=$((passed + 1))
}

# What a test may say of a run that left its output in the file $printed, its standard error in $said and its status in `status`:
# ended_well: that it ended with 0 and said nothing; prints LINES: that it did so and printed exactly these lines;
# ended STATUS WORDS: that it ended so, printed nothing, and said one line with these words
ended_well() { [ "$status" -eq 0 ] && [ ! -s "$said" ]; }
prints() { ended_well && cmp -s "$printed" <(printf "${1:+%s\n}" "$1"); }
ended() { [ "$status" -eq "$1" ] && [ ! -s "$printed" ] && [ "$(wc -l <"$said")" -eq 1 ] && grep -qF -e "$2" "$said"; }

# What the tests of the tools share. A test has its own `run TOOL ARGUMENTS...`, and its folder in $folder.
example=$repository/examples/three_records

# give TOOL WORDS...: runs it with the words as its arguments, or as a line of its standard input
give() {
    case $1 in
    laychain | laywrite) run "$1" <<<"${*:2}" ;;
    *) run "$@" </dev/null ;;
    esac
}

# fresh FILES...: makes the folder anew, with these files of 01's example
fresh() {
    rm -rf "$folder"
    mkdir "$folder"
    [ $# -eq 0 ] || (cd "$example" && cp "$@" "$folder")
}

# links PAGE: the files that a page of the documents links to
links() { grep -oE '\]\([^)# ]+' "$1" | cut -c 3-; }

done_testing() { echo "$passed passed"; }
