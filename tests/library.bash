# How the tests ask the library for C: the harness lay.c over target/staticlib/liblay.a, both built here if they are missing or older
# than what they are made of. To be read after common.bash.
. tests/needs.bash
asking=$repository/target/lay/lay

# quietly COMMAND...: prints what it says only if it fails
quietly() {
    local said
    said=$("$@" 2>&1) || {
        echo "$said" >&2
        return 1
    }
}

# One at a time, as two tests may come here at once. Linked statically, the harness needs no loader.
build_harness() (
    set -e
    ready_library
    cd "$repository"
    mkdir -p "$(dirname "$asking")"
    exec 9>"$asking.lock"
    flock 9
    [ ! -e "$asking" ] || [ -n "$(find tests/lay.c crates/lay/lay.h "$library" -newer "$asking")" ] || return 0
    quietly "$compiler" -std=c11 -O2 -Wall -Wextra -static -I crates/lay -o "$asking.new" tests/lay.c "$library"
    mv "$asking.new" "$asking"
)
build_harness

harness() { "${emulator[@]}" "$asking"; }

# The files of what follows. `both` has each request with its answer, REQUEST:ANSWER; `met` each verb with its refusals.
asked=$(mktemp -d)
trap 'rm -rf "$asked"' EXIT
requests=$asked/requests answers=$asked/answers wanted=$asked/wanted both=$asked/both met=$asked/met

first_difference() {
    paste -d '\n' "$requests" "$answers" "$wanted" | awk '
        NR % 3 == 1 { request = $0 }
        NR % 3 == 2 { got = $0 }
        NR % 3 == 0 && got != $0 { print request; print "  gives " got; print "  not   " $0; exit }' | cut -c 1-2000
}

# ask COMMAND...: puts the requests to the harness and to the command, and counts each answer in which both agree. There are
# too many to go through one by one in the shell.
ask() {
    harness <"$requests" >"$answers"
    "$@" <"$requests" >"$wanted"
    if ! cmp -s "$answers" "$wanted"; then
        echo "failed: $(first_difference)"
        exit 1
    fi
    pass_if 'each request has an answer' [ "$(wc -l <"$requests")" -eq "$(wc -l <"$answers")" ]
    passed=$((passed + $(wc -l <"$requests")))
    paste -d: "$requests" "$answers" >"$both"
    paste -d ' ' <(cut -d ' ' -f 1 "$requests") <(cut -d ' ' -f 1 "$answers") | sort -u >"$met"
}

# told REQUEST ANSWER: that the answer, an extended regular expression, was given to the request
told() { pass_if "$1 gives $2" grep -qxE -e "$1:$2" "$both"; }

# refuses VERB NUMBER...: that the verb met each of these refusals, where 0 is none
refuses() {
    local verb=$1 number
    shift
    for number in "$@"; do
        pass_if "$verb answers with $number" grep -qx "$verb $number" "$met"
    done
}
