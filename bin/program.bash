# How the programs and the library of this repository are built, and how programs run on this machine. bin/lay, install, the tests and
# the bench take it from here.
repository=$(CDPATH= cd "$(dirname "${BASH_SOURCE[0]}")/.." && pwd -P)
unfit() {
    echo "${0##*/}: $1" >&2
    exit 2
}
[ -f "$repository/crates.txt" ] || unfit 'this is a copy; make a link to the one that it was copied from'
command -v rt >/dev/null || unfit 'the Rattle toolchain is missing: there is no command rt'

# Programs of target/bin run under the toolchain's own loader and C library, which lie beside the page that `rt doc` names; on a machine
# other than x86-64 under the emulator qemu-x86_64, if that is on the path.
toolchain=$(CDPATH= cd "$(dirname "$(rt doc)")/toolchain" && pwd -P) || unfit 'the Rattle toolchain has no folder toolchain'
emulator=()
[ "$(uname -m)" = x86_64 ] || emulator=($(command -v qemu-x86_64)) || emulator=()
loader=("${emulator[@]}" "$toolchain/lib/ld-linux-x86-64.so.2" --library-path "$toolchain/lib")

# program NAME ARGUMENTS...: runs it in the folder that the caller is in
program() { "${loader[@]}" "$repository/target/bin/$1" "${@:2}"; }

is_program() { [ -f "$repository/crates/$1/src/main.rt" ]; }

# commands: the programs that bin/ has a command for, each a copy of bin/lay
commands() {
    local name
    for name in $(ls "$repository/bin"); do ! is_program "$name" || echo "$name"; done
}

# crates_for [NAME...]: these crates and those of the repository that they rest on, lowest first; without a name every crate
crates_for() {
    awk -v names="$*" '
        function take(name,    count, each, i) {
            if (taken[name]++ || !(name in rests)) return
            count = split(rests[name], each, " ")
            for (i = 1; i <= count; i++) take(each[i])
            print name
        }
        { sub(/#.*/, "") }
        split($0, part, ":") == 2 { split(part[1], word, " "); rests[word[1]] = part[2]; every = every " " word[1] }
        END {
            count = split(names == "" ? every : names, wanted, " ")
            for (i = 1; i <= count; i++) take(wanted[i])
        }' "$repository/crates.txt"
}

# made_since MARK NAME: that the mark is there, and nothing that the crate rests on has changed since
made_since() (
    cd "$repository" && [ -f "$1" ] || exit 1
    folders=$(crates_for "$2" | sed 's|.*|crates/&/src crates/&/specs crates/&/proofs|')
    [ -z "$(find crates.txt $folders -newer "$1" -print -quit 2>/dev/null)" ]
)

# writable: that things can be built here; else it says so, and ends
writable() {
    { mkdir -p "$repository/target" && true >>"$repository/target/.lock"; } 2>/dev/null ||
        unfit "nothing can be written to $repository/target: build there as its owner, or in a clone of your own"
}

# alone COMMAND...: runs it in the repository while no other command runs so: two would write to the same files of target/
alone() (
    cd "$repository"
    exec 9>>target/.lock
    flock -n 9 || {
        echo 'waiting for another command that proves and builds here'
        flock 9
    }
    "$@"
)

# prove [NAME...]: proves and builds these crates and those that they rest on, or every crate. Prints a line for each that had to be
# proved, with how many are left, and what the prover says only if it refuses.
prove() { alone prove_each "$@"; }
prove_each() {
    local name said left began seconds
    mkdir -p target/bin target/stamp target/staticlib
    said=$(mktemp) left=$(crates_for "$@" | wc -l)
    for name in $(crates_for "$@"); do
        left=$((left - 1))
        ! made_since "target/stamp/$name" "$name" || continue
        began=$(date +%s.%N) seconds=$SECONDS
        if ! build "$name" >"$said" 2>&1 </dev/null; then
            cat "$said"
            echo "$name is not proved and built"
            rm "$said"
            return 1
        fi
        # as of the time when that began, so that a later change is seen
        touch -d "@$began" "target/stamp/$name"
        # rt proves nothing of what it finds unchanged, or proved in another clone
        ! grep -q '^logic=proved' "$said" || echo "proved $name ($((SECONDS - seconds)) s), $left left"
    done
    rm "$said"
}

# build NAME: by rt in the crate's folder. rt has no command that builds a program and does not run it: asked for its help, a program
# reads no file and writes none. What was built goes to target/, where nothing of rt's removes it.
build() {
    local made=crates/$1/out
    if is_program "$1"; then
        (cd "crates/$1" && rt run -- --help) && place "$made/$1" "target/bin/$1"
    else
        (cd "crates/$1" && rt lib) && { [ "$1" != lay_c ] || place "$made/liblay_c.a" "$library"; }
    fi
}
place() { cp "$1" "$2.new" && mv "$2.new" "$2"; }

# ready NAME...: builds those of the programs that are not built, or that are older than something that they are made of
ready() {
    local name why='older than a source' stale=()
    for name; do
        [ -x "$repository/target/bin/$name" ] && made_since "target/stamp/$name" "$name" || stale+=("$name")
    done
    [ ${#stale[@]} -gt 0 ] || return 0
    writable
    for name in "${stale[@]}"; do
        [ ! -x "$repository/target/bin/$name" ] || continue
        why='not built yet'
        rm -f "$repository/target/stamp/$name"
    done
    echo "${stale[*]}: $why; what is not proved of $(crates_for "${stale[@]}" | wc -l) crates is proved first, which may take some minutes" >&2
    prove "${stale[@]}" >&2 || exit
}

# ready_library: the same of the library for C, whose functions the crate lay_c exports
library=$repository/target/staticlib/liblay.a
ready_library() { library_made || { writable && alone build_library; }; }
library_made() { [ -f "$library" ] && made_since target/stamp/lay_c lay_c; }
build_library() {
    ! library_made || return 0
    [ -f "$library" ] || rm -f target/stamp/lay_c
    prove_each lay_c
}
