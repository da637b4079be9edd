# How the installed programs run: under the loader and the C library that were installed beside them. Installed as program.bash, in
# the place of the repository's.
installed=$(CDPATH= cd "$(dirname "${BASH_SOURCE[0]}")" && pwd -P)

# The programs are for x86-64. Where they were installed on another machine, a file names the emulator.
emulator=()
if [ -f "$installed/emulator" ]; then
    emulator=("$(<"$installed/emulator")")
    [ -x "${emulator[0]}" ] || wrong "${emulator[0]}, under which the programs run on this machine, is missing"
elif [ "$(uname -m)" != x86_64 ]; then
    wrong "the programs are for x86-64, and this machine is $(uname -m)"
fi

program() { "${emulator[@]}" "$installed/ld-linux-x86-64.so.2" --library-path "$installed" "$installed/programs/$1" "${@:2}"; }
is_program() { [ -x "$installed/programs/$1" ]; }
ready() { :; }
