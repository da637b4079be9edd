#!/usr/bin/env bash
# Tests `bash install`: what it puts into an empty folder makes and lists a job there, with nothing of the repository or the toolchain
# on the path; what it replaces; what it says and leaves if it cannot install; and a machine that is not x86-64, played by stand-ins.
cd "$(dirname "$0")/.." && . tests/common.bash && . tests/library.bash
example=$repository/examples/three_records
desk="$asked/a desk" work=$asked/work commands=$asked/commands printed=$asked/printed said=$asked/said
documents=$desk/share/doc/fustianook

# installs ARGUMENTS...: runs it, with the status in `status`
installs() {
    status=0
    bash install "$@" >"$printed" 2>"$said" || status=$?
}

# The only commands on the path of the desk, beside those installed.
mkdir "$work" "$commands"
for name in bash dirname env grep readlink tee uname; do ln -s "$(command -v $name)" "$commands"; done

# on_desk COMMAND...: runs it in the work folder of the desk, with the status in `status`
on_desk() {
    status=0
    (cd "$work" && env -i PATH="$desk/bin:$commands" "$@") >"$printed" 2>"$said" || status=$?
}

# Installed into an empty folder, and then moved, as a folder that is taken to another machine is.
installs "$asked/new/desk"
pass_if "an installation: $(cat "$said")" ended_well
pass_if 'it says what was installed' grep -qF "$asked/new/desk: laychain layexpect layjob laylist layone layshow laywrite, lib/liblay.a" "$printed"
mv "$asked/new/desk" "$desk"
pass_if 'there is a program for each command of bin/' [ "$(ls "$desk/bin")" = "$(commands)" ]
names_neither() { ! grep -rlF -e "$repository" -e "${emulator[0]:-$toolchain}" "$desk"; }
[ ${#emulator[@]} -gt 0 ] || pass_if 'nothing that is installed names the repository or the toolchain' names_neither

# A job from there.
on_desk layjob 30000 40000 1 0 100
pass_if "layjob on the desk: $(cat "$said")" prints 'job.dat: 1 job written, 1 there now; a search may make 100 visits'
on_desk laychain <<<'0 0 30000 0 0 40000'
pass_if "laychain on the desk: $(cat "$said")" prints 'chain.dat: 1 chain written, 1 there now
scale.dat: 1 factor written, 1 there now'
on_desk laywrite <<<'1 1 1 -10000 -20000
2 0 2 30001 40000
3 0 3 0 0'
pass_if "laywrite on the desk: $(cat "$said")" prints 'lay.dat: 3 records written, 3 there now'
for file in job chain scale lay; do pass_if "$file.dat is that of 01's example" cmp "$work/$file.dat" "$example/$file.dat"; done
on_desk laylist
pass_if "laylist on the desk: $(cat "$said")" prints "$(<"$example/listing")"
on_desk layshow
pass_if "layshow on the desk: $(cat "$said")" prints 'JOB 30000 40000 1 0 100
CHAIN 1 0 0 30000 0 0 40000 1000000
LOG 1 1 1 -10000 -20000
LOG 2 0 2 30001 40000
LOG 3 0 3 0 0'
on_desk layexpect 1 30000 40000
pass_if "layexpect on the desk: $(cat "$said")" prints 'A -10000 -100.00 00000000000059c0 0
B -20000 -200.00 00000000000069c0 0'
on_desk layone 1 -10000 -20000
pass_if "layone on the desk: $(cat "$said")" prints 'SEVERAL 5'
for name in $(cd examples && ls -d */); do
    on_desk laylist "$documents/examples/$name"
    pass_if "the installed example $name" prints "$(<"examples/$name/listing")"
done

# It ends as by bin/.
on_desk layjob 30000 40000 25 0 100
pass_if 'a refusal on the desk ends with 1' ended 1 'layjob: REFUSED 6: '
on_desk bash -c 'layjob 30000 40000 25 0 100 2>&-'
pass_if 'also without standard error' [ "$status" -eq 1 ]
on_desk bash -c 'cd / && laylist'
pass_if "a note on the desk ends with $status" [ "$status" -eq 0 ]
pass_if "it is passed on: $(cat "$said")" grep -qx 'laylist: note: job.dat is missing, and counts as empty' "$said"
on_desk bash -c 'laylist >&-'
pass_if 'a listing that cannot be printed ends with 1' ended 1 'standard output'
on_desk laylist nowhere
pass_if 'a folder that is not there ends with 2' ended 2 'laylist: nowhere: there is no such folder'

# The library and the documents.
quietly "$compiler" -static -I "$desk/include" -o "$asked/places" "$documents/examples/places.c" "$desk/lib/liblay.a"
pass_if 'the installed example in C prints P4' [ "$("${emulator[@]}" "$asked/places" | head -n 1)" = 'refusal 0, 2 places, 5 visits, rounded 0' ]
pages=0
while read -r page; do
    for link in $(links "$page"); do
        pass_if "installed: $page: $link is there" [ -e "$(dirname "$page")/$link" ]
    done
    pages=$((pages + 1))
done < <(find "$documents" -name '*.md')
pass_if 'README, FORMATS, LIBRARY and those of the examples' [ $pages -eq $((4 + $(ls -d examples/*/ | wc -l))) ]

# A second installation replaces the first, and leaves nothing of it.
touch "$desk/lib/fustianook/programs/older" "$documents/older"
installs "$desk"
pass_if "an installation over another: $(cat "$said")" ended_well
pass_if 'leaves nothing that is older' [ -z "$(find "$desk" -name older -o -name '.fustianook*')" ]

# same_as_before: that the desk is as it was when `before` was made
contents() (cd "$1" && find . -type f -exec sha256sum {} + | sort -k 2 && find . -type l -printf '%p %l\n' | sort)
before=$(contents "$desk")
same_as_before() { [ "$(contents "$desk")" = "$before" ]; }

# What it refuses to do.
installs
pass_if 'without a folder it says how it is used' [ "$status" -eq 2 ]
installs "$desk" "$desk"
pass_if 'and with two' [ "$status" -eq 2 ]
installs --help
pass_if 'help is printed' ended_well
for name in $(ls "$desk/bin") liblay.a lay.h share/doc/fustianook lib/fustianook; do
    pass_if "help names $name" grep -qwF -e "$name" "$printed"
done
installs "$asked/places"
pass_if 'a file in place of the folder' ended 1 "$asked/places: this folder cannot be made"
for file in bin/laylist include/lay.h lib/liblay.a; do
    rm -rf "$asked/other"
    mkdir -p "$asked/other/$(dirname $file)"
    echo mine >"$asked/other/$file"
    installs "$asked/other"
    pass_if "somebody else's $file" ended 1 "$asked/other/$file is there, and was not installed by this; remove it first"
    pass_if 'which stays, with nothing beside it' [ "$(cd "$asked/other" && find . -type f -exec cat {} +)" = mine ]
done

# A full disk: no file may have more than 1,000 times 1,024 bytes, which the C library has.
status=0
(trap '' XFSZ && ulimit -f 1000 && bash install "$desk") >"$printed" 2>"$said" || status=$?
pass_if "a full disk ends with 1: $(cat "$said")" [ "$status" -eq 1 ]
pass_if 'it says that nothing was installed' grep -qxF 'install: nothing was installed, and what was there is unchanged' "$said"
pass_if 'and the installation that was there stays' same_as_before

# killed_at COMMAND NUMBER: an installation over the one that is there, killed in place of its command of that name and number
killed_at() {
    rm -rf "$asked/killing"
    mkdir "$asked/killing"
    printf '#!/bin/sh\necho >>"%s/calls"\n[ "$(wc -l <"%s/calls")" -lt %s ] || kill -9 $PPID\nexec "%s" "$@"\n' \
        "$asked/killing" "$asked/killing" "$2" "$(command -v "$1")" >"$asked/killing/$1"
    chmod +x "$asked/killing/$1"
    PATH=$asked/killing:$PATH installs "$desk"
    pass_if "an installation that is killed at $1 $2" [ "$status" -eq 137 ]
    installs "$desk"
    pass_if "the next one asks: $(cat "$said")" ended 1 "$desk/.fustianook.new is there: another install is running, or one was cut off"
    rm -r "$desk/.fustianook.new"
}

# While it puts things together, what was there stays; while it moves them, it is whole again once it has been run again.
for number in 1 5 9; do
    killed_at cp $number
    pass_if 'and the installation that was there stays' same_as_before
done
for number in 1 2 3 5 8 12; do
    killed_at mv $number
    installs "$desk"
    pass_if "run again: $(cat "$said")" ended_well
    pass_if 'everything is there' same_as_before
done

# A machine that is not x86-64: `uname` and the toolchain's folder are stand-ins, and so is the emulator, which just runs what it is given.
if [ "$(uname -m)" = x86_64 ]; then
    played=$asked/played kit=$asked/played/kit
    mkdir -p "$kit/toolchain"
    ln -s "$toolchain/lib" "$kit/toolchain/lib"
    printf '#!/bin/sh\necho aarch64\n' >"$played/uname"
    printf '#!/bin/sh\necho "%s/START-HERE.md"\n' "$kit" >"$played/rt"
    printf '#!/bin/sh\ntouch "%s/emulated"\nexec "$@"\n' "$played" >"$played/qemu-x86_64"
    chmod +x "$played/uname" "$played/rt" "$played/qemu-x86_64"
    PATH=$played:$PATH installs "$asked/arm"
    pass_if "an installation on aarch64: $(cat "$said")" ended_well
    pass_if 'it says what runs there, and how' grep -qF "this machine is aarch64, and the programs are for x86-64: they run under the emulator $played/qemu-x86_64" "$printed"
    status=0
    PATH=$played:$PATH "$asked/arm/bin/laylist" "$example" >"$printed" 2>"$said" || status=$?
    pass_if "laylist under the emulator: $(cat "$said")" prints "$(<"$example/listing")"
    pass_if 'the emulator was used' [ -e "$played/emulated" ]
    rm "$played/qemu-x86_64"
    status=0
    PATH=$played:$PATH "$asked/arm/bin/laylist" "$example" >"$printed" 2>"$said" || status=$?
    pass_if 'without the emulator it ends with 2' ended 2 'under which the programs run on this machine, is missing'
    status=0
    PATH=$played:$PATH "$desk/bin/laylist" "$example" >"$printed" 2>"$said" || status=$?
    pass_if 'what was installed on x86-64 ends with 2' ended 2 'the programs are for x86-64, and this machine is aarch64'
fi
done_testing
