#!/usr/bin/env bash
# Tests what a reader relies on: the layout, a head in each file, no proof among the definitions, one meaning for a name; for every public
# function a full contract with one answer, its row in docs/CONTRACTS.md and its faults; and that documents name what there is.
cd "$(dirname "$0")/.." && . tests/common.bash

sources=$(find crates -path '*/out' -prune -o -path 'crates/*/*/*' \( -name '*.rt' -o -name '*.antt' \) -print)
pass_if 'every file is in the layout of rt fmt' "$toolchain/../bin/rattle" fmt --check $sources

# headed FILE: that it begins with a comment, after a line `#!` if there is one; invariants may have the head of the answers beside them.
headed() { begins "$1" || { [[ $1 == */Invariants.antt ]] && begins "${1/%Invariants.antt/Answers.antt}"; }; }
begins() { [ -f "$1" ] && awk '/^#!/ { next } { found = /^(--|\/\/|#|\/\*|""")/; exit } END { exit !found }' "$1"; }
while read -r file; do
    pass_if "$file has a head that says what it is for" headed "$file"
done < <(find .ci bench bin crates crates.txt install second tests -type f -not -path '*/data/*' -not -path '*/target/*' -not -path '*/out/*' \
    -not -name stdin -not -name stdout -not -name args -not -name '*.md' -not -name Cargo.lock)

# The words of a proof, outside comments.
no_proof() { ! grep -vE '^ *--' "$1" | grep -nwE 'omega|refl|rw|simp|cc|subst|ap|absurd'; }
while read -r file; do
    pass_if "$file holds no proof" no_proof "$file"
done < <(grep /specs/ <<<"$sources" | sort)

# declared FILE...: the names that they declare: types, definitions, and laws at the top of a file; a line each, sorted.
declared() {
    awk '
        { i = 1; while ($i ~ /^(pub|abbrev|unfoldable|opaque)$/) i++ }
        $i ~ /^(record|data|struct|enum)$/ && $(i + 1) != "{" { print $(i + 1); next }
        $(i + 1) == ":" && (/^[^ ]/ || $1 ~ /^(abbrev|unfoldable|opaque)$/) { print $i }
    ' "$@" | sort
}

# none WORD...: that there is none; else they are printed.
none() { [ $# = 0 ] || { echo "$*"; false; }; }

# A reader of a contract knows a definition by its name alone: it means one thing in the whole tree, and no law has it.
definitions=$(declared crates/*/specs/*.antt crates/*/src/*.rt)
pass_if 'no two definitions have one name' none $(uniq -d <<<"$definitions")
pass_if 'no law has the name of a definition' none $(comm -12 <(uniq <<<"$definitions") <(declared crates/*/proofs/*.antt | uniq))

# public FILE: a line for each public function, its name, and `full` where it has an ensures and no requires.
public() {
    awk '
        /^ *pub (extern "C" )?fn / { name = $0; sub(/^ *pub (extern "C" )?fn /, "", name); sub(/[(<].*/, "", name); kind = "bare" }
        name != "" && /^ *ensures/ { if (kind == "bare") kind = "full" }
        name != "" && /^ *requires/ { kind = "asks" }
        name != "" && /[{]$/ && !/^ *(ensures|requires)/ { print name, kind; name = "" }
    ' "$1"
}

# faults CRATE: a line for each of its faults, its name and the functions that it is in and for.
faults() { cat "crates/$1/must-fail/"*.edit 2>/dev/null | sed -n 's/ for / /; s/^fault: \([a-z_0-9]*\) in /\1 /p'; }

# faulty FUNCTION COUNT: that so many of the faults on standard input, or more, are in the function or for it
faulty() { [ "$(cut -d ' ' -f 2- | grep -cw "$1")" -ge "$2" ]; }

# one_answer CRATE FUNCTION: that it is proved to have one, whatever the runtime is that it is given, or named as one that cannot
one_answer() {
    local alias aliases
    aliases=$(sed -n "s/^use Rattle\.$1\.specs\.contracts\.\(\w*\.\)*$2 as //p" crates/demands/proofs/OnlyAnswers.antt)
    # a method of a trait has one for each type
    for alias in ${aliases:-none}; do
        grep -qE "OneAnswer 𝓤 ($alias\.ended|\($alias\.ended [^()]*\)) \($alias\.clauses " crates/demands/proofs/OnlyAnswers.antt ||
            grep -q "^No one answer: .*\`$1::$2\`" docs/CONTRACTS.md || return
    done
}

# rows CRATE: the functions that have a row, those of a program's too, which has no public one.
rows() { sed -n "s/^| \`$1::\([a-z_0-9]*\)\` |.*/\1/p" docs/CONTRACTS.md; }

# promise CRATE FUNCTION: its parameters, its result and its clauses, without layout and without how C calls it
promise() {
    awk -v start="^ *pub (extern \"C\" )?fn $2[(<]" '$0 ~ start { found = 1 } found && /^{/ { exit } found' "crates/$1/src/lib.rt" |
        tr -d ' \n' | sed 's/extern"C"//; s/,)/)/g'
}

# The library for C has the functions of lay, which promise the same: what is said of those below is said of these.
there=$(faults lay_c)
pass_if 'no two faults of lay_c have one name' none $(cut -d ' ' -f 1 <<<"$there" | sort | uniq -d)
while read -r function kind; do
    pass_if "lay_c::$function promises what lay::$function does" [ "$(promise lay_c "$function")" = "$(promise lay "$function")" ]
    pass_if "lay_c::$function calls it" grep -q "^    lay::$function(" crates/lay_c/src/lib.rt
    pass_if "lay_c::$function has two faults" faulty "$function" 2 <<<"$there"
done < <(public crates/lay_c/src/lib.rt)

for crate in crates/*/; do
    name=$(basename "$crate")
    [ "$name" != lay_c ] || continue
    there=$(faults "$name") rows=$(rows "$name")
    # a crate without code has rows for its theorems
    if ! grep -q '\bfn ' "$crate"/src/*.rt; then
        for theorem in $rows; do
            pass_if "$name::$theorem is a theorem" grep -qE "^ *pub $theorem :" "$crate"/proofs/*.antt
        done
        continue
    fi
    while read -r function kind; do
        pass_if "$name::$function fixes what it returns and requires nothing" [ "$kind" = full ]
        pass_if "$name::$function is proved to have one answer" one_answer "$name" "$function"
        pass_if "docs/CONTRACTS.md has a row for $name::$function" grep -qx "$function" <<<"$rows"
        pass_if "$name::$function has two faults" faulty "$function" 2 <<<"$there"
    done < <(cat "$crate"/src/*.rt | public -)
    for function in $rows; do
        pass_if "$name::$function has a fault" faulty "$function" 1 <<<"$there"
        # one that a trait asks for has no `pub`
        [ ! -f "$crate/src/lib.rt" ] || pass_if "the row $name::$function has one answer" one_answer "$name" "$function"
    done
    pass_if "no two functions of $name have one row" none $(sort <<<"$rows" | uniq -d)
    pass_if "no two faults of $name have one name" none $(cut -d ' ' -f 1 <<<"$there" | sort | uniq -d)
    for function in $rows $(cut -s -d ' ' -f 2- <<<"$there"); do
        pass_if "$name::$function is there" grep -qE "fn $function[(<]" "$crate"/src/*.rt
    done
done

# docs/ARCHITECTURE.md: two screens, a picture that agrees with crates.txt, and no function or definition that is not there.
map=docs/ARCHITECTURE.md
pass_if "$map has 150 lines at most" [ "$(wc -l <$map)" -le 150 ]
pass_if "$map: the picture" [ "$(python3 tests/picture.py)" -eq "$(ls crates | wc -l)" ]
for name in $(grep -ohE '\b[a-z_]+::[a-z_]+\b' $map docs/{FORMATS,LIBRARY,DECISIONS,PERFORMANCE}.md README.md | sort -u); do
    pass_if "$name is there" grep -qE "fn ${name#*::}[(<]" "crates/${name%::*}/src/"*.rt
done
for name in $(sed -n 's/^      [|v]  .*  //p' $map | tr -d ',;'); do
    pass_if "$map: $name is a definition" grep -qx "$name" <<<"$definitions"
done

# Links of the documents to files of the tree.
while read -r page; do
    for link in $(links "$page"); do
        pass_if "$page: $link is there" [ -e "$(dirname "$page")/$link" ]
    done
done < <(find . -name '*.md' -not -path './target/*' | sort)
done_testing
