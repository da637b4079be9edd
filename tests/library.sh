#!/usr/bin/env bash
# Tests that the examples of the library, in C and in Rust, are linked as docs/LIBRARY.md says, and print P4 of document 01; that the
# header has the numbers of the crates, and no function with twelve arguments; and that the library keeps nothing between calls.
cd "$(dirname "$0")/.." && . tests/common.bash && . tests/library.bash
listing=$'refusal 0, 2 places, 5 visits, rounded 0\n30000 40000\n30001 40001'
header=crates/lay/lay.h

# The commands of docs/LIBRARY.md that make an example, as they stand there; off x86-64 only that of the cross compiler.
while read -r command; do
    [ "$(uname -m)" = x86_64 ] || [[ $command == x86_64-linux-gnu-gcc* ]] || continue
    rm -f "$asked/places"
    quietly ${command/-o places/-o "$asked/places"}
    pass_if "what this makes prints P4: $command" [ "$("${emulator[@]}" "$asked/places")" = "$listing" ]
done < <(sed -n 's/^    \(.* -o places .*\)/\1/p' docs/LIBRARY.md)
pass_if 'docs/LIBRARY.md has a command for C, one off x86-64, and one for Rust' [ "$(grep -cE '^    (gcc|x86_64-linux-gnu-gcc|rustc) .* -o places ' docs/LIBRARY.md)" -eq 3 ]
pass_if 'the example in C has no warnings' quietly "$compiler" -Wall -Wextra -Werror -fsyntax-only -I crates/lay examples/places.c
[ "$(uname -m)" != x86_64 ] ||
    pass_if 'the example in Rust has no warnings' quietly rustc --edition 2021 -D warnings -L target/staticlib -o "$asked/places" examples/places.rs

# As C++ reads it too, which is the same on every machine.
pass_if 'lay.h is a header of C++' quietly g++ -x c++ -Wall -Wextra -Werror -fsyntax-only -I crates/lay $header

# in_header NAME: the number that the header gives to a name; in_crate CRATE NAME: what a constant of a crate is
in_header() { sed -n "s/^ *$1 = \([0-9]*\)\(,.*\| .*\)\?$/\1/p" $header; }
in_crate() { sed -n "s/^\(pub \)\?const $2: [a-z0-9]* = \([0-9_]*\);$/\2/p" "crates/$1/src/lib.rt" | tr -d _; }
same() { [ -n "$1" ] && [ "$1" = "$2" ]; }
while read -r name crate constant; do
    pass_if "$name is $crate::$constant" same "$(in_header "$name")" "$(in_crate "$crate" "$constant")"
done <<'END'
LAY_RECORD_BYTES records LOG_BYTES
LAY_CHAIN_BYTES records CHAIN_BYTES
LAY_FACTOR_BYTES records FACTOR_BYTES
LAY_JOB_BYTES records JOB_BYTES
LAY_MOST_CHAINS records MOST_CHAINS
LAY_LINE_BYTES listing LONGEST_LINE
LAY_CHAIN_NUMBERS lay CHAIN_NUMBERS
LAY_CHAIN_READINGS lay CHAIN_READINGS
LAY_MOST_EASTING chart MOST_EASTING
LAY_MOST_NORTHING chart MOST_NORTHING
LAY_LEAST_FACTOR chart LEAST_FACTOR
LAY_MOST_FACTOR chart MOST_FACTOR
LAY_UNIT_FACTOR chart UNIT_FACTOR
LAY_MOST_READING search MOST_READING
LAY_MOST_EXPONENT search MOST_EXPONENT
LAY_MOST_TOLERANCE search MOST_TOLERANCE
END
# longest NAME PART: that NAME is the bytes of the most chains, if each has PART
longest() { same "$(in_header "$1")" $(($(in_header "$2") * $(in_header LAY_MOST_CHAINS))); }
pass_if 'LAY_TABLE_BYTES is that of the most chains' longest LAY_TABLE_BYTES LAY_CHAIN_BYTES
pass_if 'LAY_SCALE_BYTES is that of the most chains' longest LAY_SCALE_BYTES LAY_FACTOR_BYTES
pass_if 'the library has the version of the header' \
    same "$(echo version | harness)" "$(sed -n 's/^#define LAY_VERSION \([0-9]*\)$/\1/p' $header)"

# The marks by their names: 0.25 m is exact, 0.375 m lies below its 38 centimetres, and 0.125 m above its 12.
while read -r name pattern centimetres; do
    pass_if "$name is the mark of $pattern" same "$(harness <<<"centimetres $pattern")" "0 $centimetres $(in_header "$name")"
done <<'END'
LAY_EQUAL 3fd0000000000000 25
LAY_BELOW 3fd8000000000000 38
LAY_ABOVE 3fc0000000000000 12
END

# The factors by their names: the least and the most are accepted, and those beside them are not; one leaves distances as they are.
least=$(in_header LAY_LEAST_FACTOR) most=$(in_header LAY_MOST_FACTOR)
while read -r factor refusal; do
    pass_if "the factor $factor gives $refusal" same "$(harness <<<"write_factor 4 0 $factor" | cut -d ' ' -f 1)" "$refusal"
done <<END
$((least - 1)) 5
$least 0
$most 0
$((most + 1)) 5
END
pass_if 'LAY_UNIT_FACTOR gives the readings of P1' \
    same "$(harness <<<"expected 2 0 0,0,30000,0,0,40000 $(in_header LAY_UNIT_FACTOR) 30000 40000")" '0 -10000 -20000'

# How many places by their names: in P8's window none, in that of one cell one, in P4's several.
while read -r name window place visits; do
    pass_if "$name is the answer in the window $window" \
        same "$(harness <<<"how_many 0,0,30000,0,0,40000 1000000 $window,0,100 -10000 -20000")" \
        "0 $(in_header "$name") ${place/,/ } $visits"
done <<'END'
LAY_NO_PLACE 30001,40000,0 0,0 1
LAY_ONE_PLACE 30000,40000,0 30000,40000 1
LAY_SEVERAL_PLACES 30000,40000,1 0,0 5
END

# declared: a line for each function of the header, its name and its arguments; symbols: what the library has, by the tool that
# belongs to its compiler; exported: its functions
declared() { tr '\n' ' ' <$header | grep -oE 'uint32_t lay_[a-z_]+\([^)]*\);' | sed 's/^uint32_t //'; }
symbols() { "${compiler%gcc}nm" "$@" "$library"; }
exported() { symbols | awk '$2 == "T" { print $3 }' | sort; }
pass_if 'the header declares what the library has' [ "$(declared | sed 's/(.*//' | sort)" = "$(exported)" ]
while read -r function; do
    commas=${function//[^,]/}
    pass_if "${function%%(*} has fewer than twelve arguments" [ ${#commas} -lt 11 ]
done < <(declared)

# No variable that outlives a call, and nothing called but what fills and copies memory: no file, no heap and no lock.
pass_if 'the library has no variables' [ -z "$(symbols | awk '$2 ~ /^[bBdDcC]$/')" ]
pass_if 'the library calls on nothing outside' [ -z "$(symbols -u | awk '$1 == "U" && $2 !~ /^mem(set|cpy|move)$/')" ]
done_testing
