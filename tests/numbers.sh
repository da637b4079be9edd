#!/usr/bin/env bash
# Tests what crates/run_numbers prints: whole square roots against their definition, fields read from bytes against od, and fields
# put into bytes against the digits of the number in base 256.
cd "$(dirname "$0")/.." && . tests/common.bash

output=$(mktemp)
trap 'rm -f "$output"' EXIT
program run_numbers >"$output"

# Numbers too large for the shell's arithmetic, with their roots: 2^63 - 1, the square of 2^32 - 1, which is the largest in 64 bits,
# the number before it, and 2^64 - 1.
declare -A beyond=(
    [9223372036854775807]=3037000499
    [18446744065119617024]=4294967294
    [18446744065119617025]=4294967295
    [18446744073709551615]=4294967295
)

is_root() { # N R
    if [ -n "${beyond[$1]:-}" ]; then
        [ "$2" = "${beyond[$1]}" ]
    else
        (($2 * $2 <= $1 && $1 < ($2 + 1) * ($2 + 1)))
    fi
}

bytes='\1\2\3\4\5\6\7\370\371\372\373\374'

read_by_od() { # WIDTH LENGTH AT
    if [ "${#3}" -gt 2 ] || (($3 + $1 > $2)); then
        echo outside
    else
        printf "$bytes" | od -An -v "-tu$1" --endian=little -j "$3" -N "$1" | tr -d ' '
    fi
}

put_by_hand() { # WIDTH AT N: what must be left of a buffer that had twelve bytes of 170
    local buffer=(170 170 170 170 170 170 170 170 170 170 170 170) i
    if [ "${#2}" -gt 2 ] || (($2 + $1 > 12)); then
        echo "outside ${buffer[*]}"
        return
    fi
    for ((i = 0; i < $1; i++)); do buffer[$2 + i]=$((($3 >> (8 * i)) & 255)); done
    echo "done ${buffer[*]}"
}

while read -r word one two rest; do
    case $word in
    root) pass_if "root of $one: $two" is_root "$one" "$two" ;;
    four) pass_if "four bytes at $two of $one: $rest" [ "$rest" = "$(read_by_od 4 "$one" "$two")" ] ;;
    eight) pass_if "eight bytes at $two of $one: $rest" [ "$rest" = "$(read_by_od 8 "$one" "$two")" ] ;;
    put) pass_if "put $one at $two: $rest" [ "${rest#* }" = "$(put_by_hand "$one" "$two" "${rest%% *}")" ] ;;
    *) pass_if "a line of another kind: $word" false ;;
    esac
done <"$output"
pass_if 'every root, field and put is there' [ "$passed" -eq 51 ]
done_testing
