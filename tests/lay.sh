#!/usr/bin/env bash
# Tests of lay_list, which lists a log into a buffer, at once or in parts: compared with document 01's listing, with the last field
# that 02's A1 adds, and with the rule (listing.py, rule.py). Also tests that the harness, lay.c, answers no ill-formed request.
cd "$(dirname "$0")/.." && . tests/common.bash && . tests/library.bash

# digits TEXT: its bytes in hexadecimal
digits() { printf '%s' "$1" | od -An -v -tx1 | tr -d ' \n'; }

# 01's job, the same with a window of one cell, 01's chain with the factor 1,000,000, and its log of three records; 01 gives their
# whole output.
job=30750000409c0000010000000000000064000000000000000000000000000000
one=${job/0001/0000}
table=0000000000000000307500000000000000000000409c0000
scale=40420f00
fix=010100000100000000000000000059c000000000000069c00000000000000000
grid=02000000020000005c8fc2f528c0724000000000000079400000000000000000
hold=0300000003000000000000000000000000000000000000000000000000000000
lines=('1 FIX 2 5 30000 40000 30001 40001 0'$'\n' '2 GRID 1 0 30001 40000 1'$'\n' '3 HOLD 1 0 30001 40000 1'$'\n')
whole=${lines[0]}${lines[1]}${lines[2]}

# asks LENGTH DIRT HELD E N ROUNDED JOB TABLE SCALE LOG: adds a request; gives REFUSAL HELD E N ROUNDED TEXT: adds the answer that
# it must have
asks() { echo "list $*" >>"$requests"; }
gives() {
    local text
    text=$(digits "$6")
    echo "$1 ${#6} $2 $3 $4 $5 ${text:--} kept" >>"$asked/literal"
}

# The whole log at once; then its records one by one, each with the place and the last field that the record before it leaves.
asks 23040 165 0 0 0 0 $job $table $scale $fix$grid$hold
gives 0 1 30001 40000 1 "$whole"
asks 11520 165 0 0 0 0 $job $table $scale $fix
gives 0 0 0 0 0 "${lines[0]}"
asks 11520 165 0 0 0 0 $job $table $scale $grid
gives 0 1 30001 40000 1 "${lines[1]}"
asks 11520 165 1 30001 40000 1 $job $table $scale $hold
gives 0 1 30001 40000 1 "${lines[2]}"

# A place of 300 m and 400 m, which is exact, with a hold in the next part, and a hold of that in the one after.
exact=${grid/5c8fc2f528c07240/0000000000c07240}
asks 11520 165 0 0 0 0 $job $table $scale $exact
gives 0 1 30000 40000 0 '2 GRID 1 0 30000 40000 0'$'\n'
for part in first second; do
    asks 11520 165 1 30000 40000 0 $job $table $scale $hold
    gives 0 1 30000 40000 0 '3 HOLD 1 0 30000 40000 0'$'\n'
done

# A hold with nothing to hold (HELD is 0), whatever is given with it; a HELD and a ROUNDED other than 0 and 1; a hold after a fix in a
# window of one cell, also where its first reading is the number next to -100 m.
asks 11520 0 0 30001 40000 1 $job $table $scale $hold
gives 0 0 0 0 0 '3 REFUSED 11 0'$'\n'
asks 11520 0 4294967295 30001 40000 1 $job $table $scale $hold
gives 0 1 30001 40000 1 "${lines[2]}"
asks 11520 0 1 30001 40000 9 $job $table $scale $hold
gives 0 1 30001 40000 1 "${lines[2]}"
asks 11520 0 1 30001 40000 4294967294 $job $table $scale $hold
gives 0 1 30001 40000 1 "${lines[2]}"
asks 17280 10 0 0 0 0 $one $table $scale $fix$hold
gives 0 1 30000 40000 0 '1 FIX 1 1 30000 40000 0'$'\n''3 HOLD 1 0 30000 40000 0'$'\n'
asks 17280 10 0 0 0 0 $one $table $scale ${fix/00000000000059c0/01000000000059c0}$hold
gives 0 1 30000 40000 1 '1 FIX 1 1 30000 40000 1'$'\n''3 HOLD 1 0 30000 40000 1'$'\n'

# An empty log passes on what it was given, as 0 or 1; with nothing held, no place and no field.
asks 5760 0 1 30001 40000 0 $job $table $scale -
gives 0 1 30001 40000 0 ''
asks 5760 0 7 30001 40000 9 $job $table $scale -
gives 0 1 30001 40000 1 ''
asks 5760 0 0 30001 40000 1 $job $table $scale -
gives 0 0 0 0 0 ''

# A buffer that is one byte too short, for the log and for an empty log; a short last record; a bad table; a bad job, which is
# reported before a bad table; a side file that is missing, of another length, or that of two chains, which is reported after both,
# also if the log is empty. Nothing is held after any of these, whatever was held before.
asks 23039 165 0 0 0 0 $job $table $scale $fix$grid$hold
gives 9 0 0 0 0 ''
asks 5759 0 1 30001 40000 1 $job $table $scale -
gives 9 0 0 0 0 ''
asks 5760 0 0 0 0 0 $job $table $scale -
gives 0 0 0 0 0 ''
asks 11520 255 1 30001 40000 1 $job $table $scale ${grid}03
gives 0 0 0 0 0 "${lines[1]}"'- REFUSED 1 0'$'\n'
asks 11520 255 1 30001 40000 1 $job ${table}00 $scale $grid
gives 0 0 0 0 0 'CHAIN REFUSED 1'$'\n'
asks 11520 255 1 30001 40000 1 ${job/0001/0019} ${table}00 $scale $grid
gives 0 0 0 0 0 'JOB REFUSED 6'$'\n'
asks 5760 255 1 30001 40000 1 ${job/0001/0019} $table $scale -
gives 0 0 0 0 0 'JOB REFUSED 6'$'\n'
for wrong in - 00 ${scale:2} ${scale}00 $scale$scale; do
    asks 11520 255 1 30001 40000 1 $job $table $wrong $grid
    gives 0 0 0 0 0 'SCALE REFUSED 1'$'\n'
    asks 5760 255 1 30001 40000 1 $job $table $wrong -
    gives 0 0 0 0 0 'SCALE REFUSED 1'$'\n'
    asks 11520 255 1 30001 40000 1 $job ${table}00 $wrong $grid
    gives 0 0 0 0 0 'CHAIN REFUSED 1'$'\n'
    asks 11520 255 1 30001 40000 1 ${job/0001/0019} $table $wrong $grid
    gives 0 0 0 0 0 'JOB REFUSED 6'$'\n'
done
asks 11520 255 0 0 0 0 $job $table$table $scale $grid
gives 0 0 0 0 0 'SCALE REFUSED 1'$'\n'

# A factor out of range matters to the record that names its chain, and to no other. At both ends of the range the readings of 01's
# place are other ones: at 999,000 its ranges are 50050, 40040 and 30030, at 1,001,000 they are 49950, 39960 and 29970.
for wrong in 573e0f00 29460f00 00000000 ffffffff; do
    asks 17280 255 0 0 0 0 $job $table $wrong $grid$fix
    gives 0 0 0 0 0 "${lines[1]}"'1 REFUSED 5 0'$'\n'
    asks 17280 255 0 0 0 0 $job $table$table $scale$wrong $fix$grid
    gives 0 1 30001 40000 1 "${lines[0]}${lines[1]}"
done
asks 11520 255 0 0 0 0 $one $table 583e0f00 ${fix/00000000000059c000000000000069c0/66666666660659c066666666660669c0}
gives 0 1 30000 40000 1 '1 FIX 1 1 30000 40000 1'$'\n'
asks 11520 255 0 0 0 0 $one $table 28460f00 ${fix/00000000000059c000000000000069c0/9a99999999f958c09a99999999f968c0}
gives 0 1 30000 40000 1 '1 FIX 1 1 30000 40000 1'$'\n'
ask cat "$asked/literal"

# The chosen folders.
python3 tests/listing.py requests >"$requests"
ask python3 tests/listing.py answers
refuses list 0 9

# no_answer LINE: tests that the harness ends with 2 at the request LINE, after its answer to the request before it
no_answer() {
    local status=0
    printf '%s\n%s\n' 'metres 0' "$1" | harness >"$answers" 2>"$wanted" || status=$?
    [ "$status" -eq 2 ] && [ "$(<"$answers")" = '0 0000000000000000' ] && [ "$(wc -l <"$wanted")" -eq 1 ]
}
while IFS= read -r line; do
    pass_if "no answer to '$line'" no_answer "$line"
done <<'END'

metre 0
metres
metres 
metres  0
metres 0 0
metres +1
metres -
metres 1x
metres 9223372036854775808
metres -9223372036854775809
centimetres 0
centimetres 3FC0000000000000
centimetres 3fc00000000000000
read_record 0
read_record 0A
read_record --
count_chains  
chain 24 90 4294967296 - -
chain 24 90 -1 - -
chain 24 90 1 -
write_record 32 256 1 1 1 0 0
write_record 18446744073709551615 0 1 1 1 0 0
expected 2 7 0,0,30000,0,0 1000000 0 0
expected 2 7 0,0,30000,0,0,40000,0 1000000 0 0
expected 2 7 0,0,30000,0,,40000 1000000 0 0
expected 2 7 0,0,30000,0,0,4294967296 1000000 0 0
expected 2 7 0,0,30000,0,0,40000 0 0
expected 2 7 0,0,30000,0,0,40000 4294967296 0 0
search 4611686018427387904 7 0,0,30000,0,0,40000 1000000 0,0,0,0,0 0 0
search 1 7 0,0,30000,0,0,40000 1000000 0,0,0,0,18446744073709551616 0 0
search 1 7 0,0,30000,0,0,40000 1000000 0,0,256,0,0 0 0
search 1 7 0,0,30000,0,0,40000 1000000
search 1 7 0,0,30000,0,0,40000 0,0,0,0,0 0 0
search 1 7 0,0,30000,0,0,40000 -1 0,0,0,0,0 0 0
how_many 0,0,30000,0,0,40000 1000000
how_many 0,0,30000,0,0 1000000 0,0,0,0,0 0 0
how_many 0,0,30000,0,0,40000 1000000 0,0,0,0 0 0
how_many 0,0,30000,0,0,40000 1000000 0,0,256,0,0 0 0
how_many 0,0,30000,0,0,40000 1000000 0,0,0,0,18446744073709551616 0 0
how_many 0,0,30000,0,0,40000 1000000 0,0,0,0,0 0 9223372036854775808
how_many 0,0,30000,0,0,40000 1000000 0,0,0,0,0 0 
how_many 0,0,30000,0,0,40000 0,0,0,0,0 0 0
read_chain 6 7 0,0,30000,0,0,40000
write_chain 24 9
write_factor 4 9
write_factor 4 9 4294967296
write_factor 4 9 1000000 0
version 1
list 5760 0 0 0 0 - - -
list 5760 0 0 0 0 - - - -
list 5760 0 0 0 0 0 - - -
list 5760 0 0 0 0 4294967296 - - - -
list 5760 0 0 0 0 -1 - - - -
END
done_testing
