# Rows of records: the option --run.
# shellcheck shell=sh
# shellcheck disable=SC2016,SC2154

rows=$work/rows
mkdir "$rows"
printf '\000\020' >"$rows/null"
cat "$rows/null" "$records/aes" >"$rows/two"
cat "$rows/two" "$rows/null" >"$rows/three"
: >"$rows/none"
head -c 6 "$rows/three" >"$rows/cut"
{ cat "$rows/two" && printf '\000'; } >"$rows/more"
{ head -c 3 "$rows/two" && tail -c +5 "$rows/two"; } >"$rows/lost"
cat "$records/public" "$records/public" "$records/public" >"$rows/keys"
head -c 200 "$rows/keys" >"$rows/cut-keys"

# The records of a row, as each is listed alone, with the lines in front.
row_of() { # NAME, THEN PAIRS: PLACE LISTING
    to=$want/$1
    shift
    : >"$to"
    number=0
    while [ $# -gt 0 ]; do
        number=$((number + 1))
        printf 'record %s at %s\n' "$number" "$1" >>"$to"
        cat "$want/$2" >>"$to"
        shift 2
    done
}

printf 'kind 2 read 2 tail 0\n0 2 code 16\n' >"$want/one-null"
row_of row-two 0 one-null 2 aes
row_of row-three 0 one-null 2 aes 8 one-null
row_of row-aes 0 aes
row_of row-keys 0 srk 90 srk 180 srk
printf 'kind 2 refused 1 at 6 value 2 had 0\n' >"$want/row-cut"
printf 'kind 2 refused 1 at 8 value 2 had 1\n' >"$want/row-more"
printf 'kind 2 refused 2 at 2 value 0\n' >"$want/row-lost"
printf 'kind 11 refused 1 at 200 value 2 had 0\n' >"$want/row-cut-keys"

try 'a row of two records' 0 row-two '' '"$list" --kind 2 --run "$rows/two"'
try 'a row of three records' 0 row-three '' '"$list" --run --kind 2 "$rows/three"'
try 'a row, as README.md shows it' 0 row-two '' '"$list" --kind TPMT_SYM_DEF --run "$rows/two"'
try 'a row of one record' 0 row-aes '' '"$list" --kind=2 --run "$records/aes"'
try 'a row of three real public areas' 0 row-keys '' '"$list" --kind TPMT_PUBLIC --run "$rows/keys"'
try 'a row on standard input' 0 row-three '' '"$list" --kind 2 --run <"$rows/three"'
try 'a row on standard input, by -' 0 row-three '' '"$list" --kind 2 --run - <"$rows/three"'
try 'a row by a slow pipe' 0 row-two '' '{ head -c 3 "$rows/two"; sleep 0.3; tail -c +4 "$rows/two"; } | "$list" --kind 2 --run'
try 'a row of no records' 0 nothing '' '"$list" --kind 2 --run "$rows/none"'
try 'a row of no records, no input' 0 nothing '' '"$list" --kind 20 --run'

try 'a row that is cut: none of it is listed' 1 row-cut '' '"$list" --kind 2 --run "$rows/cut"'
try 'a row with a byte more, as README.md shows it' 1 row-more '' '"$list" --kind 2 --run "$rows/more"'
try 'a row that has lost a byte' 1 row-lost '' '"$list" --kind 2 --run "$rows/lost"'
try 'a row of real public areas that is cut' 1 row-cut-keys '' '"$list" --kind 11 --run "$rows/cut-keys"'

wanted row-files two row-two three row-three
try 'two rows' 0 row-files '' 'cd "$rows" && "$list" --kind 2 --run two three'
wanted row-worst two row-two none nothing cut row-cut three row-three
try 'rows, one of none, one refused: the worst counts' 1 row-worst '' 'cd "$rows" && "$list" --kind 2 --run two none cut three'
wanted row-trouble two row-two . nothing cut row-cut
try 'a folder among rows' 2 row-trouble 'cabinet-list: .: Is a directory' 'cd "$rows" && "$list" --kind 2 --run two . cut'

# 16,384 records of 64 bytes are the longest row that is held.
{ printf '\000\010\000\013\000\000\000\000\000\000\000\020\000\062' && head -c 50 /dev/zero; } >"$rows/most"
"$list" --kind 11 "$rows/most" >"$want/one-of-most"
for turn in 1 2 3 4 5 6 7 8 9 10 11 12 13 14; do
    : "$turn"
    cat "$rows/most" "$rows/most" >"$rows/double"
    mv "$rows/double" "$rows/most"
done
awk '{ text = text $0 "\n" } END { for (n = 1; n <= 16384; n++) printf "record %d at %d\n%s", n, (n - 1) * 64, text }' "$want/one-of-most" >"$want/row-most"
{ cat "$rows/most" && printf '\000'; } >"$rows/over"
many='more than 1048576 bytes of records in a row'
check 'it has 1,048,576 bytes' '[ "$(wc -c <"$rows/most")" -eq 1048576 ] && [ "$(head -n 1 "$want/one-of-most")" = "kind 11 read 64 tail 0" ]'
try 'a row of 1,048,576 bytes' 0 row-most '' '"$list" --kind 11 --run "$rows/most"'
try 'a row of a byte more' 2 nothing "cabinet-list: $rows/over: $many" '"$list" --kind 11 --run "$rows/over"'
try 'a row without an end' 2 nothing "cabinet-list: standard input: $many" '"$list" --kind 11 --run </dev/zero'
wanted row-over over nothing two row-two
try 'a row that is too long among others' 2 row-over "cabinet-list: over: $many" 'cd "$rows" && "$list" --kind 2 --run over two'

try 'a row to a full device' 2 nothing 'cabinet-list: standard output: No space left on device' '"$list" --kind 2 --run "$rows/two" >/dev/full'
try 'a refused row to a full device' 2 nothing 'cabinet-list: standard output: No space left on device' '"$list" --kind 2 --run "$rows/cut" >/dev/full'
try 'a row to a pipe that nobody reads' 2 nothing 'cabinet-list: standard output: Broken pipe' \
    '{ status=0; sleep 0.3; "$list" --kind 2 --run "$rows/two" || status=$?; echo "$status" >"$work/status"; } | true; exit "$(cat "$work/status")"'
try 'a long row to a reader that leaves' 2 nothing 'cabinet-list: standard output: Broken pipe' \
    '{ status=0; "$list" --kind 11 --run "$rows/most" || status=$?; echo "$status" >"$work/status"; } | head -n 1 >/dev/null; exit "$(cat "$work/status")"'
try 'a row from a folder' 2 nothing 'cabinet-list: standard input: Is a directory' '"$list" --kind 2 --run <"$work"'

# The usual listing of the same bytes, of which all behind the first record is a tail.
printf 'kind 2 read 2 tail 6\n0 2 code 16\n' >"$want/one-and-tail"
try 'the same bytes without --run' 0 one-and-tail '' '"$list" --kind 2 "$rows/two"'
