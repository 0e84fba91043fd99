# Options.
# shellcheck shell=sh
# shellcheck disable=SC2016,SC2154

records=$work/records
mkdir "$records"
tail -c +2 "$deposits/srk" >"$records/public"
tail -c +2 "$deposits/aes" >"$records/aes"
{ printf '\000\132' && cat "$records/public"; } >"$records/sized"
{ cat "$records/sized" && printf x; } >"$records/more"
head -c 40 "$records/sized" >"$records/less"
printf '\000' >"$records/byte"
printf '\000\002\000\020' >"$records/null"
printf 'kind 1 read 2 tail 0\n0 2 code 16\n' >"$want/null"
printf 'kind 11 refused 1 at 0 value 2 had 0\n' >"$want/empty-public"

"$list" --help >"$want/help" || :
try '--help' 0 help '' '"$list" --help'
try '-h' 0 help '' '"$list" -h'
try '--help behind a file' 0 help '' '"$list" "$work/none" --help'
try '--help, nothing is built' 0 help '' 'mkdir "$work/sources" && cp -a "$root/cabinet-list" "$root/tools" "$work/sources" && "$work/sources/cabinet-list" --help'
try '--help to a full device' 2 nothing 'cabinet-list: standard output: No space left on device' '"$list" --help >/dev/full'
try '--help to a pipe that nobody reads' 2 nothing 'cabinet-list: standard output: Broken pipe' \
    '{ status=0; sleep 0.3; "$list" --help || status=$?; echo "$status" >"$work/status"; } | true; exit "$(cat "$work/status")"'
check 'the help has each kind of docs/FORMAT.md' '
    sed -n "s/^| \([0-9]*\) | \(TPM[A-Z_0-9]*\) .*/\1 \2/p" "$root/docs/FORMAT.md" | {
        count=0
        while read -r line; do count=$((count + 1)) && grep -q "^ *$line\$" "$want/help" || { echo "no $line"; exit 1; }; done
        [ "$count" -eq 20 ]
    }'
check 'the help has each refusal of docs/FORMAT.md' '
    sed -n "/^## 2/,/^## 3/s/^| \([0-9]*\) | \([A-Z][A-Za-z]*\) .*/\1 \2/p" "$root/docs/FORMAT.md" | {
        count=0
        while read -r number name; do count=$((count + 1)) && grep -q "^ *$number [ *]* $name: " "$want/help" || { echo "no $number $name"; exit 1; }; done
        [ "$count" -eq 13 ]
    }'
check 'the help has the usage, the lines and the statuses' 'grep -q "^usage: cabinet-list " "$want/help" && grep -q "^  kind KIND read SIZE tail LEFT " "$want/help" && grep -q "^  PLACE SIZE code NUMBER " "$want/help" && grep -q "^  PLACE SIZE number NUMBER " "$want/help" && grep -q "^  PLACE SIZE bytes HEX " "$want/help" && grep -q "^  kind KIND refused NUMBER at PLACE value VALUE" "$want/help" && grep -q "^  kind KIND refused 1 at PLACE value VALUE had LEFT" "$want/help" && grep -q "^  record NUMBER at PLACE " "$want/help" && grep -q "^Exit status: 0 read, 1 refused, 2 trouble" "$want/help"'
check 'no line of the help is longer than 80' '! grep -n ".\{81\}" "$want/help"'

try '--kind 11' 0 srk '' '"$list" --kind 11 <"$records/public"'
try '--kind=11' 0 srk '' '"$list" --kind=11 "$records/public"'
try '--kind TPMT_PUBLIC' 0 srk '' '"$list" --kind TPMT_PUBLIC "$records/public"'
try '--kind=TPMT_PUBLIC' 0 srk '' '"$list" --kind=TPMT_PUBLIC <"$records/public"'
try '--kind behind a file' 0 srk '' '"$list" "$records/public" --kind 11'
try '--kind, no input' 1 empty-public '' '"$list" --kind 11'
wanted kinds public srk public srk
try '--kind, two files' 0 kinds '' 'cd "$records" && "$list" --kind 11 public public'
try '--kind, the last one counts' 0 aes '' '"$list" --kind 11 --kind 2 "$records/aes"'
number=0
for kind in HA SYM_DEF KDF_SCHEME KEYEDHASH_SCHEME SIG_SCHEME RSA_SCHEME ECC_SCHEME RSA_DECRYPT PUBLIC_PARMS SIGNATURE PUBLIC SENSITIVE TPMS_ATTEST TPML_PCR_SELECTION TPMS_CAPABILITY_DATA NV_PUBLIC_2 TK_CREATION TK_VERIFIED TK_HASHCHECK TK_AUTH; do
    number=$((number + 1))
    case $kind in TPM*) ;; *) kind=TPMT_$kind ;; esac
    field=2
    case $number in 13 | 14 | 15) field=4 ;; esac
    echo "kind $number refused 1 at 0 value $field had 1" >"$want/refused"
    # The first field of kind 16 is one byte, and 0 is no handle type.
    case $number in 16) echo 'kind 16 refused 2 at 0 value 0' >"$want/refused" ;; esac
    try "--kind $number" 1 refused '' '"$list" --kind "$number" "$records/byte"'
    try "--kind $kind is $number" 1 refused '' '"$list" --kind "$kind" "$records/byte"'
done
for kind in 0 21 255 011 -1 1.0 ' 11' TPMT_public TPM2B_PUBLIC '*' '' 'two
lines'; do
    try "--kind '$(printf %s "$kind" | tr '\n' '?')'" 2 nothing 'cabinet-list: --kind *: no such kind (cabinet-list --help *)' '"$list" --kind "$kind" "$records/public"'
    try "--kind='$(printf %s "$kind" | tr '\n' '?')'" 2 nothing 'cabinet-list: --kind *: no such kind (cabinet-list --help *)' '"$list" "--kind=$kind" "$records/public"'
done
try '--kind, a wrong one behind a right one' 2 nothing 'cabinet-list: --kind 21: no such kind*' '"$list" --kind 11 --kind 21 "$records/public"'
try '--kind without a kind' 2 nothing 'cabinet-list: --kind: no kind is given*' '"$list" "$records/public" --kind'

try '--sized' 0 srk '' '"$list" --kind 11 --sized <"$records/sized"'
try '--sized, a file' 0 srk '' '"$list" --sized --kind TPMT_PUBLIC "$records/sized"'
try '--sized, bytes behind it' 2 nothing "cabinet-list: $records/more: no TPM2B: the size in front is 90, and the bytes that follow are 91" '"$list" --kind 11 --sized "$records/more"'
try '--sized, bytes are missing' 2 nothing "cabinet-list: $records/less: no TPM2B: the size in front is 90, and the bytes that follow are 38" '"$list" --kind 11 --sized "$records/less"'
try '--sized, one byte' 2 nothing 'cabinet-list: standard input: no TPM2B: it has no two bytes of size' '"$list" --kind 11 --sized <"$records/byte"'
try '--sized, input without an end' 2 nothing 'cabinet-list: standard input: no TPM2B: the size in front is 0, and the bytes that follow are 65536 or more' '"$list" --kind 11 --sized </dev/zero'
try '--sized, no input' 2 nothing 'cabinet-list: standard input: no TPM2B: it has no two bytes of size' '"$list" --kind 11 --sized'
try '--sized, another kind' 0 null '' '"$list" --kind 1 --sized "$records/null"'
try '--sized without --kind' 2 nothing 'cabinet-list: --sized: *' '"$list" --sized "$records/sized"'

try '--run without --kind' 2 nothing 'cabinet-list: --run: it needs --kind (cabinet-list --help *)' '"$list" --run "$records/aes"'
try '--run with --sized' 2 nothing 'cabinet-list: --run: it does not go with --sized (cabinet-list --help *)' '"$list" --kind 11 --sized --run "$records/sized"'
try '--sized with --run' 2 nothing 'cabinet-list: --run: it does not go with --sized (cabinet-list --help *)' '"$list" --run "$records/sized" --sized --kind 11'

for word in -x --kinds --sized=1 --run=1 --help=1 -kind --siz -run '--two
lines'; do
    try "the option '$(printf %s "$word" | tr '\n' '?')'" 2 nothing 'cabinet-list: -*: no such option (cabinet-list --help *)' '"$list" "$word" "$deposits/aes"'
done
try 'an option that is none, errors to a full device' 2 nothing '' '"$list" -x 2>/dev/full'
try 'an option that is none, ahead of --help' 2 nothing 'cabinet-list: -x: no such option*' '"$list" -x --help'
try '-- and a file' 0 aes '' '"$list" -- "$deposits/aes"'
try '-- and nothing' 0 aes '' '"$list" -- <"$deposits/aes"'
try '-- and -' 0 aes '' '"$list" -- - <"$deposits/aes"'
try '-- behind a file: names keep their order' 0 with-input '' 'cd "$deposits" && "$list" - -- aes <srk'
try '-- ends the options' 2 nothing 'cabinet-list: --help: [Nn]o such file*' '"$list" -- --help'
