# File names.
# shellcheck shell=sh
# shellcheck disable=SC2016,SC2154

try 'a file' 0 aes '' '"$list" "$deposits/aes"'
try 'a refused file' 1 cut '' '"$list" "$deposits/cut"'
try 'the name -' 0 aes '' '"$list" - <"$deposits/aes"'

wanted two aes aes cut cut
try 'two files, the worst counts' 1 two '' 'cd "$deposits" && "$list" aes cut'
wanted read aes aes srk srk
try 'two files that are read' 0 read '' 'cd "$deposits" && "$list" aes srk'
wanted twice aes aes aes aes
try 'a name given twice' 0 twice '' 'cd "$deposits" && "$list" aes aes'
wanted with-input - srk aes aes
try 'standard input among files' 0 with-input '' 'cd "$deposits" && "$list" - aes <srk'

try 'no such file' 2 nothing 'cabinet-list: nowhere: [Nn]o such file*' 'cd "$deposits" && "$list" nowhere'
try 'no such file among others, which are listed' 2 two 'cabinet-list: nowhere: [Nn]o such file*' 'cd "$deposits" && "$list" aes nowhere cut'
chmod 000 "$deposits/aes"
try 'a file that may not be read' 2 nothing 'cabinet-list: aes: Permission denied' 'cd "$deposits" && $drop "$list" aes'
chmod 644 "$deposits/aes"
wanted with-folder aes aes . nothing cut cut
try 'a folder among others' 2 with-folder 'cabinet-list: .: Is a directory' 'cd "$deposits" && "$list" aes . cut'

try 'several files to a full device: one line' 2 nothing 'cabinet-list: standard output: No space left on device' '"$list" "$deposits/aes" "$deposits/cut" >/dev/full'
try 'several files to a pipe that nobody reads: one line' 2 nothing 'cabinet-list: standard output: Broken pipe' \
    '{ status=0; sleep 0.3; "$list" "$deposits/aes" "$deposits/cut" || status=$?; echo "$status" >"$work/status"; } | true; exit "$(cat "$work/status")"'

mkfifo "$work/fifo"
try 'a named pipe, opened once' 0 srk '' 'cat "$deposits/srk" >"$work/fifo" & "$list" "$work/fifo"'

try 'the file /dev/stdin' 0 aes '' '"$list" /dev/stdin <"$deposits/aes"'
try 'the file /dev/fd/3' 0 aes '' '"$list" /dev/fd/3 3<"$deposits/aes"'
wanted by-number /dev/fd/3 aes /dev/fd/4 srk
try 'the files /dev/fd/3 and /dev/fd/4' 0 by-number '' '"$list" /dev/fd/3 /dev/fd/4 3<"$deposits/aes" 4<"$deposits/srk"'

names=$work/names
mkdir "$names"
line='two
lines'
for name in -aes --kind 'with spaces' '*' "$line" 'a: b' '$(x)`y`\n' '~' '#' "$(printf '\351')"; do
    cp "$deposits/aes" "$names/$name"
done
for name in 'with spaces' '*' "$line" 'a: b' '$(x)`y`\n' '~' '#' "$(printf '\351')"; do
    wanted odd "$(printf %s "$name" | tr '\n' '?')" aes aes aes
    try "the name '$(printf %s "$name" | tr '\n' '?')'" 0 odd '' 'cd "$names" && "$list" "$name" ../deposits/aes | sed "s|^../deposits/||"'
    try "no such file, by the name 'no$(printf %s "$name" | tr '\n' '?')'" 2 nothing 'cabinet-list: no*: [Nn]o such file*' 'cd "$names" && "$list" "no$name"'
done
check 'a name of two lines is shown as one' 'cd "$names" && ! "$list" "no$line" 2>&1 | sed -n 2p | grep .'
for name in -aes --kind; do
    try "the name '$name' behind --" 0 aes '' 'cd "$names" && "$list" -- "$name"'
    try "the name './$name'" 0 aes '' 'cd "$names" && "$list" "./$name"'
done
try 'an empty name' 2 nothing "cabinet-list: '': [Nn]o such file*" '"$list" ""'
try 'an empty name among others' 2 two "cabinet-list: '': [Nn]o such file*" 'cd "$deposits" && "$list" aes "" cut'

long=$(printf '%0200d/' 0 0 0 0 0 0 0 0 0 0 0 0 0 0 0 0 0 0)aes
try 'a long name' 0 aes '' 'cd "$names" && mkdir -p "${long%/aes}" && cp "$deposits/aes" "$long" && "$list" "$long"'
try 'a long name of a folder' 2 nothing "cabinet-list: ${long%/aes}: Is a directory" 'cd "$names" && "$list" "${long%/aes}"'

# Descriptors that the command has for itself would be its own output, or its own pipe.
for own in /dev/stdout /dev/stderr /dev/fd/1 /dev/fd/2 /dev/fd/8 /dev/fd/9; do
    try "$own as a file" 2 nothing "cabinet-list: $own: it cannot be read here" '"$list" "$own"'
done
