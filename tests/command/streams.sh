# The three standard descriptors.
# shellcheck shell=sh
# shellcheck disable=SC2016,SC2154

try 'a deposit on standard input' 0 aes '' '"$list" <"$deposits/aes"'
try 'a real public area' 0 srk '' '"$list" <"$deposits/srk"'
try 'a refused deposit' 1 cut '' '"$list" <"$deposits/cut"'
try 'a key that is cut, as README.md shows it' 1 cut-srk '' '"$list" <"$deposits/cut-srk"'
try 'a deposit with a tail' 0 pcrs '' '"$list" <"$deposits/pcrs"'
try 'no input' 1 no-input '' '"$list" </dev/null'
try 'a deposit that is too long' 1 long '' '"$list" <"$deposits/long"'
try 'input without an end' 1 no-input '' '"$list" </dev/zero'
try 'by a pipe' 0 srk '' 'cat "$deposits/srk" | "$list"'
try 'by a slow pipe' 0 aes '' '{ head -c 3 "$deposits/aes"; sleep 0.3; tail -c +4 "$deposits/aes"; } | "$list"'

try 'output to a full device' 2 nothing 'cabinet-list: standard output: No space left on device' '"$list" <"$deposits/aes" >/dev/full'
try 'output closed' 2 nothing 'cabinet-list: standard output is closed' '"$list" <"$deposits/aes" >&-'
try 'output closed, a file' 2 nothing 'cabinet-list: standard output is closed' '"$list" "$deposits/aes" >&-'
try 'output closed, help' 2 nothing 'cabinet-list: standard output is closed' '"$list" --help >&-'
try 'output and input closed' 2 nothing 'cabinet-list: standard output is closed' '"$list" <&- >&-'
try 'output cannot be written' 2 nothing 'cabinet-list: standard output: Bad file descriptor' '"$list" <"$deposits/aes" 1</dev/null'
try 'output to a pipe that nobody reads' 2 nothing 'cabinet-list: standard output: Broken pipe' \
    '{ status=0; sleep 0.3; "$list" "$deposits/srk" || status=$?; echo "$status" >"$work/status"; } | true; exit "$(cat "$work/status")"'

# Two listings of 359 bytes with their lines do not fit in the 512 that the file may have. The third line is not written either.
wanted limited srk srk srk srk
head -c 512 "$want/limited" >"$want/limited-begun"
try 'output to a file that may not grow' 2 limited-begun 'cabinet-list: standard output: File too large
cabinet-list: standard output: File too large' 'cd "$deposits" && trap "" XFSZ && status=0 && { (ulimit -f 1 && "$list" srk srk srk srk >"$work/limited") || status=$?; } && cat "$work/limited" && exit "$status"'

try 'input closed' 2 nothing 'cabinet-list: standard input: it is closed' '"$list" <&-'
try 'input closed, and asked for by -' 2 nothing 'cabinet-list: standard input: it is closed' '"$list" - <&-'
try 'input closed, and not needed' 0 aes '' '"$list" "$deposits/aes" <&-'
try 'input cannot be read' 2 nothing 'cabinet-list: standard input: Bad file descriptor' '"$list" 0>"$work/new"'
try 'input is a folder' 2 nothing 'cabinet-list: standard input: Is a directory' '"$list" <"$work"'

try 'errors closed, read' 0 aes '' '"$list" <"$deposits/aes" 2>&-'
try 'errors closed, refused' 1 cut '' '"$list" <"$deposits/cut" 2>&-'
try 'errors closed, a failed read' 2 nothing '' '"$list" <"$work" 2>&-'
try 'errors closed, a failed write' 2 nothing '' '"$list" <"$deposits/aes" >/dev/full 2>&-'
try 'errors closed, no such file' 2 nothing '' '"$list" "$work/none" 2>&-'
try 'errors to a full device' 2 nothing '' '"$list" "$work/none" 2>/dev/full'
try 'errors and input closed' 2 nothing '' '"$list" <&- 2>&-'
try 'errors and input closed, a file' 0 aes '' '"$list" "$deposits/aes" <&- 2>&-'
try 'all three closed' 2 nothing '' '"$list" <&- >&- 2>&-'
try 'all three closed, a file' 2 nothing '' '"$list" "$deposits/aes" <&- >&- 2>&-'
try 'further descriptors of the user' 0 aes '' '"$list" "$deposits/aes" 3>"$work/3" 4>"$work/4" 7>"$work/7" 8>"$work/8" 9>"$work/9"'
check 'nothing is written there' 'cat "$work/3" "$work/4" "$work/7" "$work/8" "$work/9" | cmp - /dev/null'

# The program has 0, 1, 2 and 3 alone: each further descriptor must not be one of those four again.
stand_in "$work/leaks" 'mine=$(for n in 0 1 2 3; do readlink "/proc/$$/fd/$n"; done)
for fd in /proc/$$/fd/*; do
    case $fd in */[0123]) continue ;; esac
    echo "$mine" | grep -qxF "$(readlink "$fd")" && [ "$(readlink "$fd")" != /dev/null ] && echo "leak: $fd"
done
echo 0 >&3'
try 'no descriptor leaks into the program' 0 nothing '' 'on x86_64 "$work/leaks/cabinet-list" "$deposits/aes"'
try 'no descriptor leaks into the program, standard input' 0 nothing '' 'on x86_64 "$work/leaks/cabinet-list" <"$deposits/aes"'

stand_in "$work/dies" 'kill -9 $$'
try 'the program is killed' 2 nothing '*cabinet-list: standard input: the program ended without an answer' 'on x86_64 "$work/dies/cabinet-list"'
