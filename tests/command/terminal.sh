# In a terminal. There a line ends with a carriage return too.
# shellcheck shell=sh
# shellcheck disable=SC2016,SC2154

for text in aes no-input; do
    sed "s/\$/$(printf '\r')/" "$want/$text" >"$want/$text-shown"
done
printf 'cabinet-list: %s: Is a directory\r\n' "$work" >"$want/folder-shown"
# The interpreter itself: what PATH has may be a script that needs more than the trial's own PATH.
python=$(python3 -c 'import sys; print(sys.executable)')
terminal() { "$python" "$here/terminal.py" "$@"; }

try 'a listing on a terminal' 0 aes-shown '' 'terminal "" "" "$list" "$deposits/aes"'
try 'a message on a terminal' 2 folder-shown '' 'terminal "" "" "$list" "$work"'
try 'typed at a terminal, ended by Ctrl-D twice, since no line is ended' 0 aes-shown '' 'terminal 020006008000430404 "" "$list"'
try 'nothing typed but Ctrl-D' 1 no-input-shown '' 'terminal 04 "" "$list"'

unbuild
rm -f "$FAKE_DIR/child"
try 'Ctrl-C in a first run' 130 nothing 'cabinet-list: proving*
cabinet-list: crate 2 of*
cabinet-list: stopped; what was proved is kept*' 'fake hangs "$python" "$here/terminal.py" 03 "crate 2 of" "$first/cabinet-list" "$deposits/aes" >&2'
check 'rt and what it started are stopped' 'wait_for gone'
check 'a program was left' '[ -x "$built" ]'
try 'and it is not taken for good' 0 aes "$said" 'fake good "$first/cabinet-list" "$deposits/aes"'
