# First runs and later builds, with a stand-in for rt; read-only checkouts; machines without rt.
# shellcheck shell=sh
# shellcheck disable=SC2016,SC2154

first=$work/first
copy_unbuilt "$first"
log=$first/target/log/cabinet-list.log
built=$first/$program
crates=$(sed -n 's/^cabinet_list: *//p' "$root/crates.txt" | tr ' ' '\n' | while read -r crate; do [ ! -d "$root/crates/$crate" ] || echo; done | wc -l)
crates=$((crates + 1))

# What a first run says.
proving='cabinet-list: proving and building the program, about [1-9]* minutes'
said=$proving
number=0
while [ "$number" -lt "$crates" ]; do
    number=$((number + 1))
    said="$said
cabinet-list: crate $number of $crates, about [1-9]* minute* in all"
done

try 'a first run' 0 aes "$said" 'fake good "$first/cabinet-list" "$deposits/aes"'
check 'rt'"'"'s own words are in the log' 'grep -q "^fn faults::one: proved" "$log"'
try 'the next run' 0 aes '' 'fake good "$first/cabinet-list" "$deposits/aes"'
check 'rt was called once' '[ "$(calls)" -eq 1 ]'

touch "$first/crates/faults/src/lib.rt"
try 'a crate was touched' 0 aes 'cabinet-list: the sources have changed: proving and building the program again' 'fake good "$first/cabinet-list" "$deposits/aes"'
try 'and the next run' 0 aes '' 'fake good "$first/cabinet-list" "$deposits/aes"'
check 'rt was called twice' '[ "$(calls)" -eq 2 ]'
rm "$built"
try 'the program is gone' 0 aes "$said" 'fake good "$first/cabinet-list" "$deposits/aes"'

# Two first runs at once. A line comes when its crate is ended, not at the end.
unbuild() { rm -rf "$first/target" "$first"/crates/*/out "$FAKE_DIR/calls"; }
unbuild
start one steps "$first/cabinet-list" "$deposits/aes"
one=$started
check 'a line comes while rt goes on' 'wait_for "grep -q \"crate 2 of $crates\" \"$work/one.err\"" && [ ! -e "$built" ]'
start two steps "$first/cabinet-list" "$deposits/cut"
two=$started
check 'a second first run waits' 'wait_for "grep -q waiting \"$work/two.err\"" && [ ! -s "$work/two.out" ]'
touch "$FAKE_DIR/go"
try_ended 'the first of two at once' 0 aes "$said" "$one" one
try_ended 'the second of two at once' 1 cut 'cabinet-list: another run is building here: waiting for it' "$two" two
check 'rt was called once for both' '[ "$(calls)" -eq 1 ]'

unbuild
try 'a first run fails' 2 nothing "cabinet-list: proving*
cabinet-list: crate 1 of $crates*
cabinet-list: crate 2 of $crates*
cabinet-list: the program was not built. The last lines of $log:
*error: the goal is not proved
*rt: the library codes did not build, so nothing above it was checked" 'fake refused "$first/cabinet-list" "$deposits/aes"'
try 'the program was linked, and its run failed' 2 nothing '*the program was not built*' 'fake unrun "$first/cabinet-list" "$deposits/aes"'
check 'the program is there' '[ -x "$built" ]'
try 'and it is not taken for good' 0 aes "$proving" 'fake good "$first/cabinet-list" "$deposits/aes"'
unbuild
try 'the program was linked, and its run wrote something else' 2 nothing '*the program was not built*the program ran, and wrote something else than *' \
    'fake unlike "$first/cabinet-list" "$deposits/aes"'
check 'that program is there' '[ -x "$built" ]'
try 'and that is not taken for good' 0 aes "$proving" 'fake good "$first/cabinet-list" "$deposits/aes"'

gone() { ! kill -0 "$(cat "$FAKE_DIR/child")" 2>/dev/null; }

unbuild
rm -f "$FAKE_DIR/go" "$work/one.err"
start one steps "$first/cabinet-list" "$deposits/aes"
wait_for 'grep -q "crate 2 of" "$work/one.err"' || :
touch "$first/crates/faults/src/lib.rt" "$FAKE_DIR/go"
try_ended 'a crate is touched while rt goes on' 0 aes "$said" "$started" one
try 'and is not taken for built' 0 aes 'cabinet-list: the sources have changed*' 'fake good "$first/cabinet-list" "$deposits/aes"'
touch "$first/crates.txt"
try 'crates.txt was touched' 0 aes 'cabinet-list: the sources have changed*' 'fake good "$first/cabinet-list" "$deposits/aes"'

unbuild
try 'target is removed while rt goes on' 2 nothing '*cabinet-list: the time of the build cannot be kept' 'fake swept "$first/cabinet-list" "$deposits/aes"'

# What the script does not foresee is trouble, and no refusal.
unbuild
mkdir "$work/broken"
printf '#!/bin/sh\nexit 1\n' >"$work/broken/awk"
chmod +x "$work/broken/awk"
try 'a tool of the script fails' 2 nothing '*' 'bare=$work/broken:$bare && fake good "$first/cabinet-list" "$deposits/aes"'

unbuild
rm -f "$FAKE_DIR/child"
start one hangs "$first/cabinet-list" "$deposits/aes"
wait_for '[ -s "$FAKE_DIR/child" ]' || :
kill -s TERM "$started" || :
try_ended 'a first run is stopped' 143 nothing 'cabinet-list: proving*
cabinet-list: stopped; what was proved is kept' "$started" one
check 'rt and what it started are stopped too' 'wait_for gone'
check 'a program was left' '[ -x "$built" ]'
try 'and it is not taken for good' 0 aes "$said" 'fake good "$first/cabinet-list" "$deposits/aes"'

unbuild
rm -f "$FAKE_DIR/child"
start one hangs "$first/cabinet-list" "$deposits/aes"
wait_for '[ -s "$FAKE_DIR/child" ]' || :
kill -s KILL "$started" || :
wait "$started" 2>/dev/null || :
start two good "$first/cabinet-list" "$deposits/aes"
check 'a first run was killed and its rt goes on: the next one waits' 'wait_for "grep -q waiting \"$work/two.err\""'
kill -s TERM -- "-$(head -n 1 "$FAKE_DIR/calls")" || :
try_ended 'and builds once that rt has ended' 0 aes "cabinet-list: another run*waiting for it
$said" "$started" two

# Read-only: nobody, or the user, may not write. That is tried first.
readonly=$work/readonly
copy_checkout "$readonly"
copy_unbuilt "$work/readonly-unbuilt"
chmod -R a-w "$readonly" "$work/readonly-unbuilt"
cannot_write() { ! $drop sh -c 'true >>"$1/target/log/new" || true >>"$1/new"' sh "$1" 2>/dev/null; }
check 'the read-only checkout cannot be written' 'cannot_write "$readonly" && cannot_write "$work/readonly-unbuilt"'
try 'a read-only checkout' 0 aes '' '$drop "$readonly/cabinet-list" "$deposits/aes"'
chmod u+w "$readonly/crates/faults/src/lib.rt"
touch "$readonly/crates/faults/src/lib.rt"
chmod a-w "$readonly/crates/faults/src/lib.rt"
try 'a read-only checkout, a file touched later' 0 aes "cabinet-list: the program is older than its sources, and cannot be built again: $readonly/target cannot be written" \
    'fake good $drop "$readonly/cabinet-list" "$deposits/aes"'
try 'a read-only checkout, nothing built' 2 nothing "cabinet-list: the program is not built, and $work/readonly-unbuilt/target cannot be written" \
    'fake good $drop "$work/readonly-unbuilt/cabinet-list" "$deposits/aes"'

# No rt.
no_kit='cabinet-list: the Rattle kit is needed*rattle-kit-13f, logic dac8208d650f15bf*README*'
copy_unbuilt "$work/unbuilt"
stand_in "$work/native" 'cat >/dev/null; echo listed; echo 0 >&3'
echo listed >"$want/listed"
for machine in x86_64 aarch64; do
    try "no rt, nothing built, $machine" 2 nothing "$no_kit" 'on "$machine" "$work/unbuilt/cabinet-list" "$deposits/aes"'
done
try 'no rt, built, x86_64' 0 listed '' 'on x86_64 "$work/native/cabinet-list" "$deposits/aes"'
try 'no rt, built, aarch64' 2 nothing "$no_kit" 'on aarch64 "$work/native/cabinet-list" "$deposits/aes"'
touch "$work/native/crates/faults/src/lib.rt"
try 'no rt, built, a file touched later, x86_64' 0 listed 'cabinet-list: the program is older than its sources, and cannot be built again: there is no rt' \
    'on x86_64 "$work/native/cabinet-list" "$deposits/aes"'
try 'the same, errors to a full device' 0 listed '' '(on x86_64 "$work/native/cabinet-list" "$deposits/aes") 2>/dev/full'
try 'a kit without an emulator' 2 nothing 'cabinet-list: the kit has no emulator for this machine, aarch64' \
    'PATH=$work/aarch64:$PATH RATTLE_HOME=$work "$list" "$deposits/aes"'

try 'tools/run-program, as other scripts call it' 0 aes '' '"$work/copy/tools/run-program" cabinet_list <"$deposits/aes"'
unbuild
try 'tools/run-program, a first run' 0 aes '*cabinet_list: crate 1 of *' 'fake good "$first/tools/run-program" cabinet_list <"$deposits/aes"'
