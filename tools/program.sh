# For cabinet-list and tools/run-program, which read this file: builds a program crate if need be, and runs it.
# They set root, the checkout; name, the crate; and me, the name that messages begin with.
# shellcheck shell=sh
# shellcheck disable=SC2154

folder=$root/crates/$name
program=$folder/out/$name
# This file is removed before rt builds the program, and put back once the program is proved, linked and has run as it should: an
# interrupted build leaves none.
built=$root/target/stamp/$name
log=$root/target/log/$me.log
ran=$root/target/log/$me.ran
lock=$root/target/log/build.lock
# Seconds a crate: a first run of 19 crates took 481 on two Arm cores.
pace=25
# The folder of the emulator, where one is needed.
tools=

# What cannot be said must not change the status.
say() { printf '%s: %s\n' "$me" "$1" >&2 || :; }

fail() {
    say "$1"
    exit 2
}

needs_kit() {
    fail "the Rattle kit is needed and there is no rt: rattle-kit-13f, logic dac8208d650f15bf. README.md says what is known of where it comes from"
}

is_built() { [ -x "$program" ] && [ -f "$built" ]; }

# Of a crate's own folder its files and folders are looked at: rt makes a folder `out` there, which is no source.
is_old() { [ -n "$(cd "$root" && find crates crates.txt -regex 'crates/[^/]*/out' -prune -o ! -regex 'crates/[^/]*' -newer "$built" -print -quit)" ]; }

is_good() { is_built && ! is_old; }

can_write() { mkdir -p "$root/target/log" "$root/target/stamp" && true >>"$lock" && true >>"$log"; } 2>/dev/null

# The crates that this program rests on, and itself, in the order in which rt builds them. The kit's own have no line in crates.txt.
list_crates() {
    NAME=$name awk -F: '
        function need(n,   words, count, k) {
            if (!(n in rests) || n in seen) return
            seen[n] = 1
            count = split(rests[n], words, " ")
            for (k = 1; k <= count; k++) need(words[k])
            print n
        }
        { sub(/#.*/, "") }
        /:/ { split($1, head, " "); rests[head[1]] = $2 }
        END { need(ENVIRON["NAME"]) }' "$root/crates.txt"
}

# The time in all: the time so far, and for each crate that is left the usual pace, or the pace so far where that is slower.
minutes() { # CRATES DONE SECONDS
    awk -v crates="$1" -v done="$2" -v spent="$3" -v pace="$pace" 'BEGIN {
        if (done * pace < spent) pace = spent / done
        n = int((spent + (crates - done) * pace) / 60 + 0.5)
        print (n > 1 ? n " minutes" : "1 minute")
    }'
}

# Says a line for each crate that rt has proved since the last call, with its number in the list. Of one that it need not prove rt says nothing.
tell() {
    proved=$(awk '/^crate [^ ]*: modules / { crate = $2; sub(/:$/, "", crate) } /^logic=proved/ { print crate }' "$log" | tail -n +"$((told + 1))")
    for crate in $proved; do
        told=$((told + 1))
        number=$(printf '%s\n' "$needed" | sed -n "/^$crate\$/=")
        [ -z "$number" ] || say "crate $number of $crates, about $(minutes "$crates" "$number" "$(($(date +%s) - began))") in all"
    done
}

# rt and all that it started are one process group: setsid makes it so.
stop() { # SIGNAL
    trap - "$1" EXIT
    kill -s TERM -- "-$job" 2>/dev/null || kill "$job" 2>/dev/null || :
    say 'stopped; what was proved is kept'
    kill -s "$1" $$
}

# What rt says goes to the log. It runs the program last, on the crate's file stdin: what that writes goes to a file of its own.
start_rt() {
    given=$folder/stdin
    [ -f "$given" ] || given=/dev/null
    (trap - PIPE && cd "$folder" && exec setsid rt run) <"$given" >"$ran" 2>"$log" 8>&- 9>&- &
    job=$!
    for signal in HUP INT TERM; do
        # shellcheck disable=SC2064
        trap "stop $signal" "$signal"
    done
}

# A shell that waits for a command answers no signal, and rt may take long: so it looks each second.
wait_for_rt() {
    told=0
    while kill -0 "$job" 2>/dev/null; do
        sleep 1
        tell
    done
    trap - HUP INT TERM
    wait "$job"
}

not_built() {
    say "the program was not built. The last lines of $log:"
    tail -n 5 "$log" | sed 's/^/    /' >&2 || :
    exit 2
}

# The program must write what the crate's file stdout has.
has_run() {
    wanted=$folder/stdout
    [ -f "$wanted" ] || wanted=/dev/null
    cmp -s "$ran" "$wanted" || {
        echo "the program ran, and wrote something else than $wanted has: $ran" >>"$log"
        return 1
    }
}

build() {
    needed=$(list_crates)
    crates=$(printf '%s\n' "$needed" | sed -n '$=')
    began=$(date +%s)
    touch "$lock"
    if is_built; then
        say 'the sources have changed: proving and building the program again'
    else
        say "proving and building the program, about $(minutes "$crates" 0 0)"
    fi
    rm -f "$built"
    start_rt
    wait_for_rt || not_built
    # What was changed since rt began is newer than the build.
    touch -r "$lock" "$built.new" || fail "the time of the build cannot be kept"
    has_run || not_built
    mv "$built.new" "$built"
    is_built || not_built
}

# Two builds in one checkout would break each other. A lock folder would outlive a run that is killed. This lock is held by an open
# descriptor, which rt has too, and goes when the last of them has ended.
build_alone() {
    exec 7>>"$lock"
    flock -n 7 || {
        say 'another run is building here: waiting for it'
        flock 7
    }
    is_good || build
    exec 7>&-
}

old_one() { say "the program is older than its sources, and cannot be built again: $1"; }

build_or_use() {
    command -v rt >/dev/null || {
        is_built || needs_kit
        old_one 'there is no rt'
        return
    }
    can_write || {
        is_built || fail "the program is not built, and $root/target cannot be written"
        old_one "$root/target cannot be written"
        return
    }
    build_alone
}

# The program is for x86-64. Elsewhere it runs under the kit's emulator.
find_emulator() {
    [ "$(uname -m)" != x86_64 ] || return 0
    kit=${RATTLE_HOME:-}
    [ -n "$kit" ] || {
        rt=$(command -v rt) || needs_kit
        kit=$(dirname "$(dirname "$(readlink -f "$rt")")")
    }
    tools=$kit/on/$(uname -m)/toolchain
    [ -x "$tools/bin/qemu-x86_64" ] || fail "the kit has no emulator for this machine, $(uname -m)"
}

ready() {
    is_good || build_or_use
    find_emulator
}

# In place of this shell.
run() { # WORDS
    [ -n "$tools" ] || exec "$program" "$@"
    exec "$tools/bin/qemu-x86_64" "$tools/lib/ld-linux-x86-64.so.2" --library-path "$tools/lib" "$program" "$@"
}
