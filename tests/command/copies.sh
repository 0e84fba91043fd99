# Copies of the checkout, so that no trial changes it, and what a trial puts in place of rt, of the machine and of the program.
# shellcheck shell=sh
# shellcheck disable=SC2034,SC2154

# Where a program stands in a checkout.
program=crates/cabinet_list/out/cabinet_list

# The parts that the command needs, their times kept, and of what rt made the program alone, which is newer than its sources.
copy_checkout() { # FOLDER
    mkdir -p "$1/target/stamp" "$1/target/log"
    cp -a "$root/cabinet-list" "$root/tools" "$root/crates.txt" "$1"
    tar -C "$root" --anchored --no-wildcards-match-slash --exclude='crates/*/out' -cf - crates | tar -C "$1" -xf -
    mkdir "$(dirname "$1/$program")"
    cp -a "$root/$program" "$1/$program"
    cp "$root/target/stamp/cabinet_list" "$1/target/stamp"
    chmod -R go+rX "$1"
}

# The same with nothing built.
copy_unbuilt() { # FOLDER
    copy_checkout "$1"
    rm -rf "$1/target" "$1"/crates/*/out
}

copy_checkout "$work/copy"
list=$work/copy/cabinet-list

# As root nothing is read-only, and every file can be read: such trials are run as nobody.
drop=
[ "$(id -u)" != 0 ] || drop="$(command -v setpriv) --reuid=65534 --regid=65534 --clear-groups"

# A PATH of the test's own with all that the command calls, and no rt.
bare=$work/bare
mkdir "$bare"
for tool in awk cat cmp date dirname find flock grep mkdir mv readlink rm sed setsid sh sleep tail touch tr uname; do
    ln -s "$(command -v "$tool")" "$bare/$tool"
done

# With the stand-in for rt, in place of the trial's shell. The emulator is still the kit's.
export FAKE_DIR="$work/fake" FAKE_PROGRAM="$root/$program"
mkdir "$FAKE_DIR"
for tool in basename cp head; do
    ln -s "$(command -v "$tool")" "$FAKE_DIR/$tool"
done
cp "$here/fake-rt" "$FAKE_DIR/rt"
fake() { # HOW IT GOES, COMMAND
    export FAKE_RT="$1" PATH="$FAKE_DIR:$bare" RATTLE_HOME="$kit"
    shift
    exec "$@"
}

# The same, and does not wait for it.
start() { # NAME OF ITS OUTPUT, HOW IT GOES, COMMAND
    name=$1
    shift
    (fake "$@") </dev/null >"$work/$name.out" 2>"$work/$name.err" &
    started=$!
}

# How often the stand-in was called.
calls() { wc -l <"$FAKE_DIR/calls"; }

# On another kind of machine, with no kit, in place of the trial's shell.
for machine in x86_64 aarch64; do
    mkdir "$work/$machine"
    printf '#!/bin/sh\necho %s\n' "$machine" >"$work/$machine/uname"
    chmod +x "$work/$machine/uname"
done
on() { # MACHINE COMMAND
    unset RATTLE_HOME
    export PATH="$work/$1:$bare"
    shift
    exec "$@"
}

# A checkout whose program is a shell script, for a machine that says x86_64.
stand_in() { # FOLDER SCRIPT
    copy_checkout "$1"
    printf '#!/bin/sh\n%s\n' "$2" >"$1/$program"
}
