# How a trial is made and judged. The script run sets here, root, kit and work.
# shellcheck shell=sh
# shellcheck disable=SC2154

tried=0 failed=0
out=$work/out err=$work/err

# Deposits, and beside each what it is listed as. The first two are of docs/FORMAT.md, section 11.
deposits=$work/deposits
want=$work/want
mkdir "$deposits" "$want"
printf '\002\000\006\000\200\000\103' >"$deposits/aes"
printf '\002\000\006\000\200' >"$deposits/cut"
head -c 40 "$root/docs/samples/ecc_p256_srk" >"$deposits/cut-srk"
printf '\016\000\000\000\001\000\013\003\001\000\000\356' >"$deposits/pcrs"
{ printf '\002' && head -c 5000 /dev/zero; } >"$deposits/long"
cp "$root/docs/samples/ecc_p256_srk" "$deposits/srk"
printf 'kind 2 read 6 tail 0\n0 2 code 6\n2 2 number 128\n4 2 code 67\n' >"$want/aes"
printf 'kind 2 refused 1 at 4 value 2 had 0\n' >"$want/cut"
printf 'kind 11 refused 1 at 24 value 32 had 15\n' >"$want/cut-srk"
printf 'kind 14 read 10 tail 1\n0 4 number 1\n4 2 code 11\n6 1 number 3\n7 3 bytes 010000\n' >"$want/pcrs"
printf 'kind 0 refused 12 at 0 value 0\n' >"$want/no-input"
printf 'kind 2 refused 13 at 0 value 4097\n' >"$want/long"
cp "$here/ecc_p256_srk.listing" "$want/srk"
: >"$want/nothing"

# What is wrong with the last run, or nothing. A message must not call the command cabinet_list.
faults_of() { # STATUS OUT ERR
    [ "$status" = "$1" ] || printf ' status %s, not %s;' "$status" "$1"
    cmp -s "$out" "$want/$2" || printf ' standard output is not %s: %s;' "$2" "$(head -c 300 "$out" | tr '\0' '?')"
    # shellcheck disable=SC2254
    case $(cat "$err") in $3) ;; *) printf ' standard error is not as %s: %s;' "$3" "$(cat "$err")" ;; esac
    ! grep -q '^cabinet-list: .*cabinet_list' "$err" || printf ' standard error says cabinet_list;'
}

judge() { # WORDS FAULTS
    tried=$((tried + 1))
    if [ -z "$2" ]; then
        printf 'ok %s\n' "$1"
    else
        failed=$((failed + 1))
        printf 'FAILED %s:%s\n' "$1" "$2"
    fi
}

# COMMAND is for the shell. OUT names a file of $want, which standard output must equal; ERR is a pattern for all of standard error.
try() { # WORDS STATUS OUT ERR COMMAND
    status=0
    (eval "$5") </dev/null >"$out" 2>"$err" || status=$?
    judge "$1" "$(faults_of "$2" "$3" "$4")"
}

# The same of a command that was started, once it has ended.
try_ended() { # WORDS STATUS OUT ERR PROCESS NAME
    status=0
    { wait "$5" || status=$?; } 2>/dev/null
    cp "$work/$6.out" "$out"
    cp "$work/$6.err" "$err"
    judge "$1" "$(faults_of "$2" "$3" "$4")"
}

# For what is no matter of output and status.
check() { # WORDS COMMAND
    if (eval "$2") </dev/null >"$err" 2>&1; then judge "$1" ''; else judge "$1" " $(cat "$err")"; fi
}

# Several listings, each with its line in front, to be compared as one.
wanted() { # NAME, THEN PAIRS: LINE DEPOSIT
    to=$want/$1
    shift
    : >"$to"
    while [ $# -gt 0 ]; do
        printf '%s:\n' "$1" >>"$to"
        cat "$want/$2" >>"$to"
        shift 2
    done
}

wait_for() { # COMMAND
    for turn in 1 2 3 4 5 6 7 8 9 10 11 12 13 14 15 16 17 18 19 20 21 22 23 24 25 26 27 28 29 30; do
        eval "$1" && return
        : "$turn"
        sleep 0.3
    done
    return 1
}
