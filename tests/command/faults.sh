# Reads and writes that fail, stop short or are interrupted: a library preloaded into the program makes them so.
# shellcheck shell=sh
# shellcheck disable=SC2016,SC2154

compiler=$kit/toolchain/bin
"$compiler/clang" --target=x86_64-unknown-linux-gnu --ld-path="$compiler/ld.lld" -shared -fPIC -nostdlib -O1 -Wall -Wextra -Werror \
    -o "$work/faults.so" "$here/faults.c"

# The program is x86-64. The emulator has a variable of its own for what the program's loader is to see.
case $(uname -m) in
x86_64) preload=LD_PRELOAD=$work/faults.so ;;
*) preload=QEMU_SET_ENV=LD_PRELOAD=$work/faults.so ;;
esac
faulty() { # SETTINGS COMMAND
    settings=$1
    shift
    # shellcheck disable=SC2086
    env "$preload" $settings "$@"
}

io_error="cabinet-list: $deposits/srk: Input/output error"
full='cabinet-list: standard output: No space left on device'
head -c 20 "$want/srk" >"$want/srk-begun"
head -c 7 "$want/cut" >"$want/cut-begun"

try 'a read fails at once' 2 nothing "$io_error" 'faulty "READ_STOP=0 READ_ERROR=5" "$list" "$deposits/srk"'
try 'a read fails in the middle' 2 nothing "$io_error" 'faulty "READ_STOP=40 READ_ERROR=5" "$list" "$deposits/srk"'
try 'a read fails at the end' 2 nothing "$io_error" 'faulty "READ_STOP=91 READ_ERROR=5" "$list" "$deposits/srk"'
try 'a read of standard input fails in the middle' 2 nothing 'cabinet-list: standard input: Input/output error' 'faulty "READ_STOP=40 READ_ERROR=5" "$list" <"$deposits/srk"'
try 'a read of a record fails in the middle' 2 nothing "cabinet-list: $records/public: Input/output error" 'faulty "READ_STOP=40 READ_ERROR=5" "$list" --kind 11 "$records/public"'
try 'a read of a TPM2B fails in the middle' 2 nothing "cabinet-list: $records/sized: Input/output error" 'faulty "READ_STOP=40 READ_ERROR=5" "$list" --kind 11 --sized "$records/sized"'
try 'a read of a TPM2B fails in its size' 2 nothing "cabinet-list: $records/sized: Input/output error" 'faulty "READ_STOP=1 READ_ERROR=5" "$list" --kind 11 --sized "$records/sized"'
try 'a read of a row fails in the middle' 2 nothing "cabinet-list: $rows/three: Input/output error" 'faulty "READ_STOP=8 READ_ERROR=5" "$list" --kind 2 --run "$rows/three"'
try 'a read of a row fails at the end' 2 nothing "cabinet-list: $rows/three: Input/output error" 'faulty "READ_STOP=10 READ_ERROR=5" "$list" --kind 2 --run "$rows/three"'
try 'a read of a long row fails in the middle' 2 nothing "cabinet-list: $rows/most: Input/output error" 'faulty "READ_STOP=1000000 READ_ERROR=5" "$list" --kind 11 --run "$rows/most"'
wanted begun "$deposits/srk" nothing "$deposits/srk" nothing
try 'a read fails in each of two files' 2 begun "$io_error
$io_error" 'faulty "READ_STOP=40 READ_ERROR=5" "$list" "$deposits/srk" "$deposits/srk"'

try 'reads of one byte' 0 srk '' 'faulty READ_MOST=1 "$list" "$deposits/srk"'
try 'reads of one byte, a TPM2B' 0 srk '' 'faulty READ_MOST=1 "$list" --kind 11 --sized "$records/sized"'
try 'reads of one byte, a row' 0 row-three '' 'faulty READ_MOST=1 "$list" --kind 2 --run "$rows/three"'
try 'every second read is interrupted' 0 srk '' 'faulty "READ_EINTR=2 READ_MOST=1" "$list" "$deposits/srk"'

try 'a write fails at once' 2 nothing "$full" 'faulty "WRITE_STOP=0 WRITE_ERROR=28" "$list" "$deposits/srk"'
try 'a write fails in the middle' 2 srk-begun "$full" 'faulty "WRITE_STOP=20 WRITE_ERROR=28" "$list" "$deposits/srk"'
try 'a write fails in the middle of a refusal' 2 cut-begun "$full" 'faulty "WRITE_STOP=7 WRITE_ERROR=28" "$list" "$deposits/cut"'
try 'writes of one byte' 0 srk '' 'faulty WRITE_MOST=1 "$list" "$deposits/srk"'
try 'every second write is interrupted' 0 srk '' 'faulty "WRITE_EINTR=2 WRITE_MOST=1" "$list" "$deposits/srk"'
try 'all of it at once' 0 srk '' 'faulty "READ_EINTR=2 READ_MOST=1 WRITE_EINTR=3 WRITE_MOST=2" "$list" "$deposits/srk"'
try 'all of it at once, refused' 1 cut '' 'faulty "READ_EINTR=2 READ_MOST=1 WRITE_EINTR=3 WRITE_MOST=2" "$list" "$deposits/cut"'
try 'closing the output fails' 2 srk "cabinet-list: standard output: Input/output error" 'faulty CLOSE_ERROR=5 "$list" "$deposits/srk"'

# The first line of a row and its first listing take 47 bytes.
head -c 20 "$want/row-three" >"$want/row-begun"
head -c 47 "$want/row-three" >"$want/row-first"
head -c 80 "$want/row-three" >"$want/row-second"
try 'a write fails in the first record of a row' 2 row-begun "$full" 'faulty "WRITE_STOP=20 WRITE_ERROR=28" "$list" --kind 2 --run "$rows/three"'
try 'a write fails behind the first record of a row' 2 row-first "$full" 'faulty "WRITE_STOP=47 WRITE_ERROR=28" "$list" --kind 2 --run "$rows/three"'
try 'a write fails in the second record of a row' 2 row-second "$full" 'faulty "WRITE_STOP=80 WRITE_ERROR=28" "$list" --kind 2 --run "$rows/three"'
head -c 7 "$want/row-cut" >"$want/row-cut-begun"
try 'a write fails in the refusal of a row' 2 row-cut-begun "$full" 'faulty "WRITE_STOP=7 WRITE_ERROR=28" "$list" --kind 2 --run "$rows/cut"'
try 'all of it at once, a row' 0 row-three '' 'faulty "READ_EINTR=2 READ_MOST=1 WRITE_EINTR=3 WRITE_MOST=2" "$list" --kind 2 --run "$rows/three"'
try 'all of it at once, a refused row' 1 row-cut '' 'faulty "READ_EINTR=2 READ_MOST=1 WRITE_EINTR=3 WRITE_MOST=2" "$list" --kind 2 --run "$rows/cut"'
try 'closing the output fails, a row' 2 row-three "cabinet-list: standard output: Input/output error" 'faulty CLOSE_ERROR=5 "$list" --kind 2 --run "$rows/three"'
try 'closing the output fails, a row of no records' 2 nothing "cabinet-list: standard output: Input/output error" 'faulty CLOSE_ERROR=5 "$list" --kind 2 --run "$rows/none"'
try 'closing the output fails, a refused row' 2 row-cut "cabinet-list: standard output: Input/output error" 'faulty CLOSE_ERROR=5 "$list" --kind 2 --run "$rows/cut"'
