#!/bin/sh
# tests/crate/build.sh TEXT OUT LEVEL PROGRAM...: puts the crate's text in the folder TEXT and the rebuilt modules together in OUT/src, builds
# them as the crate tpm2_protocol, and over it each PROGRAM of this folder, by its name without .rs, into OUT. LEVEL is rustc's level of
# optimisation, 0 to 3. OUT is emptied first.
#   RUSTC   a rustc that is new enough; else it is found (find-rustc)
#   ADAPTED if set, TEXT is the adapted text (adapt.py): the rebuilt modules have what it needs, and refuse where it stands an attestation type
#           without an arm (rebuilt/data/tpms.rs), and a handle type and a hierarchy that our lists do not have (rebuilt/data/enum.rs)
set -eu
here=$(cd "$(dirname "$0")" && pwd -P)
[ $# -ge 3 ] || { echo 'tests/crate/build.sh: TEXT OUT LEVEL PROGRAM...' >&2; exit 2; }
text=$1 out=$2 level=$3
shift 3
RUSTC=${RUSTC:-$("$here/find-rustc")}

compile() {
    "$RUSTC" --edition 2024 -C "opt-level=$level" ${ADAPTED:+--cfg adapted} --check-cfg 'cfg(test, adapted)' "$@"
}

rm -rf "$out"
mkdir -p "$out/src"
cp -R "$text/." "$here/rebuilt/." "$out/src/"
# data/mod.rs imports a name for a macro's sake that the rebuilt macro does not need.
compile --crate-type rlib --crate-name tpm2_protocol -A unused_imports -o "$out/libtpm2_protocol.rlib" "$out/src/lib.rs"
for program; do
    compile --crate-name "$program" --extern "tpm2_protocol=$out/libtpm2_protocol.rlib" -o "$out/$program" "$here/$program.rs"
done
