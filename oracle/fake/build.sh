#!/usr/bin/env bash
# build.sh OUT: writes to the folder OUT a library of the core's name that has the oracle under the C
# names of the core. Every other name in it is made local, so that it shares no code with the oracle
# that it is linked with.
set -euo pipefail
mkdir -p "$1"
out=$(realpath "$1")
. "$(dirname "$0")/../../scripts/library.sh"
need "the oracle is built and bound under the core's names" cargo ld objcopy ar
cargo build --quiet --release --locked --offline --package fake
names=$(sed -n 's/.*extern "C" fn \(qrh_[a-z_]*\)(.*/\1/p' oracle/fake/src/lib.rs)
undefined=() kept=()
for name in $names; do
    undefined+=(-u "$name") kept+=(--keep-global-symbol "$name")
done
built=${CARGO_TARGET_DIR:-target}/release/libfake.a
ld -r --force-group-allocation "${undefined[@]}" -o "$out/fake.o" "$built"
# Without the bitcode that the standard library carries, which an older archiver cannot read.
objcopy --remove-section .llvmbc --remove-section .llvmcmd "${kept[@]}" "$out/fake.o"
rm -f "$out/lib$core.a"
ar rcs "$out/lib$core.a" "$out/fake.o"
rm "$out/fake.o"
