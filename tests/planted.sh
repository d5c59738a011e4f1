#!/usr/bin/env bash
# Shows that tests/differential.sh finds what it should: each fault of oracle/faults.txt is planted
# in a copy of the oracle, and the comparison with the core must differ in each call that it names.
# The core is the library in the folder QRH_LIB_DIR; where that is not given, the oracle without a
# fault. tests/planted.sh NAME plants the faults whose name contains NAME.
set -euo pipefail
. "$(dirname "$0")/../scripts/library.sh"
need "the oracle is Rust" cargo
work=$(mktemp -d)
trap 'rm -rf "$work"' EXIT
if [ -z "$library_given" ]; then
    oracle/fake/build.sh "$work/fake"
    library_given=$work/fake
fi
library
export CARGO_TARGET_DIR=$work/target
# A fault may leave a name unused.
export RUSTFLAGS=-Awarnings

copy=$work/copy
mkdir "$copy"
tar cf - --exclude=target Cargo.toml Cargo.lock bench clients oracle | tar xf - -C "$copy"

planted=0 missed=0
plant() {
    local name=$1 calls=$2 file=$3 from=$4 to=$5 text whole call
    text=$(<"oracle/$file")
    whole=${text/"$from"/"$to"}
    if [ "$whole" = "$text" ] || [ "${whole/"$from"/}" != "$whole" ] && [[ $to != *"$from"* ]]; then
        echo "$name: its text does not stand once in $file"
        exit 2
    fi
    printf '%s\n' "$whole" > "$copy/oracle/$file"
    # Not by the profile `judge`: a fault would break what the oracle asserts before the comparison.
    cargo build --quiet --release --locked --offline --manifest-path "$copy/Cargo.toml" \
        --package differential
    local compare=$work/target/release/differential
    for call in ${calls//,/ }; do
        planted=$((planted + 1))
        found=$("$compare" --calls "$call" --seconds 30 --first yes) || true
        if first=$(grep '^first difference' <<<"$found"); then
            echo "$name: found by $call: $(cut -c1-160 <<<"$first")"
        else
            missed=$((missed + 1))
            echo "$name: NOT FOUND by $call: $found"
        fi
    done
    cp "oracle/$file" "$copy/oracle/$file"
}

block=()
while IFS= read -r line || [ -n "$line" ]; do
    case $line in
    '#'*) ;;
    '')
        if [ ${#block[@]} -eq 5 ] && [[ ${block[0]} == *"${1:-}"* ]]; then plant "${block[@]}"; fi
        block=()
        ;;
    *) block+=("$line") ;;
    esac
done < <(cat oracle/faults.txt && echo)
echo "$planted planted, $missed not found"
[ "$missed" -eq 0 ] && [ "$planted" -gt 0 ]
