#!/usr/bin/env bash
# Compares the oracle's stand-in for Decimal with rust_decimal, as Debian has it:
# apt-get install librust-rust-decimal-dev. REGISTRY is the folder of its sources.
set -euo pipefail
cd "$(dirname "$0")"
registry=${REGISTRY:-/usr/share/cargo/registry}
exec cargo run --release --offline \
    --config 'source.crates-io.replace-with="system"' \
    --config "source.system.directory=\"$registry\""
