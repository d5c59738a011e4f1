#!/usr/bin/env bash
# Proves and builds the core, times every call beside the Rust that it ports, and writes the table
# of docs/PERFORMANCE.md: bench/run.sh [--dry] [--only TEXT]. It takes about a minute; the machine
# should be idle. `--dry` writes nothing; nor does `--only`, which times the rows whose name has the
# text in it (`--only batch`).
set -euo pipefail
. "$(dirname "$0")/../scripts/library.sh"
need "the core is timed beside Rust" cargo
library
cargo run --quiet --release --locked --offline --package bench -- "$@"
