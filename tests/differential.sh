#!/usr/bin/env bash
# Compares the core with the oracle, case by case, in one process: tests/differential.sh
# [--seconds N] [--calls convert,sqrt] [--seed S] (oracle/README.md).
set -euo pipefail
. "$(dirname "$0")/../scripts/library.sh"
need "the core is compared with Rust" cargo
library
cargo run --quiet --profile judge --locked --offline --package differential -- "$@"
