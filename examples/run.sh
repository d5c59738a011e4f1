#!/usr/bin/env bash
# Proves and builds the core, links the sample to it, and prices: examples/run.sh [PATHS [SEED]]
set -euo pipefail
. "$(dirname "$0")/../scripts/library.sh"
need "the sample is a C program" cc
library
c_program price examples/price.c
target/price "$@"
