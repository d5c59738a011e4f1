#!/usr/bin/env bash
# Proves and builds the core, and compares the standard errors that it reports with the spread of
# prices over 200 seeds. The last line is 'N passed, M failed'.
set -euo pipefail
. "$(dirname "$0")/../scripts/library.sh"
need "the batches are priced by a C program" cc
library
c_program spread tests/spread.c
target/spread
