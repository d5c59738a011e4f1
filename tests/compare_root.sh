#!/usr/bin/env bash
# Compares the proved square root with the machine's own on random and boundary inputs.
set -euo pipefail
. "$(dirname "$0")/../scripts/library.sh"
need "the comparison is a C program" cc
library
c_program compare_root tests/compare_root.c
target/compare_root
