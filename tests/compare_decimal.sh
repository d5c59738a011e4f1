#!/usr/bin/env bash
# Compares the proved conversion with the C library's strtod, on Decimals of every scale and size.
set -euo pipefail
. "$(dirname "$0")/../scripts/library.sh"
need "the comparison is a C program" cc
library
c_program compare_decimal tests/compare_decimal.c
target/compare_decimal
