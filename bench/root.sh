#!/usr/bin/env bash
# Times the proved square root beside the machine's own. The machine should be otherwise idle.
set -euo pipefail
. "$(dirname "$0")/../scripts/library.sh"
need "the root is timed by a C program" cc
library
# One root at a time on both sides.
c_program root bench/root.c -fno-math-errno -fno-tree-vectorize
target/root
