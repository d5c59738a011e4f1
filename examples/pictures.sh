#!/usr/bin/env bash
# Proves and builds the core, and draws examples/paths.svg and examples/convergence.svg with it.
set -euo pipefail
. "$(dirname "$0")/../scripts/library.sh"
need "the pictures are drawn by a C program" cc
library
c_program pictures examples/pictures.c
target/pictures examples/paths.svg examples/convergence.svg
