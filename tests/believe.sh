#!/usr/bin/env bash
# What a reader has to believe: the definitions of specs/ that the exported contracts reach. Fails
# where one stands elsewhere than it should, or where README.md has another number of lines. With
# `--list` it only reports, definition by definition.
set -euo pipefail
. "$(dirname "$0")/../scripts/library.sh"
need "the definitions are followed by it" python3
python3 tests/believe.py "$exports" "$@"
