#!/usr/bin/env bash
# Proves the core, and writes the library to target/staticlib.
set -euo pipefail
. "$(dirname "$0")/library.sh"
need "it proves and builds the core" rt
same_toolchain || true
build
