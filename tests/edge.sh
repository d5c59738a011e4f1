#!/usr/bin/env bash
# Proves and builds the core, compiles a C program against include/qrh.h, and runs it: its last line
# is 'N passed, M failed'. The header must be one for C++ too, and of all that the library may need
# from outside it needs memcpy and memset alone, which a program without a C library has to bring.
set -euo pipefail
. "$(dirname "$0")/../scripts/library.sh"
need "the core is called from C and C++" cc c++ nm
library
needed=$(nm --undefined-only "$LIBRARY" | awk '$1 == "U" { print $2 }' | sort -u | xargs)
if [ "$needed" != "memcpy memset" ]; then
    echo "From outside the library needs: $needed. It should be memcpy and memset." >&2
    exit 1
fi
c++ -std=c++11 -Wall -Wextra -Wpedantic -fsyntax-only -x c++ include/qrh.h
c_program edge tests/edge.c -Wpedantic
target/edge
