#!/usr/bin/env bash
# Makes target/python/libqrh.so, which qrh.py loads, from the static library. Its code is position
# independent; -z text makes the linker refuse it if it were not.
set -euo pipefail
. "$(dirname "$0")/../../scripts/library.sh"
need "the shared object is linked by it" cc
library
mkdir -p target/python
cc -shared -o target/python/libqrh.so -Wl,-z,text -Wl,-soname,libqrh.so \
    -Wl,--whole-archive "$LIBRARY" -Wl,--no-whole-archive
echo "target/python/libqrh.so"
