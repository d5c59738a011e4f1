#!/usr/bin/env bash
# Proves and builds the core, and runs the tests of the C edge, the Rust client and the Python
# client over it. With `--memory` they run under valgrind, or the C tests under AddressSanitizer
# where there is no valgrind. The last line is 'N passed, M failed'.
set -euo pipefail
. "$(dirname "$0")/../scripts/library.sh"
. tests/parts.sh
need "the core is called from C, C++, Rust and Python" cc c++ cargo python3
library
if [ "${1:-}" != --memory ]; then
    clients
    total
fi

if ! command -v valgrind > /dev/null; then
    c_program edge tests/edge.c -g -O1 -fsanitize=address,undefined
    c_program price examples/price.c -g -O1 -fsanitize=address,undefined
    part "The edge from C, under AddressSanitizer" target/edge
    part "The sample, under AddressSanitizer" target/price 16
    total
fi
grind=(valgrind --quiet --error-exitcode=99)
c_program edge tests/edge.c -g -O1
c_program price examples/price.c -g -O1
part "The edge from C, under valgrind" "${grind[@]}" --leak-check=full target/edge
part "The sample, under valgrind" "${grind[@]}" --leak-check=full target/price 16
export CARGO_TARGET_X86_64_UNKNOWN_LINUX_GNU_RUNNER="${grind[*]}"
part "The Rust client, under valgrind" rust_client --lib --tests
# The interpreter, and not a script that only finds it. It makes valgrind see undefined values of
# its own, so reads and writes out of place are what is looked for here.
python=$(python3 -c 'import sys; print(sys.executable)')
export PYTHONMALLOC=malloc
part "The Python client, under valgrind" \
    python_client "${grind[@]}" --undef-value-errors=no "$python"
total
