#!/usr/bin/env bash
# The first example of README.md is examples/first.c to the letter, it compiles without a warning,
# and it answers what the README says; and the README has the line that links it. The last line is
# 'N passed, M failed'.
set -euo pipefail
. "$(dirname "$0")/../scripts/library.sh"
need "the example is a C program" cc
library
passed=0 failed=0

# holds WHAT COMMAND..: counts whether the command succeeds.
holds() {
    local what=$1
    shift
    if "$@"; then passed=$((passed + 1)); else failed=$((failed + 1)) && echo "WRONG: $what"; fi
}

quoted=$(awk '/^```c$/ { inside = 1; next } /^```$/ { exit } inside' README.md)
holds "the example is examples/first.c" test "$quoted" = "$(< examples/first.c)"
holds "it compiles" c_program first examples/first.c -Wpedantic -Werror
says() { grep -qxF "    $1" README.md; }
holds "the line that links it" \
    says "cc -Iinclude examples/first.c target/staticlib/lib$core.a -o first && ./first"
holds "what it answers" says "$(target/first)"
echo "$passed passed, $failed failed"
exit $((failed != 0))
