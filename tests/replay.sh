#!/usr/bin/env bash
# Runs crates/replay, which the gate has proved and built, on files that are no records: it reads
# 1 MiB and no more. The last line is 'N passed, M failed'.
set -euo pipefail
. "$(dirname "$0")/../scripts/library.sh"
replay=crates/replay/out/replay
[ -x "$replay" ] || { echo "There is no $replay: the gate (.ci/run) makes it." >&2; exit 1; }
passed=0 failed=0

# told WHAT FIRST-LINE: what replay says of standard input begins so, and it ends well.
told() {
    local said
    if said=$(ulimit -v 100000 && timeout 20 "$replay" 2>&1) && [ "${said%%$'\n'*}" = "$2" ]; then
        passed=$((passed + 1))
    else
        failed=$((failed + 1))
        printf '%s: %s\n' "$1" "${said%%$'\n'*}"
    fi
}

# word NUMBER: its eight bytes, the lowest first.
word() {
    local i
    for ((i = 0; i < 64; i += 8)); do printf "\\x$(printf %02x $(($1 >> i & 255)))"; done
}

# A file of 1 MiB, 131,072 words: its mark, and one case, a conversion that is damaged.
whole() {
    printf QRHCASE1
    word 1
    word 131069
    word 1
    head -c $((131068 * 8)) /dev/zero
}

damaged="this is no whole file of recorded cases"
told "a file of 1 MiB" "recorded cases: 1" < <(whole)
told "1 MiB and a byte more" "recorded cases: 1" < <(whole; printf x)
told "a word less" "$damaged" < <(whole | head -c $((131071 * 8)))
told "a longer whole file" "$damaged" < <(printf QRHCASE1; word 1; word 131070; word 1
    head -c $((131069 * 8)) /dev/zero)
told "a file without an end" "$damaged" < /dev/zero
echo "$passed passed, $failed failed"
exit $((failed != 0))
