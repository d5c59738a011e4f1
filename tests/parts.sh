# Sourced by .ci/run and tests/clients.sh: runs tests part by part, and counts what passed and what
# failed. Of a part only the heading, the lines that begin with 'rt:' or 'skipped:' and the counts
# are shown; of one that fails, everything. What a part says is indented, so that no other runner's
# closing line can be taken for the last line, 'N passed, M failed'.
passed=0 failed=0
log=$(mktemp)
trap 'rm -f "$log"' EXIT

# part HEADING COMMAND..: the counts are those of the command's last line, 'N passed, M failed', or
# else its exit status. A command that fails without a failure, or that counts nothing, has failed.
part() {
    local heading=$1 status=0 good=0 bad=0 began=$SECONDS
    shift
    echo "$heading"
    "$@" 2>&1 | tee "$log" | sed -un 's/^\(rt:\|skipped:\)/    &/p' || status=1
    if [[ $(tail -n 1 "$log") =~ ^([0-9]+)\ passed,\ ([0-9]+)\ failed$ ]]; then
        good=${BASH_REMATCH[1]} bad=${BASH_REMATCH[2]}
    elif [ "$status" -eq 0 ]; then
        good=1
    fi
    if [ "$bad" -eq 0 ] && [ $((status != 0 || good == 0)) -eq 1 ]; then bad=1; fi
    passed=$((passed + good)) failed=$((failed + bad))
    if [ "$bad" -ne 0 ]; then sed 's/^/    | /' "$log"; fi
    echo "    $good of $((good + bad)) held, in $((SECONDS - began)) s"
}

# total: the last line, and the end of the run.
total() {
    echo "$passed passed, $failed failed"
    exit $((failed != 0))
}

# ---- the edge and the clients, over the library in the folder QRH_LIB_DIR

# rust_client WORDS..: its tests, those of its documentation, and that of the declarations that it
# stands on. An ignored one has not passed.
rust_client() {
    cargo test --no-fail-fast --locked --offline --package qrh-sys --package qrh "$@" 2>&1 | awk '
        { print }
        /^test .* \.\.\. ignored/ { skipped = skipped "skipped: " $0 "\n" }
        /^test result: / { passed += $4; failed += $6 }
        END { printf "%s%d passed, %d failed\n", skipped, passed, failed }'
}

# python_client PYTHON..: its tests and that of its documentation. A skipped one has not passed.
python_client() {
    clients/python/build.sh || return
    QRH_SHARED=$PWD/target/python/libqrh.so "$@" clients/python/test_qrh.py --verbose 2>&1 | awk '
        { print }
        / \.\.\. ok$/ { passed++ }
        / \.\.\. skipped / { left++; skipped = skipped "skipped: " $0 "\n" }
        /^Ran [0-9]+ tests? in / { ran = $2 }
        END { printf "%s%d passed, %d failed\n", skipped, passed, ran - passed - left }'
}

clients() {
    part "The edge from C (tests/edge.c)" tests/edge.sh
    part "The example of the README (tests/readme.sh)" tests/readme.sh
    part "Errors beside the spread over seeds (tests/spread.sh)" tests/spread.sh
    part "The Rust client (cargo test)" rust_client
    part "The Python client (unittest)" python_client python3
}
