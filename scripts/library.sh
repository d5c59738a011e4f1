# Sourced by the scripts, which it takes to the repository's root. It has what they share: the name
# of the library, the tools that they need, and the toolchain that the proofs are written for.

# The library's name, lib$core.a, and the crate that exports its calls. clients/qrh-sys/build.rs has
# the name once more, for cargo.
core=qrh
exports=qrh_c

library_given=${QRH_LIB_DIR:+$(realpath "$QRH_LIB_DIR")}
cd "$(dirname "${BASH_SOURCE[0]}")/.."

# need WHY TOOL..: fails, with one sentence, where a tool is missing.
need() {
    local why=$1 tool
    shift
    for tool in "$@"; do
        command -v "$tool" > /dev/null && continue
        echo "The tool $tool is missing: $why (README.md, \"You need\")." >&2
        return 1
    done
}

# same_toolchain: fails, with one sentence, where rt is not the one that the file toolchain names.
same_toolchain() {
    local pinned ours
    pinned=$(< toolchain)
    ours=$(rt version)
    [ "$ours" = "$pinned" ] && return
    echo "The toolchain is '$ours', and the proofs are written for '$pinned' (file toolchain)." >&2
    return 1
}

# build: proves the core, and writes the library to target/staticlib. A library that has not changed
# is not written again.
build() {
    local made=crates/$exports/out/lib$exports.a written=target/staticlib/lib$core.a
    (cd "crates/$exports" && rt lib) || return
    mkdir -p target/staticlib
    cmp --quiet "$made" "$written" || cp "$made" "$written"
}

# library: sets QRH_LIB_DIR, the folder of the library, and LIBRARY, its file. Where QRH_LIB_DIR is
# not given, the core is proved and the library built, unless nothing has changed.
library() {
    QRH_LIB_DIR=$library_given
    if [ -z "$QRH_LIB_DIR" ]; then
        need "it proves and builds the core" rt || return
        same_toolchain || true
        mkdir -p target
        echo "Proving and building the core: some minutes the first time." >&2
        if ! build > target/staticlib.out 2>&1; then
            cat target/staticlib.out >&2
            return 1
        fi
        QRH_LIB_DIR=$PWD/target/staticlib
    fi
    export QRH_LIB_DIR
    LIBRARY=$QRH_LIB_DIR/lib$core.a
    [ -f "$LIBRARY" ] && return
    echo "There is no $LIBRARY: QRH_LIB_DIR names a folder without the library." >&2
    return 1
}

# c_program NAME SOURCE WORDS..: compiles target/NAME from a C file, with the library linked.
c_program() {
    local name=$1
    shift
    mkdir -p target
    cc -std=c11 -O2 -Wall -Wextra -Iinclude "$@" "$LIBRARY" -lm -o "target/$name"
}
