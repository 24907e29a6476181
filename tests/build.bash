# Builds the outside tests into target/tests. Sourced by `run` and `selftest`, at the repository's top.

built=target/tests
console=crates/console/out/libconsole.a
probe=crates/probe/out/libprobe.a
line_program=crates/intake_lines/out/intake_lines
# How to link the stand-in: a program finds the one beside it, or another by LD_LIBRARY_PATH.
over_standin=("-L$built/standin" -lstandin -Wl,--enable-new-dtags '-Wl,-rpath,$ORIGIN')
warnings=(-Wall -Wextra -Werror)
# Only the test program itself takes memory, and the check for leaks does not run everywhere.
export ASAN_OPTIONS=detect_leaks=0

compile() {
    rustc --edition 2021 -C opt-level=3 -D warnings "$@"
}

# The reference and the harness, which the Rust programs use.
build_common() {
    mkdir -p "$built" &&
        compile --crate-type rlib --crate-name reference tests/reference/lib.rs --out-dir "$built" &&
        compile --crate-type rlib --crate-name harness --extern reference -L "$built" tests/harness/lib.rs --out-dir "$built"
}

# build_standin SOURCES OUT [OPTION..]: the reference behind the C interface, as a shared library, and its line program. The
# shared library keeps its names to itself, so that a spoilt reference in it does not meet the right one of the comparer.
build_standin() {
    local sources=$1 out=$2
    shift 2
    mkdir -p "$out" &&
        compile "$@" --crate-type rlib --crate-name reference "$sources/reference/lib.rs" --out-dir "$out" &&
        compile "$@" --crate-type cdylib --crate-name standin --extern reference -L "$out" "$sources/standin/lib.rs" \
            --out-dir "$out" &&
        compile "$@" --crate-name intake_lines --extern reference -L "$out" "$sources/standin/intake_lines.rs" --out-dir "$out"
}

# build_program NAME OUT LINK-ARGUMENT..: one test program over the libraries that the arguments name. The compiler's checks
# in console_test see that program's own code: the libraries are not built with them.
build_program() {
    local name=$1 out=$2 words=() word
    shift 2
    for word in "$@"; do words+=(-C "link-arg=$word"); done
    mkdir -p "$out" && rm -f "$out/$name" || return
    case $name in
    compare)
        compile --crate-name compare --extern harness --extern reference -L "$built" "${words[@]}" tests/compare/main.rs \
            --out-dir "$out"
        ;;
    console_test)
        gcc -std=c11 -g -O1 -fsanitize=address,undefined -fno-sanitize-recover=all "${warnings[@]}" -Iinclude \
            tests/c/console_test.c "$@" -o "$out/$name"
        ;;
    console_plain)
        gcc -std=c11 -g -O1 '-DBY="tests/memcheck "' "${warnings[@]}" -Iinclude tests/c/console_test.c "$@" -o "$out/$name"
        ;;
    *)
        compile --extern harness -L "$built" "${words[@]}" "tests/programs/$name.rs" --out-dir "$out"
        ;;
    esac
}

# Everything that the proved libraries are built from, and what was built: one line.
fingerprint() {
    {
        rt version && find crates crates.txt -type f ! -path 'crates/*/out/*' -print0 | sort -z | xargs -0 sha256sum &&
            sha256sum "$console" "$probe" "$line_program"
    } 2>/dev/null | sha256sum
}

# in_crate NAME COMMAND..: rt works in a crate's folder, and leaves what it builds in out/ there.
in_crate() {
    (cd "crates/$1" && "${@:2}")
}

# build_own NAME: one of the repository's own programs; rt runs what it has built, with the crate's own input or with none.
build_own() {
    in_crate "$1" rt run </dev/null || return
    if [ ! -x "crates/$1/out/$1" ]; then
        echo "rt finds all proved, but crates/$1/out/$1 is gone: remove crates/$1/out and build anew"
        return 1
    fi
}

# build_libraries anew|kept: the proved libraries and the line program; `kept` leaves those that were built from the same
# sources by the same toolchain.
build_libraries() {
    local print
    mkdir -p "$built"
    if [ "$1" = kept ] && print=$(fingerprint) && [ "$print" = "$(cat "$built/libraries.print" 2>/dev/null)" ]; then
        return
    fi
    rm -f "$console" "$probe" "$built/libraries.print"
    in_crate console rt lib && in_crate probe rt lib && build_own intake_lines || return
    print=$(fingerprint) && echo "$print" >"$built/libraries.print"
}

# The programs of the two halls.
build_halls() {
    build_own counter && build_own standby
}
