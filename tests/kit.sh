# For the scripts of this repository: the kit's compiler and C library, how a crate is proved and built, and how a C program is run.
command -v rt >/dev/null || {
    echo "the Rattle kit is not found: put its folder bin, where rt is, on the path" >&2
    exit 2
}
tools=$(dirname "$(rt doc)")/toolchain

# Proves and builds a crate, as much of it as has changed: `build run NAME` a program, `build lib NAME` an archive. Where rt fails, the last lines that
# it said are told.
build() {
    local said failed=
    said=$(mktemp)
    (cd "crates/$2" && rt "$1") </dev/null >"$said" 2>&1 || failed=1
    if [ -n "$failed" ]; then
        tail -n 20 "$said" >&2
        echo "rt $1 failed in crates/$2" >&2
    fi
    rm -f "$said"
    [ -z "$failed" ] || exit 1
}

# Runs a program that was linked with the kit's C library, by the kit's loader.
run() {
    exec "$tools/lib/ld-linux-x86-64.so.2" --library-path "$tools/lib" "$@"
}
