# shellcheck shell=bash
# For the scripts beside this one to read. `make_plain NAME..` makes in the folder `work` the plain Rust that a script compares with: the
# library reference/ and the programs NAME.rs beside this script over it, each under its name (rustc -O).
make_plain() {
    local name
    # shellcheck disable=SC2154
    rustc --edition 2021 -O --crate-type rlib --crate-name reference -o "$work/libreference.rlib" "$top/reference/src/lib.rs"
    for name in "$@"; do
        rustc --edition 2021 -O --extern reference="$work/libreference.rlib" -o "$work/$name" "$top/bench/$name.rs"
    done
}
