# shellcheck shell=bash
# For the scripts beside this one to read. `copy_crates NAME..` copies these crates of the repository and those below them into the folder
# `work`, with what earlier checks left in their folders out/, so that they need not be proved again, and lists them in its crates.txt.
copy_crates() {
    local crate line below
    # shellcheck disable=SC2154
    cp "$top/HANDLES" "$work/"
    for crate in "$@"; do
        if [ ! -d "$top/crates/$crate" ] || [ -d "$work/crates/$crate" ]; then
            continue
        fi
        line=$(grep -E "^$crate( [a-z_]+=[A-Za-z0-9+]+)*:" "$top/crates.txt")
        below=${line#*:}
        mkdir -p "$work/crates/$crate"
        cp -r "$top/crates/$crate"/{src,specs,proofs,out} "$work/crates/$crate/" 2>/dev/null || true
        echo "$line" >>"$work/crates.txt"
        # shellcheck disable=SC2086
        copy_crates $below
    done
}
