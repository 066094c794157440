# What the harness's scripts share. It is sourced by them, with `script` set to the name that their messages carry.
set -euo pipefail
harness=$(cd "$(dirname "${BASH_SOURCE[0]}")" && pwd)
root=$(dirname "$harness")
archive=$root/crates/boundary_c/out/libboundary.a

fail() {
    echo "$script: $1" >&2
    exit 1
}

need() {
    local tool
    for tool in "$@"; do
        command -v "$tool" >/dev/null || fail "$tool is not on this machine"
    done
}

need_archive() {
    [ -f "$archive" ] || fail "no archive ${archive#"$root"/}; harness/archive makes it"
}

# All that is built goes to a temporary folder, which is removed at the end, so that nothing half-made stays behind and
# rt ci, which removes the out/ folders, may run beside.
make_build_folder() {
    build=$(mktemp -d "${TMPDIR:-/tmp}/persimmonjib.XXXXXX")
    trap 'rm -rf "$build"' EXIT
}

# make_oracle_sources [FOLDER]: the oracle's sources from the published Rust in FOLDER, or in the folder beside the repository
make_oracle_sources() {
    local folder=${1:-$(dirname "$root")/shared/docs/src}
    [ -d "$folder" ] || fail "no source folder $folder"
    python3 "$harness/oracle/make_oracle.py" --source "$folder" --out "$build/sources" >"$build/oracle.diff" || exit 1
    export ORACLE_SOURCES=$build/sources
}

# crate NAME LEVEL SOURCE ARGUMENT..: compiles a crate of the harness at an optimisation level
crate() {
    mkdir -p "$build/$2"
    rustc --edition 2021 --crate-name "$1" -C "opt-level=$2" -L "$build/$2" --out-dir "$build/$2" "${@:4}" "$harness/$3"
}

# port_program NAME SOURCE CRATE..: a program on the port's crate and on others, linked with the archive
port_program() {
    local folder=native=${archive%/*} externs=() other
    for other in "${@:3}"; do
        externs+=(--extern "$other")
    done
    crate port 3 port/lib.rs --crate-type rlib -L "$folder" -l static:-bundle=boundary
    crate "$1" 3 "$2" --extern port "${externs[@]}" -L "$folder"
}
