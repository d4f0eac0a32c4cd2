# Sourced by the scripts: builds what they run, always, so that nothing stale is run. Each function says on standard error what it
# does and ends the script where a build fails, with what the build said. The scripts have `set -euo pipefail`.

# quietly WHAT COMMAND...: runs the command; what it writes is shown only where it fails.
quietly() {
    local what=$1 said status=0
    shift
    echo "building $what" >&2
    said=$("$@" 2>&1) || status=$?
    if [ "$status" -ne 0 ]; then
        printf '%s\n' "$said" >&2
        echo "$what is not built: '$*' ended with status $status" >&2
        exit "$status"
    fi
}

# put_built FILE PLACE SUM: a copy of the file there, unless what is there has the same bytes, which then keeps its date; and beside it
# the sum of the sources that it is built of, and its own.
put_built() {
    mkdir -p "$(dirname "$2")"
    cmp -s "$1" "$2" || install -m "$([ -x "$1" ] && echo 755 || echo 644)" "$1" "$2"
    [ "$(sum_of_sources)" != "$3" ] || echo "$3 $(sha256sum <"$2")" >"$2.of"
}

# build_program NAME..: proves and builds programs of crates/, to target/bin/NAME. Crates that have not changed are not proved again;
# the others are named as they are proved, which takes minutes for all of them.
build_program() {
    tools/prove "$@" || exit $?
}

# kit_home: the kit's folder, with its compiler and its linker.
kit_home() {
    (cd "$(dirname "$(readlink -f "$(command -v rt)")")/.." && pwd -P)
}

# kit_words: what the kit passes to its clang for every machine, as it hands it a module: steps of the compiler that it leaves out.
kit_words=(-mllvm -trap-unreachable -mllvm -disable-machine-licm -mllvm -disable-postra-machine-licm -mllvm -sink-common-insts=false)

# sum_of_sources: a sum of the kit's name and of all that a proof reads here.
sum_of_sources() {
    local folder folders=()
    for folder in crates/*/src crates/*/specs crates/*/proofs; do [ ! -d "$folder" ] || folders+=("$folder"); done
    {
        rt version
        cat crates.txt
        find "${folders[@]}" -type f -print0 | LC_ALL=C sort -z | xargs -0 sha256sum
    } | sha256sum | cut -d' ' -f1
}

# proved_by_ci SUM: whether `rt ci` has passed here over just the sources of this sum, and no other command has built a library since:
# what stands in crates/*/out is then what rt ci proved and built. (The other commands write a stamp beside each library, and rt ci does
# not.)
proved_by_ci() {
    [ -s target/by-ci ] && ! compgen -G 'crates/*/out/rlib/stamp' >/dev/null && [ "$(cat target/by-ci)" = "$1" ]
}

# made_of FILE: what a file was made of, the archive of the C functions, and its own bytes.
made_of() {
    sha256sum target/staticlib/libc_calls.a "$1" | cut -d' ' -f1
}

# build_library: the C functions as an archive, target/staticlib/libc_calls.a.
build_library() {
    tools/prove c_calls_c || exit $?
}

# build_module: the same for WebAssembly, target/wasm/zamiachisel.wasm, unless the one that is there was made of this very archive.
build_module() {
    local file=target/wasm/zamiachisel.wasm
    build_library
    if [ ! -e "$file.of" ] || [ "$(made_of "$file" 2>/dev/null)" != "$(cat "$file.of")" ]; then
        quietly "the module for WebAssembly" tools/wasm
        made_of "$file" >"$file.of"
    fi
}

# build_reference: the second implementation, to reference/target/release/reference.
build_reference() {
    quietly "the reference" cargo build --release --quiet --manifest-path reference/Cargo.toml
}

# build_bench: the C functions as a library, and the program that calls them, to bench/target/release/bench.
build_bench() {
    build_library
    quietly "the bench" cargo build --release --quiet --manifest-path bench/Cargo.toml
}
