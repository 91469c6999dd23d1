# What test-ports and port-binaries share: compiling the portable crate for another machine, with Debian's compiler for Rust.
# They set `build` and `ports`, the folders with the portable crate and for what is compiled.
rustc=${RUSTC:-/usr/bin/rustc}

missing=0
need() {
    command -v "$1" >/dev/null 2>&1 && return
    echo "missing: $1 ($2)"
    missing=1
}

# Compiles a crate for a machine: the machine, the level of optimisation, and the words that are the crate's own.
compile() {
    local machine=$1 level=$2
    shift 2
    "$rustc" --sysroot "$ports" --edition 2021 --target "$machine" -C "opt-level=$level" -C panic=abort --cap-lints allow "$@"
}

# Library core for a machine, in a folder of our own: the compiler's, or compiled from its sources.
with_core() {
    local folder=$ports/lib/rustlib/$1/lib sysroot core
    [ -e "$folder/libcore.rlib" ] && return
    sysroot=$("$rustc" --print sysroot)
    core=$sysroot/lib/rustlib/src/rust/library/core/src/lib.rs
    mkdir -p "$folder"
    if compgen -G "$sysroot/lib/rustlib/$1/lib/libcore-*.rlib" >/dev/null; then
        ln -sf "$sysroot/lib/rustlib/$1/lib/"*.rlib "$folder/"
        return
    fi
    [ -e "$core" ] || { echo "missing: the sources of Rust's library core (Debian: rust-src)"; exit 2; }
    echo '#![feature(compiler_builtins)] #![compiler_builtins] #![no_std]' >"$ports/builtins.rs"
    RUSTC_BOOTSTRAP=1 compile "$1" 2 --crate-name core --crate-type rlib "$core" -o "$folder/libcore.rlib"
    RUSTC_BOOTSTRAP=1 compile "$1" 2 --crate-name compiler_builtins --crate-type rlib "$ports/builtins.rs" \
        -o "$folder/libcompiler_builtins.rlib"
}

# The portable crate as an archive for a machine.
archive() {
    with_core "$1"
    compile "$1" "$2" --crate-name delkuthi --crate-type staticlib -C lto -C codegen-units=1 -C overflow-checks=on \
        "$build/portable/src/lib.rs" -o "$ports/$1.a"
}
