# Sourced by the scripts here, in this folder: finds what a program needs, builds it and runs it. Its
# programs are for x86-64, as the archive and the toolchain are. On another processor they are built
# for it all the same, over an archive that was made on x86-64, and run under the emulator of Debian's
# qemu-user; a program of `no_main` with a C `main`, linked statically, runs there, and Rust's own
# start-up code does not. So they have this shape on every machine.

lacks() {
    echo "$1"
    exit 2
}

# Sets `c`, the compiler and linker for x86-64, and `emulator`, empty where none is needed.
find_c() {
    local packages='gcc and libc6-dev'
    c=gcc
    if [ "$(uname -m)" != x86_64 ]; then
        c=x86_64-linux-gnu-gcc
        packages='gcc-x86-64-linux-gnu and libc6-dev:amd64 (after dpkg --add-architecture amd64)'
    fi
    command -v "$c" >/dev/null || lacks "there is no C compiler and linker for x86-64: install $packages"
    # A library that is not found is answered with its bare name.
    [ -e "$("$c" -print-file-name=libc.a)" ] || lacks "there is no C library for x86-64: install $packages"
    emulator=
    [ "$(uname -m)" != x86_64 ] || return 0
    emulator=$(command -v qemu-x86_64) || lacks "qemu-x86_64, which runs programs for x86-64, is not on the PATH: install qemu-user"
    # The C library copies by `rep movsb` where the processor is said to do that fast; the emulator does not.
    export QEMU_CPU=max,-erms,-fsrm
}

# Sets `rust`, the compiler's words, and `emulator`. Debian's compiler is also asked: another one that stands before it on the
# PATH may have no library for x86-64.
find_rust() {
    local compiler target=x86_64-unknown-linux-gnu
    for compiler in rustc /usr/bin/rustc; do
        rust=("$compiler" --edition 2021 -C opt-level=3 -C target-feature=+crt-static --cap-lints allow)
        [ ! -d "$("$compiler" --print sysroot 2>/dev/null)/lib/rustlib/$target/lib" ] || break
    done
    command -v "$compiler" >/dev/null || lacks "rustc is not on the PATH"
    emulator=
    [ "$(uname -m)" != x86_64 ] || return 0
    [ -d "$("$compiler" --print sysroot)/lib/rustlib/$target/lib" ] || lacks "rustc has no standard library for x86-64: install rustc-web and libstd-rust-web-dev:amd64 (after dpkg --add-architecture amd64)"
    find_c
    rust+=(--target "$target" -C linker="$c")
}

# A path that was given is meant from where the script was called.
given() { case $1 in /*) echo "$1" ;; *) echo "$OLDPWD/$1" ;; esac; }

# Sets `archive`, the folder of libharness.a.
find_archive() {
    archive=../target/staticlib
    [ -z "${HARNESS_LIB:-}" ] || archive=$(given "$HARNESS_LIB")
    [ -f "$archive/libharness.a" ] || lacks "$archive/libharness.a is not there: make it with host/archive, or give its folder in HARNESS_LIB"
    archive=$(cd "$archive" && pwd)
}

# Sets `original`, the original's cpu.rs.
find_original() {
    original=../../shared/docs/src
    [ -z "${ORIGINAL:-}" ] || original=$(given "$ORIGINAL")
    [ -f "$original/cpu.rs" ] || lacks "the original's cpu.rs is not in $original: give its folder in ORIGINAL"
    original=$(readlink -f "$original/cpu.rs")
}

# build PROGRAM FOLDER: compiles the wrapper and a program of src/bin over it to FOLDER/PROGRAM, over the archive
# and the original where they were found. The archive goes into the wrapper's library: a linker that reads its
# files in order finds it there.
build() {
    mkdir -p "$2"
    "${rust[@]}" --crate-type rlib --crate-name host src/lib.rs ${archive:+-L native="$archive" -l static=harness} -o "$2/libhost.rlib"
    if [ -n "${original:-}" ]; then
        printf '#[path = "%s"]\nmod cpu;\n' "$original" >"$2/original.rs"
        set -- "$@" --cfg original
    fi
    OUT_DIR=$(cd "$2" && pwd) "${rust[@]}" --crate-name "$1" "src/bin/$1.rs" --extern host="$2/libhost.rlib" "${@:3}" -o "$2/$1"
}

# build_c PROGRAM FOLDER [PART..]: compiles srecords/PROGRAM.c, and the parts beside it, over the archive to FOLDER/PROGRAM.
build_c() {
    mkdir -p "$2"
    "$c" -O2 -Wall -Wextra -static "srecords/$1.c" "${@:3}" "$archive/libharness.a" -o "$2/$1"
}
