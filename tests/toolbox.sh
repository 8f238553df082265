# Functions that the tests share: Debian's tools where they are missing, compilers for x86-64 and Arm, and the proved library in the
# forms that are tested. To be sourced, under set -eu, in the repository's folder.

# need COMMAND PACKAGE..: installs the packages where there is no such command.
need() { command -v "$1" > /dev/null || { apt-get update -qq && apt-get install -y -qq "${@:2}" > /dev/null; }; }

# debian_name MACHINE: Debian's name of that machine.
debian_name() { if [ "$1" = aarch64 ]; then echo arm64; else echo amd64; fi; }

# foreign_package MACHINE PACKAGE FOLDER: unpacks Debian's package for another machine into FOLDER; the system stays as it is.
foreign_package() {
    local apt
    apt=(apt-get -qq -o "APT::Architecture=$(debian_name "$1")" -o "APT::Architectures=$(debian_name "$1")"
        -o "Dir::State::Lists=$3/lists" -o "Dir::Cache=$3/cache" -o APT::Sandbox::User=root)
    mkdir -p "$3/lists/partial" "$3/cache/archives/partial"
    (cd "$3" && "${apt[@]}" update && "${apt[@]}" download "$2" && dpkg -x "$2"_*.deb .)
}

# compilers_for MACHINE FOLDER: sets cc and rust, the words that compile for MACHINE, and run, those that run its programs. Where
# MACHINE is another one they are Debian's cross compilers and emulator, with Rust's standard library unpacked in FOLDER.
compilers_for() {
    cc=(gcc) rust=(rustc --edition 2021 -O) run=()
    need gcc gcc
    need rustc rustc
    [ "$1" != "$(uname -m)" ] || return 0
    need "$1-linux-gnu-gcc" "gcc-${1/_/-}-linux-gnu"
    need "qemu-$1" qemu-user
    need /usr/bin/rustc rustc
    foreign_package "$1" libstd-rust-dev "$2"
    cc=("$1-linux-gnu-gcc")
    rust=(/usr/bin/rustc --edition 2021 -O --target "$1-unknown-linux-gnu" -L "$2/usr/lib/rustlib/$1-unknown-linux-gnu/lib"
        -C "linker=$1-linux-gnu-gcc")
    run=("qemu-$1" -L "/usr/$1-linux-gnu")
}

# kit_tool NAME: the kit's own clang or llvm-ar, the ones that can read its modules.
kit_tool() { echo "$(kit_home)/toolchain/bin/$1"; }

# kit_home: the kit's folder.
kit_home() { dirname "$(dirname "$(readlink -f "$(command -v rt)")")"; }

# quietly LOG COMMAND..: runs the command, and shows its words where it fails.
quietly() { "${@:2}" > "$1" 2>&1 < /dev/null || { cat "$1"; return 1; }; }

# program NAME LOG: proves and builds the program crates/NAME, and leaves it at target/bin/NAME.
program() {
    mkdir -p target/bin
    (cd "crates/$1" && rm -f "out/$1" && quietly "$2" rt run) && cp "crates/$1/out/$1" "target/bin/$1"
}

# archive LOG [RT]: proves and builds the static library blocks_c, and leaves it at target/staticlib/libblocks.a.
archive() {
    mkdir -p target/staticlib
    (cd crates/blocks_c && rm -f out/libblocks_c.a && quietly "$1" "${2:-rt}" lib) \
        && cp crates/blocks_c/out/libblocks_c.a target/staticlib/libblocks.a
}

# proved_module FOLDER: writes FOLDER/blocks.ll, the LLVM module of the proved crate blocks_c that `rt lib` compiles, without the words
# that tie it to one machine. rt takes the compiler from the kit's folder, so it is given one that differs in this: its clang keeps what
# it is asked to compile. The archive that comes out must be the kit's own, byte for byte.
proved_module() {
    local home like=$1/kit part
    home=$(kit_home)
    mkdir -p "$like/bin" "$like/toolchain/bin"
    for part in "$home"/*; do case ${part##*/} in bin | toolchain) ;; *) ln -s "$part" "$like/" ;; esac; done
    for part in "$home/bin"/*; do case ${part##*/} in rt | rtlib.py) cp "$part" "$like/bin/" ;; *) ln -s "$part" "$like/bin/" ;; esac; done
    for part in "$home/toolchain"/*; do [ "${part##*/}" = bin ] || ln -s "$part" "$like/toolchain/"; done
    for part in "$home/toolchain/bin"/*; do [ "${part##*/}" = clang ] || ln -s "$part" "$like/toolchain/bin/"; done
    keeping_clang "$1/blocks.bc" > "$like/toolchain/bin/clang"
    chmod +x "$like/toolchain/bin/clang"
    archive "$1/log"
    cp target/staticlib/libblocks.a "$1/archive"
    archive "$1/log" "$like/bin/rt"
    cmp "$1/archive" target/staticlib/libblocks.a
    "$(kit_tool clang)" -S -emit-llvm -Xclang -disable-llvm-passes -x ir "$1/blocks.bc" -o - \
        | sed -e '/^target /d' -e 's/"target-cpu"="[^"]*"//' > "$1/blocks.ll"
}

# keeping_clang FILE: a script that copies the module it is given to FILE, and then is the kit's clang.
keeping_clang() {
    cat << END
#!/bin/sh
for word in "\$@"; do case \$word in *.bc) cp "\$word" "$1" ;; esac; done
exec "$(kit_tool clang)" "\$@"
END
}

# library_for MACHINE MODULE FOLDER: compiles the module for MACHINE and writes FOLDER/libblocks.a.
library_for() {
    mkdir -p "$3"
    "$(kit_tool clang)" "--target=$1-unknown-linux-gnu" -Werror -Wno-override-module -O3 -fPIC -c -x ir "$2" -o "$3/blocks.o"
    "$(kit_tool llvm-ar)" rcs "$3/libblocks.a" "$3/blocks.o"
}
