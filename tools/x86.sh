# SPDX-License-Identifier: MIT OR Apache-2.0
# What the scripts share, read by `. tools/x86.sh` from the project's root: how x86-64 programs are built and run here.
# Variables say otherwise than what is found:
#   GJ_LIBRARY     the file of a library that stands already; then nothing is proved
#   CC_X86_64      a C compiler for x86-64, in place of gcc or Debian's cross compiler
#   RUSTC_X86_64   a rustc that has Rust's library for x86-64
#   EMULATOR       what runs x86-64 programs on another processor
# A script that lacks something says so in one sentence and ends with 3; wrong words end with 2; what fails, with 1.
#
# The Rattle kit, for x86-64 alone, is enough for C: it brings clang, a linker and a C library. More, from Debian 12 on:
#   Arm:     dpkg --add-architecture amd64 && apt-get update
#            apt-get install --install-recommends gcc-x86-64-linux-gnu rustc cargo libstd-rust-dev:amd64 pkgconf
#   x86-64:  apt-get install gcc libc6-dev rustc cargo pkgconf
# By rustup, in place of Debian's rustc: rustup target add x86_64-unknown-linux-gnu
target=x86_64-unknown-linux-gnu
machine=$(uname -m)

lacks() { echo "$*" >&2; exit 3; }
wrong() { echo "$*" >&2; exit 2; }
takes_no_words() { [ "$1" -eq 0 ] || wrong "$0 takes no words"; }

# The kit's compilers and C library, beside the command rt; empty where there is no kit.
find_kit() {
    kit="" kit_wanted="the command rt is not on the path: the Rattle kit brings it (or GJ_LIBRARY names a library that stands already)"
    rt=$(command -v rt) || return 0
    kit=${RATTLE_HOME:-$(dirname "$(dirname "$(readlink -f "$rt")")")}/toolchain
    [ -x "$kit/bin/clang" ] && return
    kit_wanted="the kit of $rt has no compiler at $kit/bin (RATTLE_HOME says where the kit is)"
    kit=
}

find_emulator() {
    if [ "$machine" = x86_64 ]; then emulator=${EMULATOR-}; return; fi
    emulator=${EMULATOR-qemu-x86_64}
    command -v "${emulator:-none}" >/dev/null && return
    lacks "nothing here runs x86-64 programs: no command '$emulator' (Debian: qemu-user; EMULATOR names another)"
}

makes_programs() {
    mkdir -p target
    printf '#include <math.h>\nint main(void) { return 0; }\n' >target/trial.c
    "$cross" $static target/trial.c -o target/trial 2>/dev/null
}

# A compiler from outside the kit, and whether it finds the C library that it links against: Debian only recommends that.
find_cross() {
    usual=x86_64-linux-gnu-gcc static=-static c_packages='Debian: gcc-x86-64-linux-gnu with libc6-dev-amd64-cross'
    if [ "$machine" = x86_64 ]; then usual=gcc static="" c_packages='Debian: gcc and libc6-dev'; fi
    cross=${CC_X86_64:-$usual}
    if command -v "$cross" >/dev/null && makes_programs; then find_math; return; fi
    [ -z "${CC_X86_64:-}" ] || lacks "CC_X86_64=\"$CC_X86_64\" names no C compiler that makes programs for x86-64"
    cross=
}

# Debian's libm.a for a cross compiler names a file at a native one's place; that file stands beside it.
find_math() {
    math=-lm
    [ -n "$static" ] || return 0
    for beside in "$(dirname "$("$cross" -print-file-name=libm.a)")"/libm-*.a; do [ ! -e "$beside" ] || math=$beside; done
}

# Which of the two compiles from now on: cross or kit. Programs for an emulator are linked whole, or over the kit's own C library: the
# machine's may not be where an emulator looks.
use() {
    with=$1
    if [ "$with" = cross ] && [ "$machine" != x86_64 ]; then static=-static; else static=; fi
}

run() { ${emulator:+"$emulator"} "$@"; }

where() { if [ -n "$emulator" ]; then echo "under an emulator, on $machine"; else echo "on this machine's own processor"; fi; }

# C with each operation rounded once: to a program, or with -c to an object.
compile() {
    set -- -std=c11 -O2 -Wall -Wextra -ffp-contract=off -fno-math-errno -I"${include:-include}" -DGJ_DENSE="${dense:-1}" "$@"
    linked=1
    case " $* " in *' -c '*) linked= ;; esac
    if [ "$with" = cross ]; then "$cross" "$@" ${linked:+"$math"}; return; fi
    # The kit's C library has no headers; examples/c/bare has the few that are needed.
    set -- --target=$target -nostdinc -isystem examples/c/bare -fPIE "$@"
    if [ -z "$linked" ]; then "$kit/bin/clang" "$@"; return; fi
    "$kit/bin/clang" --ld-path="$kit/bin/ld.lld" -nostdlib -pie -Wl,--dynamic-linker="$kit/lib/ld-linux-x86-64.so.2",-rpath,"$kit/lib" \
        "$kit/lib/Scrt1.o" "$kit/lib/crti.o" "$kit/lib/crtbeginS.o" "$@" "$kit/lib/libm.so.6" "$kit/lib/libc.so.6" \
        "$kit/lib/libc_nonshared.a" "$kit/lib/libgcc_s.so.1" "$kit/lib/libgcc.a" "$kit/lib/crtendS.o" "$kit/lib/crtn.o"
}

# C and Rust static libraries into one program.
link_rust() { if [ "$with" = cross ]; then compile $static "$@" -lpthread -ldl; else compile "$@"; fi; }

compile_rust() {
    if [ "${dense:-1}" = 1 ]; then set -- --cfg 'feature="dense"' "$@"; fi
    "$rust" --target $target --edition 2021 -C opt-level=3 "$@"
}

# A static library with what it uses of Rust's own and nothing else of it.
compile_rust_whole() { compile_rust --crate-type staticlib -C lto=fat "$@"; }

# A rustc with Rust's library for x86-64: $rust; empty where there is none.
find_rust() {
    for rust in ${RUSTC_X86_64:-rustc /usr/bin/rustc}; do
        libraries=$("$rust" --print target-libdir --target $target 2>/dev/null) || continue
        for std in "$libraries"/libstd-*.rlib; do [ ! -e "$std" ] || return 0; done
    done
    rust=
    return 1
}
rust_packages="Debian: rustc and cargo"
[ "$machine" = x86_64 ] || rust_packages="Debian: rustc, cargo and libstd-rust-dev:amd64; rustup: rustup target add $target"
rust_wanted="no rustc here has Rust's library for x86-64 ($rust_packages)"
need_rust() { find_rust || lacks "$rust_wanted"; }
need_cargo() { command -v cargo >/dev/null || lacks "no cargo on the path, which builds the Rust of this project (Debian: cargo)"; }

find_kit
[ -n "$kit" ] || [ -n "${GJ_LIBRARY:-}" ] || lacks "$kit_wanted"
find_emulator
find_cross
if [ -n "$cross" ]; then use cross
elif [ -n "$kit" ]; then use kit
else lacks "no C compiler makes x86-64 programs here: $usual or its C library is missing ($c_packages), and so is the kit's, since $kit_wanted"
fi
. tools/library.sh
