# shellcheck shell=bash
# What the scripts of this repository share: installing what they need, finding the Rattle kit, compiling and running x86-64 programs,
# building the library. To be sourced by bash under `set -euo pipefail`: . "$(dirname "$0")/../scripts/toolchain.sh"
#
#   root, machine     the repository's folder; what `uname -m` says
#   fail WORDS..      says why the script cannot go on, and ends it with status 2
#   need TOOL..       commands, or rust_x86: those that are missing are installed from Debian
#   kit               prints the folder of the Rattle kit
#   kit_command PROGRAM
#                     prints the words that run a program that the kit has built, a line each
#   x86_gcc, x86_objdump, rust_x86, "${emulator[@]}"
#                     compilers for x86-64, its disassembler, and what goes ahead of a program for it: nothing on an x86-64 machine
#   build_library     the static libraries, $library and, for who wants a map or a packet's run, $map_library and $replay_library: proved and
#                     built anew where a crate has changed since
#   build_wrapper     the Rust crate of rust/ over all three
#   up_to_date        whether a file is newer than what it is made of
#   in_python         goes on in Python, which finds the tools' names in its environment

root=$(cd "$(dirname "${BASH_SOURCE[0]}")/.." && pwd -P)
machine=$(uname -m)
library=$root/target/staticlib/libndakoleem.a
map_library=$root/target/staticlib/libndakoleem_map.a
replay_library=$root/target/staticlib/libndakoleem_replay.a
libraries=("$library" "$map_library" "$replay_library")
rust_packages=(rustc-web gcc libc6-dev)
x86_gcc=gcc
x86_objdump=objdump
emulator=()
if [ "$machine" != x86_64 ]; then
    rust_packages=(rustc-web libstd-rust-web-dev:amd64 libc6-dev:amd64 gcc-x86-64-linux-gnu)
    x86_gcc=x86_64-linux-gnu-gcc
    x86_objdump=x86_64-linux-gnu-objdump
    # Debian's; the kit's own, with which ./run runs programs of the kit, is not made for static ones.
    emulator=(qemu-x86_64)
fi

fail() {
    printf '%s: %s\n' "${0##*/}" "$*" >&2
    exit 2
}

# ---- what is there, and what is not ------------------------------------------------------------------------------------------------------

# packages TOOL: the Debian packages that bring it.
packages() {
    case $1 in
    gcc) echo gcc libc6-dev ;;
    x86_64-linux-gnu-gcc) echo gcc-x86-64-linux-gnu libc6-dev-amd64-cross ;;
    objdump) echo binutils ;;
    x86_64-linux-gnu-objdump) echo binutils-x86-64-linux-gnu ;;
    qemu-x86_64) echo qemu-user ;;
    cargo) echo cargo-web ;;
    editcap) echo wireshark-common ;;
    perf) echo linux-perf ;;
    xz) echo xz-utils ;;
    rust_x86) echo "${rust_packages[@]}" ;;
    *) echo "$1" ;;
    esac
}

# are_installed PACKAGE..: all of them, from Debian.
are_installed() {
    local states
    states=$(dpkg-query -W -f '${db:Status-Status}\n' "$@" 2>/dev/null) && ! grep -qvx installed <<<"$states"
}

# is_there TOOL: where it comes from does not matter, but for Rust, which is Debian's. A C compiler is there with its library.
is_there() {
    case $1 in
    rust_x86) are_installed "${rust_packages[@]}" ;;
    *gcc) command -v "$1" >/dev/null && [ -f "$("$1" -print-file-name=libc.a)" ] ;;
    *) command -v "$1" >/dev/null ;;
    esac
}

need() {
    local tool wanted missing=()
    for tool in "$@"; do
        if is_there "$tool"; then continue; fi
        [ "$tool" != rt ] || fail "the command rt is not found: it is in the folder bin of the Rattle kit"
        read -ra wanted <<<"$(packages "$tool")"
        missing+=("${wanted[@]}")
    done
    [ ${#missing[@]} -eq 0 ] || install "${missing[@]}"
    for tool in "$@"; do
        is_there "$tool" || fail "$tool is not there, and its packages did not bring it: $(packages "$tool")"
    done
}

# install PACKAGE..: from Debian.
install() {
    local log apt=(apt-get -qq -o DPkg::Lock::Timeout=600)
    command -v apt-get >/dev/null || fail "missing, as Debian names it: $*. There is no apt-get here to install it"
    [ "$(id -u)" -eq 0 ] || fail "missing: $*. Only root can install it, by: apt-get install $*"
    echo "installing $* from Debian" >&2
    case "$*" in *:amd64*) dpkg --add-architecture amd64 ;; esac
    log=$(mktemp)
    if ! { "${apt[@]}" update && DEBIAN_FRONTEND=noninteractive "${apt[@]}" install -y "$@"; } >"$log" 2>&1; then
        cat "$log" >&2
        rm -f "$log"
        fail "apt-get cannot install $*, as it says above"
    fi
    rm -f "$log"
}

# The kit is where rt is, unless RATTLE_HOME says otherwise.
kit() {
    local rt
    if [ -n "${RATTLE_HOME:-}" ]; then
        echo "$RATTLE_HOME"
        return
    fi
    rt=$(command -v rt) || return 1
    rt=$(readlink -f "$rt")
    (cd "${rt%/*}/.." && pwd -P)
}

# Programs are x86-64 ones: another machine has an emulator for them in the kit, beside their loader and C library.
kit_command() {
    local tools
    if [ "$machine" != x86_64 ]; then
        tools=$(kit)/on/$machine/toolchain
        [ -x "$tools/bin/qemu-x86_64" ] || fail "the Rattle kit has no emulator for this machine, $machine"
        printf '%s\n' "$tools/bin/qemu-x86_64" "$tools/lib/ld-linux-x86-64.so.2" --library-path "$tools/lib"
    fi
    printf '%s\n' "$1"
}

# ---- building ----------------------------------------------------------------------------------------------------------------------------

# up_to_date FILE SOURCE..: the file is there, and no source is newer. What checks leave in the folders out/ is no source.
up_to_date() {
    [ -e "$1" ] && [ -z "$(find "${@:2}" -name out -type d -prune -o \( -type f -o -path '*/src*' -o -path '*/specs*' -o -path '*/proofs*' \) -newer "$1" -print -quit)" ]
}

build_library() {
    local archive name log=$root/target/staticlib.log old=()
    for archive in "${libraries[@]}"; do
        up_to_date "$archive" "$root/crates.txt" "$root/crates" || old+=("$archive")
    done
    if [ ${#old[@]} -eq 0 ]; then return; fi
    need rt
    echo "proving and building the libraries (the first time: some minutes)" >&2
    mkdir -p "$root/target/staticlib"
    for archive in "${old[@]}"; do
        name=$(basename "$archive" .a)
        name=${name#lib}
        (cd "$root/crates/$name" && rt lib) >"$log" 2>&1 || { cat "$log" >&2; fail "the library $name is not built"; }
        cp "$root/crates/$name/out/lib$name.a" "$archive"
    done
}

# Debian's rustc, and not another that stands before it in PATH: the same for everyone, and on Arm the one that has x86-64's library.
debian_rustc() {
    dpkg-query -L rustc-web | grep '/bin/rustc$'
}

# rust_x86 WORDS..: rustc, for x86-64 and linked statically.
rust_x86() {
    "$(debian_rustc)" --edition 2021 --target x86_64-unknown-linux-gnu -C opt-level=3 -C codegen-units=1 -C linker="$x86_gcc" \
        -C target-feature=+crt-static -C relocation-model=static -L "${library%/*}" "$@"
}

# build_wrapper FOLDER: the crate, as FOLDER/libndakoleem.rlib.
build_wrapper() {
    if up_to_date "$1/libndakoleem.rlib" "${libraries[@]}" "$root/rust/src"; then return; fi
    rust_x86 --crate-name ndakoleem --crate-type rlib --out-dir "$1" "$root/rust/src/lib.rs"
}

# in_python FILE WORDS..: a file of the repository, in place of this script.
in_python() {
    need python3
    export X86_GCC=$x86_gcc X86_OBJDUMP=$x86_objdump EMULATOR="${emulator[*]}" LIBRARY=$library
    exec python3 "$root/$1" "${@:2}"
}
