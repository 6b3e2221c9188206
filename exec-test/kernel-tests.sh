# shellcheck shell=bash
# Where the Linux kernel's own tests of its translators are. To be sourced behind scripts/toolchain.sh.
#
#   find_kernel_tests [FILE]    sets kernel_tests to the path of a lib/test_bpf.c: FILE, or that of Debian's linux-source, which is installed

# debian_source FILE: writes that of the newest kernel to FILE.
debian_source() {
    local sources
    are_installed linux-source || install linux-source
    sources=$(find /usr/src -name 'linux-source-*.tar.xz' | sort -V | tail -n 1)
    echo "taking lib/test_bpf.c out of $sources" >&2
    mkdir -p "${1%/*}"
    tar -xJOf "$sources" --no-wildcards-match-slash --wildcards 'linux-source-*/lib/test_bpf.c' >"$1.part"
    mv "$1.part" "$1"
}

find_kernel_tests() {
    kernel_tests=${1:-$root/target/exec-test/test_bpf.c}
    [ $# -eq 0 ] || [ -f "$kernel_tests" ] || fail "there is no file $kernel_tests"
    [ -f "$kernel_tests" ] || debian_source "$kernel_tests"
    kernel_tests=$(realpath "$kernel_tests")
}
