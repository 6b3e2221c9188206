# shellcheck shell=bash
# Builds the oracle, for the scripts of this folder: sourced, it leaves the program's path in `oracle`. rbpf's two files are compiled as they
# came, which their sums say. Cargo may be anyone's; where there is none, Debian's is installed.
. "$(dirname "${BASH_SOURCE[0]}")/../scripts/toolchain.sh"

need cargo gcc
(cd "$root/docs/src" && sha256sum --check --quiet SHA256SUMS)
(cd "$root/oracle" && cargo build --release --offline --quiet --target-dir target)
# shellcheck disable=SC2034 # for whoever sources this
oracle=$root/oracle/target/release/oracle
made=$(mktemp -d)
trap 'rm -rf "$made"' EXIT
