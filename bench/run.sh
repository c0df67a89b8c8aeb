#!/bin/sh
# Builds the benchmark in the plain release profile and with lto = "fat", runs both and prints one table in Markdown; then the sizes.
#   run.sh [--quick] [TEXT ..]     TEXT: only cases whose name has all the texts
# The archive is ../crates/host/out/libhost.a (rt lib --cpu=x86-64 in ../crates/host), or that of the folder TILLBONNET_LIB.
# CORE: the core to run on (default 1).
set -eu
cd "$(dirname "$0")"
if [ ! -e "${TILLBONNET_LIB:-../crates/host/out}/libhost.a" ]; then (cd ../crates/host && rt lib --cpu=x86-64 > /dev/null); fi
out=$(mktemp -d)
trap 'rm -rf "$out"' EXIT
cargo build --release --offline --quiet
cargo build --profile fat --offline --quiet
pin=
if command -v taskset > /dev/null && taskset -c "${CORE:-1}" true 2> /dev/null; then
    pin="taskset -c ${CORE:-1}"
fi
$pin target/release/bench "$@" > "$out/plain"
$pin target/fat/bench "$@" > "$out/fat"
./table.py "$out/plain" "$out/fat"
if [ "$*" = "" ] || [ "$*" = --quick ]; then
    echo
    target/release/heap
fi
