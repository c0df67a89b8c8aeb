#!/bin/sh
# Our library against the original Rust, and against arbitrary contents: compare/run.sh [JOBS [CALLS]]
# Without numbers a quick share, some 25 seconds on one core. TILLBONNET_LIB names a folder with another libhost.a.
set -e
cd "$(dirname "$0")"
if [ ! -e "${TILLBONNET_LIB:-../crates/host/out}/libhost.a" ]; then (cd ../crates/host && rt lib --cpu=x86-64 > /dev/null); fi
cargo build --release --offline --quiet
quick=
if [ $# -eq 0 ]; then quick=--quick; fi
target="${CARGO_TARGET_DIR:-target}/release"
"$target/compare" --jobs "${1:-12000}" $quick
"$target/damage" --calls "${2:-3000000}"
