#!/usr/bin/env bash
# Builds the library and the examples in C and Rust, runs both, and holds what they print against examples/partner.out, whose looks are those of
# ../examples/worked.out (01's worked example). With TILLBONNET_LIB set the libhost.a of that folder is taken as it is.
set -euo pipefail
cd "$(dirname "${BASH_SOURCE[0]}")"
if [ -z "${TILLBONNET_LIB:-}" ]; then
    (cd ../crates/host && rt lib --cpu=x86-64 > /dev/null)
    TILLBONNET_LIB=$(cd ../crates/host/out && pwd)
fi
export TILLBONNET_LIB
built=$(mktemp -d)
trap 'rm -rf "$built"' EXIT
cc -std=c99 -Wall -Wextra -Werror -pedantic -I ../include examples/partner.c "$TILLBONNET_LIB/libhost.a" -o "$built/partner"
"$built/partner" | tee "$built/c.out"
cmp "$built/c.out" examples/partner.out
echo "C: as expected"
if command -v cargo > /dev/null; then
    cargo run --release --offline --quiet --example partner > "$built/rust.out"
    cmp "$built/rust.out" examples/partner.out
    echo "Rust: the same"
else
    echo "no cargo here: the example in Rust was not run"
fi
