#!/usr/bin/env bash
# Makes the test jobs of crates/replay, their answers and the outputs of examples/ again, and says whether they differ from those in the repository.
#   oracle/vectors.sh            compares; status 1 if anything differs
#   oracle/vectors.sh --write    puts the new files in place
set -euo pipefail
oracle=$(cd "$(dirname "${BASH_SOURCE[0]}")" && pwd)
root=$(dirname "$oracle")

# The original's files: all but the added last line of the first, and the second whole.
original() { sha256sum | cut -d' ' -f1; }
head -n -1 "$oracle/src/phase_fold_pauli.rs" | original |
    grep -qx 3058e5526dfd038f13579e38c070be88625131928bf6111ff5c41ba3677daf80 || { echo "phase_fold_pauli.rs is not the original"; exit 1; }
original < "$oracle/src/pbc/optimize/words.rs" |
    grep -qx 0a6ef69a7958a8fb0eb264b02cb2985347d3f78ce3a8df8390a0966e43138802 || { echo "words.rs is not the original"; exit 1; }

cargo build --release --offline --quiet --manifest-path "$oracle/Cargo.toml"
bin=${CARGO_TARGET_DIR:-$oracle/target}/release
new=$(mktemp -d)
trap 'rm -r "$new"' EXIT
"$bin/vectors" "$new/made"
mkdir -p "$new/crates/replay" "$new/oracle" "$new/examples"
mv "$new/made/jobs" "$new/crates/replay/stdin"
mv "$new/made/answers" "$new/crates/replay/stdout"
mv "$new/made/coverage" "$new/oracle/coverage"
for job in "$root"/examples/*.job; do
    "$bin/lines" < "$job" > "$new/examples/$(basename "$job" .job).out"
done

differ=0
for file in crates/replay/stdin crates/replay/stdout oracle/coverage $(cd "$new" && ls examples/*.out); do
    if cmp -s "$new/$file" "$root/$file"; then
        echo "same: $file"
    elif [ "${1:-}" = --write ]; then
        mkdir -p "$(dirname "$root/$file")"
        cp "$new/$file" "$root/$file"
        echo "written: $file"
    else
        echo "differs: $file"
        differ=1
    fi
done
exit $differ
