#!/bin/sh
# Writes crates/hash_vectors/data/hash_u64.txt: lines `input output` in decimal.
# Usage, at the repository's root: tools/vectors/make.sh [PATH OF raft-engine's src/util.rs]
set -eu
source=${1:-../shared/docs/src/src/util.rs}
work=$(mktemp -d)
trap 'rm -r "$work"' EXIT
sed -n '/^pub fn hash_u64(/,/^}/p' "$source" >"$work/hash_u64.rs"
cp tools/vectors/vectors.rs "$work/vectors.rs"
rustc -O -o "$work/vectors" "$work/vectors.rs"
mkdir -p crates/hash_vectors/data
"$work/vectors" >crates/hash_vectors/data/hash_u64.txt
