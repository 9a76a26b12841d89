#!/usr/bin/env bash
# Compares the proved library with the original on random sheets, hands as many answers of partial sheets back to it, compares its finish on as
# many pairs, as many of its counter pages, its preview on as many sheets, its firm on a tenth as many lists of rows, and its test loads of 100 seeds with
# the document's words, for each seed:
# scripts/compare.sh [SHEETS [SEED..]]
# It needs cargo and the original's source, in OPENRULES_CEDAR_SRC or ../shared/docs/src. Status 0: no difference; 1: one;
# 3: something that it needs is not there, and nothing was compared.
# The library is built first, unless LIBRARY=built says that it stands in target/staticlib as it is.
set -eu
cd "$(dirname "$0")/.."
source=${OPENRULES_CEDAR_SRC:-../shared/docs/src}
if ! command -v cargo >/dev/null; then
    echo "cargo is not there: the library was not compared with the original"
    exit 3
fi
if [ ! -d "$source/cedar-policy-core" ]; then
    echo "the original's source is not in $source: the library was not compared with it"
    exit 3
fi
OPENRULES_CEDAR_SRC=$(cd "$source" && pwd)
export OPENRULES_CEDAR_SRC
[ "${LIBRARY:-}" = built ] || scripts/build.sh library
cd host
cargo build --release --offline --quiet --features library
sheets=${1:-4000}
[ $# -lt 2 ] && set -- 4000 1
shift
for seed; do
    target/release/host compare "$sheets" "$seed"
    target/release/host again "$sheets" "$seed"
    target/release/host finish "$sheets" "$seed"
    target/release/host pages "$sheets" "$seed"
    target/release/host preview "$sheets" "$seed"
    target/release/host firm "$((sheets / 10))" "$seed"
    target/release/host loads 100 "$seed"
done
