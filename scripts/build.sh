#!/usr/bin/env bash
# Proves and builds the library and the program, and puts them where rust/, host/, tools/ and the documents look for them:
# target/staticlib/libopenrules_c.a and target/bin/openrules. `scripts/build.sh library` and `scripts/build.sh program` make one of them.
set -euo pipefail
cd "$(dirname "$0")/.."
what=${1:-both}
case $what in
both | library | program) ;;
*)
    echo "scripts/build.sh [library | program]" >&2
    exit 2
    ;;
esac
if [ "$what" != program ]; then
    (cd crates/openrules_c && rt lib)
    mkdir -p target/staticlib
    cp --remove-destination crates/openrules_c/out/libopenrules_c.a target/staticlib/
fi
if [ "$what" != library ]; then
    (cd crates/openrules && rt run -- help)
    mkdir -p target/bin
    cp --remove-destination crates/openrules/out/openrules target/bin/
fi
