#!/usr/bin/env bash
# Runs cargo in tools/: `scripts/tools.sh test`, `scripts/tools.sh build --release`. JSON and options are read by serde_json and clap: from Debian's
# packages where they are there or can be installed, which cargo is handed as a folder; else from cargo's usual registry. Ends with 3 where neither is there.
set -euo pipefail
cd "$(dirname "$0")/../tools"
registry=/usr/share/cargo/registry
there() { compgen -G "$registry/serde_json-1*" >/dev/null && compgen -G "$registry/clap-4*" >/dev/null; }
if ! there && command -v apt-get >/dev/null && [ "$(id -u)" -eq 0 ]; then
    packages=(librust-serde-json-dev librust-clap-dev)
    apt-get install -y --no-install-recommends "${packages[@]}" >/dev/null 2>&1 ||
        { apt-get update >/dev/null 2>&1 && apt-get install -y --no-install-recommends "${packages[@]}" >/dev/null 2>&1; } || true
fi
options=()
if there; then
    options=(--offline --config 'source.crates-io.replace-with="debian"' --config "source.debian.directory=\"$registry\"")
elif ! cargo fetch --quiet 2>/dev/null; then
    echo "serde_json and clap are not there: nothing was done with the tools"
    exit 3
fi
cargo "${1:-test}" "${options[@]}" "${@:2}"
