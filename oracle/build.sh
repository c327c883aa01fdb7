#!/bin/sh
# Builds the oracle and its programs, without the network but for Debian's packages:
#   target/debug      for comparing: what the source asserts is asserted, no sum wraps unseen
#   target/release    for timing
# MORGNET_LIB=/path/to/libmorgnet.a links Morgnet; without it the programs run over the face in src/own.rs.
# CARGO_TARGET_DIR puts target/ elsewhere.
set -eu
cd "$(dirname "$0")"

missing=
for package in librust-aes-dev librust-num-dev librust-rayon-dev; do
    if ! dpkg-query -W -f '${Status}' "$package" 2>/dev/null | grep -q 'install ok installed'; then
        missing="$missing $package"
    fi
done
if [ -n "$missing" ]; then
    echo "installing$missing"
    apt-get update
    # shellcheck disable=SC2086
    DEBIAN_FRONTEND=noninteractive apt-get install -y --no-install-recommends $missing
fi

features=
if [ -n "${MORGNET_LIB:-}" ]; then
    echo "linking $MORGNET_LIB"
    features="--features linked"
fi
# shellcheck disable=SC2086
cargo build --offline $features
# shellcheck disable=SC2086
cargo build --offline --release $features
