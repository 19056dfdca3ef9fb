#!/usr/bin/env bash
# For those with the Rattle kit: proves hound_c and what it uses, where that isn't proved yet, and builds it into
# crates/hound_c/out. With HOUND_C_LIB=$PWD/crates/hound_c/out in the environment, bindings/c/install.sh and pip
# take that library in the place of the one in bindings/lib. The first time this takes a quarter of an hour.
set -eu -o pipefail
cd "$(dirname "$0")/.."
. scripts/kit.sh
look_at_kit bindings/build.sh
log=$(mktemp)
trap 'rm -f "$log"' EXIT
echo "bindings/build.sh: looking at what is proved" >&2
if ! (cd crates/hound_c && rt lib 2>&1) | tee "$log" \
    | sed -un 's/^rt: chose .* for \(.*\)/bindings\/build: proving \1/p' >&2; then
    tail -n 20 "$log" >&2
    exit 1
fi
echo "$PWD/crates/hound_c/out/libhound_c.a"
