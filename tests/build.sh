#!/usr/bin/env bash
# Builds the proved program where it is missing or older than a source, and prints its path.
set -eu
cd "$(dirname "$0")/.."
program=$PWD/crates/serna/out/serna
if [ ! -x "$program" ] || [ -n "$(find crates/*/src crates/*/specs crates/*/proofs crates.txt -newer "$program" -type f 2>/dev/null | head -n 1)" ]; then
  (cd crates/serna && rt run < stdin) >&2
fi
echo "$program"
