#!/usr/bin/env bash
# Compares the proved program and the rig call with the independent implementation: rows, packed bytes, refusals with their places,
# and decisions, of packed tables and of damaged ones.
#
#     outside/agree.sh [SEED] [TABLES]
#
# Prints the first differences and ends with one line that counts; status 1 if there is a difference. PROGRAM and RIG name other
# programs in place of the proved ones, which are then not built.
set -eu
cd "$(dirname "$0")/.."
seed=${1:-1}
tables=${2:-20000}
if [ -z "${PROGRAM:-}" ]; then
    log=$(cd crates/packed_checks && rt run 2>&1 < /dev/null) || { printf '%s\n' "$log" | tail -n 20 >&2; exit 1; }
fi
if [ -z "${RIG:-}" ]; then
    rig/build.sh > /dev/null
fi
cargo build --release --offline --quiet --manifest-path outside/Cargo.toml
exec outside/target/release/outside agree "$seed" "$tables" "${PROGRAM:-crates/packed_checks/out/packed_checks}" "${RIG:-rig/build/answer}"
