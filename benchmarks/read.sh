#!/usr/bin/env bash
# Reading speed: the proved reader and the independent one of outside/, on the same text, in the same run.
# The text has 64 rules and, with a comment behind them, exactly 16,384 bytes.
set -eu
cd "$(dirname "$0")/.."
turns=${1:-2000}
log=$(cd crates/speed && rt run 2>&1 < /dev/null) || { printf '%s\n' "$log" | tail -n 20 >&2; exit 1; }
cargo build --release --offline --quiet --manifest-path outside/Cargo.toml
text=$(mktemp)
trap 'rm -f "$text"' EXIT
for i in $(seq 0 63); do
    echo "allow 10.$i.0.0-10.$i.255.255 1024-65535 192.168.$i.1-192.168.$i.254 $((5000 + i))-$((6000 + i)) 6"
done > "$text"
printf '#%0.s' 1 >> "$text"
head -c $((16384 - $(wc -c < "$text"))) /dev/zero | tr '\0' 'x' >> "$text"
crates/speed/out/speed read "$turns" < "$text"
outside/target/release/outside time "$turns" < "$text"
