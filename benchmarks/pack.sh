#!/usr/bin/env bash
# Packing speed: the proved code and the independent one of outside/, on the same lists, in the same run. Each makes the table of a list
# that is read before, and packs it into 32,768 bytes, or finds out that the table has too many rows.
#
#     benchmarks/pack.sh [TURNS] [SEEDS]
#
# A line for each list: its rows, which both must agree on, the mean time of each over so many turns, and the ratio of the two. The
# status is 1 if they do not agree. PROVED names another program in place of crates/speed/out/speed, which is then not built.
set -eu
cd "$(dirname "$0")/.."
turns=${1:-50}
seeds=${2:-3}
if [ -z "${PROVED:-}" ]; then
    log=$(cd crates/speed && rt run 2>&1 < /dev/null) || { printf '%s\n' "$log" | tail -n 20 >&2; exit 1; }
fi
proved=${PROVED:-crates/speed/out/speed}
cargo build --release --offline --quiet --manifest-path outside/Cargo.toml
outside=outside/target/release/outside
text=$(mktemp)
trap 'rm -f "$text"' EXIT

# The parts of a line `NAME: ROWS rows, pack N ns` or `NAME: refused 5, N ns`: what came of it, and the time.
rows_of() {
    sed -n 's/^[a-z]*: \(.*\) rows, pack [0-9]* ns$/\1/p; s/^[a-z]*: \(refused 5\), [0-9]* ns$/\1/p' <<< "$1"
}
time_of() {
    sed -n 's/^.* \([0-9]*\) ns$/\1/p' <<< "$1"
}

printf '%-14s %10s %14s %14s %16s\n' list rows 'proved, ns' 'outside, ns' 'proved/outside'
lists=0
differences=0
for kind in realistic boxes refused verdicts; do
    for seed in $(seq "$seeds"); do
        "$outside" list "$kind" "$seed" > "$text"
        one=$($proved pack "$turns" < "$text")
        other=$("$outside" time-pack "$turns" < "$text")
        rows=$(rows_of "$other")
        if [ -z "$rows" ] || [ "$(rows_of "$one")" != "$rows" ]; then
            differences=$((differences + 1))
            printf 'difference: %s %s\n  %s\n  %s\n' "$kind" "$seed" "$one" "$other"
        else
            awk -v list="$kind $seed" -v rows="$rows" -v one="$(time_of "$one")" -v other="$(time_of "$other")" \
                'BEGIN { printf "%-14s %10s %14d %14d %16.2f\n", list, rows, one, other, one / other }'
        fi
        lists=$((lists + 1))
    done
done
if [ "$differences" != 0 ]; then
    echo "pack: $lists lists, $differences on which the two do not agree"
    exit 1
fi
echo "pack: $lists lists, and the two agree on the rows of each"
