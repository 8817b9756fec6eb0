#!/usr/bin/env bash
# Builds the rig: the proved library librig.a, and the two C programs that rest on it, into rig/build/.
# The C part of the Rattle kit's library is linked beside it. LIBRARY names another library in place of the proved one, which is then not
# built.
set -eu
cd "$(dirname "$0")/.."
mkdir -p rig/build
if [ -z "${LIBRARY:-}" ]; then
    log=$(cd crates/rig_c && rt lib 2>&1) || { printf '%s\n' "$log" | tail -n 20 >&2; exit 1; }
    cp crates/rig_c/out/librig_c.a rig/build/librig.a
fi
library=${LIBRARY:-rig/build/librig.a}
kit=$(dirname "$(dirname "$(readlink -f "$(command -v rt)")")")
for program in decide answer; do
    gcc -O2 -Wall -Wextra -o "rig/build/$program" "rig/$program.c" "$library" "$kit/c/liblibc_c.a"
    echo "rig/build/$program"
done
