#!/usr/bin/env bash
# Builds the rig, packs the tug's list by the independent implementation, and holds what `decide` prints, and its status, against
# what is expected: for packets, for damaged bytes and for wrong use. Ends with a line that counts.
set -eu
export LC_ALL=C
cd "$(dirname "$0")/.."
rig/build.sh > /dev/null
cargo build --release --offline --quiet --manifest-path outside/Cargo.toml
outside=$PWD/outside/target/release/outside
decide=$PWD/rig/build/decide
lists=$PWD/examples/tug
folder=$(mktemp -d)
trap 'rm -rf "$folder"' EXIT
cd "$folder"
passed=0
failed=0

# expect STATUS LINE WORD...: what `decide` with these words must print, messages too, and end with.
expect() {
    local status=0 line
    line=$("$decide" "${@:3}" 2>&1) || status=$?
    if [ "$status $line" = "$1 $2" ]; then
        passed=$((passed + 1))
    else
        failed=$((failed + 1))
        printf 'decide %s\n  expected %s, status %s\n  printed  %s, status %s\n' "${*:3}" "$2" "$1" "$line" "$status"
    fi
}

# put FILE PLACE BYTE...: writes bytes, each as two hexadecimal digits, at a place of a file.
put() {
    printf "$(printf '\\x%s' "${@:3}")" | dd of="$1" bs=1 seek="$2" conv=notrunc status=none
}

# mend FILE: makes the check of a file's only block right again.
mend() {
    local sum
    sum=$(head -c 508 "$1" | od -An -v -tu1 -w1 | awk '{ sum += NR * $1 } END { printf "%08x", sum }')
    put "$1" 508 "${sum:0:2}" "${sum:2:2}" "${sum:4:2}" "${sum:6:2}"
}

"$outside" pack "$lists/first-edition.rules" > tug
"$outside" pack "$lists/second-edition.rules" > second
cmp tug second

# The bridge network, the service laptop and a stranger, at and beside the ends of the list's ranges.
expect 0 allow tug 192.168.10.0 40000 192.168.20.5 17 6
expect 0 allow tug 192.168.10.255 0 192.168.20.5 80 6
expect 0 deny tug 192.168.10.9 40000 192.168.20.5 16 6
expect 0 deny tug 192.168.10.9 40000 192.168.20.5 81 6
expect 0 deny tug 192.168.11.0 40000 192.168.20.5 80 6
expect 0 none tug 192.168.10.9 40000 192.168.20.5 80 17
expect 0 allow tug 192.168.10.7 65535 192.168.20.6 502 6
expect 0 deny tug 192.168.10.8 65535 192.168.20.6 502 6
expect 0 deny tug 192.168.10.7 65535 192.168.20.6 502 17
expect 0 none tug 192.168.10.7 65535 192.168.20.7 502 6
expect 0 none tug 0.0.0.0 0 0.0.0.0 0 0
expect 0 none tug 255.255.255.255 65535 255.255.255.255 65535 255
packet="192.168.10.7 1024 192.168.20.6 502 6"

# Lengths.
: > empty
head -c 1535 tug > short
head -c 33280 /dev/zero > long
expect 1 "refused 11" empty $packet
expect 1 "refused 11" short $packet
expect 1 "refused 11" long $packet
# A byte of the last block, and the whole first block as if it had been erased.
cp tug changed
put changed 1100 aa
expect 1 "refused 12" changed $packet
cp tug erased
head -c 512 /dev/zero | tr '\0' '\377' | dd of=erased conv=notrunc status=none
expect 1 "refused 12" erased $packet
# A block of zeros has the right check, and no row.
head -c 512 /dev/zero > zeros
expect 1 "refused 13" zeros $packet
# A table of marks.
echo 'log * * * * 6' | "$outside" pack --marks > marks
expect 1 "refused 14" marks $packet
# The last block is lost.
head -c 1024 tug > cut
expect 1 "refused 15" cut $packet
# Two rows, protocols 0 to 5 and 6 to 255: the second gets a low end of 7, or the first one's decision.
echo 'allow * * * * 0-5' | "$outside" pack > two
expect 0 allow two 1.2.3.4 0 5.6.7.8 0 5
expect 0 none two $packet
cp two gap
put gap 56 07
mend gap
expect 1 "refused 15" gap $packet
cp two alike
put alike 58 02
expect 1 "refused 12" alike $packet
mend alike
expect 1 "refused 16" alike $packet

# Wrong use.
address="four numbers from 0 to 255 with full stops between them"
expect 2 "decide: the source address is $address, not 192.168.10" tug 192.168.10 1024 192.168.20.6 502 6
expect 2 "decide: the source address is $address, not 192.168.10.256" tug 192.168.10.256 1024 192.168.20.6 502 6
expect 2 "decide: the destination address is $address, not 192.168.020.6" tug 192.168.10.7 1024 192.168.020.6 502 6
expect 2 "decide: the source port is a number from 0 to 65535, not 65536" tug 192.168.10.7 65536 192.168.20.6 502 6
expect 2 "decide: the destination port is a number from 0 to 65535, not -1" tug 192.168.10.7 1024 192.168.20.6 -1 6
expect 2 "decide: the protocol is a number from 0 to 255, not tcp" tug 192.168.10.7 1024 192.168.20.6 502 tcp
expect 2 "decide: nothing: No such file or directory" nothing $packet
expect 2 "decide: .: Is a directory" . $packet
expect 2 "$(printf 'use: decide TABLE SOURCE SPORT DEST DPORT PROTOCOL\n     decide tug.table 192.168.10.7 1024 192.168.20.6 502 6')" tug

echo "rig: $passed passed, $failed failed"
[ "$failed" = 0 ]
