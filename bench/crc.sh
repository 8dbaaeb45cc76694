#!/usr/bin/env bash
# Bytes per second of the CRC-64 of a file that is loaded: the built program on two files of one string, which differ in
# the checksum alone. The one has it, so that it is worked out; the other has zeros, so that it isn't.
# usage: bench/crc.sh [MiB of the string, at most 512]
set -euo pipefail
cd "$(dirname "$0")/.."
mib=${1:-256}
program=crates/redis_core_cli/out/redis_core_cli
[ -x "$program" ] || { echo "build it first: rt ci"; exit 2; }
room=$(mktemp -d)
trap 'rm -rf "$room"' EXIT
python3 bench/rdb.py long "$mib" > "$room/summed"
python3 bench/rdb.py long "$mib" unsummed > "$room/unsummed"
# the least of five runs, in seconds
least() {
  for _ in 1 2 3 4 5; do
    local start end
    start=$(date +%s.%N)
    "$program" --load "$1" < /dev/null
    end=$(date +%s.%N)
    awk -v s="$start" -v e="$end" 'BEGIN { printf "%.3f\n", e - s }'
  done | sort -n | head -n 1
}
with=$(least "$room/summed")
without=$(least "$room/unsummed")
echo "loading $mib MiB: $with s, without the checksum $without s"
awk -v n=$((mib * 1048576)) -v a="$with" -v b="$without" 'BEGIN { printf "CRC-64: %.0f MB per second\n", n / (a - b) / 1000000 }'
