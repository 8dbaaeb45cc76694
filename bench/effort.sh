#!/usr/bin/env bash
# What the work between requests costs: the processor time of SET, GET and SETEX over many keys with the default effort, beside that
# with pacers that plan nothing. The least of five turns counts for both, one after the other in turn.
# usage: bench/effort.sh [keys] [requests of each kind]
set -euo pipefail
cd "$(dirname "$0")/.."
. bench/beside.sh
keys=${1:-1000}
count=${2:-1000000}
gcc -O2 -o "$room/client" bench/client.c

for kind in set get setex; do
  many=$(python3 bench/workloads.py "$kind" "$keys" "$count" 32 "$room/prepared" "$room/measured")
  for _ in 1 2 3 4 5; do
    for effort in 0 1; do
      echo "$effort $("$room/client" "$room/prepared" "$room/measured" program "$program" --effort "$effort")"
    done
  done | awk -v kind="${kind^^}" -v keys="$keys" -v n="$many" '
    { spent = $5 / n * 1e9; if (!($1 in least) || spent < least[$1]) least[$1] = spent }
    END { printf "%s, %d keys: %.0f ns of processor time a request with no work, %.0f with the default effort, ratio %.2f\n", kind, keys, least[0], least[1], least[1] / least[0] }'
done
