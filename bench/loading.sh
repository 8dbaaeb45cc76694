#!/usr/bin/env bash
# Loads files that a real server saved without compression, and the server loads the same: 1,000,000 short strings, 100,000 hashes of ten
# fields, a sorted set of 1,000,000 members, a list of 1,000,000 elements, and 1,000 streams of 1,000 entries. Prints the seconds that the
# program takes for a run without a request, best of three, and those that the server's log tells of its own loading.
# usage: bench/loading.sh, behind rt ci; it wants Python 3 and a redis-server
set -euo pipefail
cd "$(dirname "$0")/.."
. bench/beside.sh
[ -n "$server" ] || { echo "no redis-server on the path"; exit 2; }

# seconds, best of three, of the program over a file
best_of_three() {
  python3 - "$program" "$1" << 'P'
import subprocess, sys, time
best = None
for _ in range(3):
    begun = time.perf_counter()
    subprocess.run([sys.argv[1], "--load", sys.argv[2]], stdin=subprocess.DEVNULL, stdout=subprocess.DEVNULL, check=True)
    took = time.perf_counter() - begun
    best = took if best is None else min(best, took)
print("%.2f" % best)
P
}

for kind in ${1:-strings hashes sorted_set list streams}; do
  folder=$room/$kind
  mkdir "$folder"
  "$server" --port 0 --unixsocket "$folder/socket" --save '' --rdbcompression no --dir "$folder" > "$folder/log" &
  server_pid=$!
  until [ -S "$folder/socket" ]; do sleep 0.1; done
  bench/kinds.py "$kind" | redis-cli -s "$folder/socket" --pipe > /dev/null
  redis-cli -s "$folder/socket" SAVE > /dev/null
  kill "$server_pid"
  wait "$server_pid" 2> /dev/null || true
  "$server" --port 0 --unixsocket "$folder/socket" --save '' --dir "$folder" > "$folder/log" &
  server_pid=$!
  until grep -q 'DB loaded from disk' "$folder/log"; do sleep 0.1; done
  told=$(sed -n 's/.*DB loaded from disk: \([0-9.]*\) seconds.*/\1/p' "$folder/log")
  kill "$server_pid"
  wait "$server_pid" 2> /dev/null || true
  server_pid=
  echo "$kind: $(stat -c %s "$folder/dump.rdb") bytes, the program $(best_of_three "$folder/dump.rdb") s, the server $told s"
  rm -r "$folder"
done
