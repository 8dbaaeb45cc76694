#!/usr/bin/env bash
# Seconds of a whole SCAN over many keys of 16 bytes with COUNT 10, 100 and 1,000, with MATCH and without, and of KEYS: the built
# program beside a redis-server or valkey-server over a unix socket. The requests of a scan are recorded first, call by call,
# and then measured as one stream, since cursors differ with the seed of the hash; each scan reports every key.
# The program takes its input whole, so its time is that of setting the keys and scanning them without that of setting them
# alone; the least of three turns counts, for both.
# usage: bench/scan.sh [keys]
set -euo pipefail
cd "$(dirname "$0")/.."
. bench/beside.sh
[ -n "$server" ] || { echo "no redis-server or valkey-server is installed: nothing to compare with"; exit 2; }
keys=${1:-1000000}

# seconds that a command takes, the least of three turns
least() {
  local best='' start end
  for _ in 1 2 3; do
    start=$(date +%s.%N)
    "$@"
    end=$(date +%s.%N)
    best=$(awk -v s="$start" -v e="$end" -v b="$best" 'BEGIN { t = e - s; print (b == "" || t < b) ? t : b }')
  done
  echo "$best"
}

run_program() { cat "$@" | "$program" > "$room/replies"; }

# the server's seconds on the measured requests
run_server() {
  local best='' seconds
  for _ in 1 2 3; do
    seconds=$(python3 bench/pipe.py "$room/socket" "$room/theirs" "$room/second")
    best=$(awk -v t="$seconds" -v b="$best" 'BEGIN { print (b == "" || t < b) ? t : b }')
  done
  echo "$best"
}

# the measured requests stand in $room/ours and $room/theirs
compare() {
  local both other
  both=$(least run_program "$room/prepared" "$room/ours")
  other=$(run_server)
  awk -v a="$alone" -v b="$both" -v o="$other" -v name="$(basename "$server")" -v what="$1" \
    'BEGIN { printf "%s: redis-core %.3f s, %s %.3f s: %.2f times as fast\n", what, b - a, name, o, o / (b - a) }'
}

start_server
python3 bench/workloads.py set "$keys" 0 32 "$room/prepared" "$room/none" > /dev/null
python3 bench/pipe.py "$room/socket" "$room/prepared" "$room/first" > /dev/null
alone=$(least run_program "$room/prepared")
for pattern in '' 'key:*7'; do
  for count in 10 100 1000; do
    ours=$(python3 bench/scan.py "$program" "$keys" "$count" "$pattern" "$room/prepared" "$room/ours")
    theirs=$(python3 bench/scan.py "$room/socket" "$keys" "$count" "$pattern" "$room/prepared" "$room/theirs")
    [ "${ours#* }" = "${theirs#* }" ] || { echo "not the same number of keys: $ours, $theirs"; exit 1; }
    compare "SCAN COUNT $count${pattern:+ MATCH $pattern}, calls and keys $ours"
  done
done
for pattern in '*' 'key:*7'; do
  for _ in 1 2 3 4 5 6 7 8 9 10; do
    printf '*2\r\n$4\r\nKEYS\r\n$%d\r\n%s\r\n' "${#pattern}" "$pattern"
  done | tee "$room/ours" > "$room/theirs"
  compare "KEYS $pattern, 10 times"
done
