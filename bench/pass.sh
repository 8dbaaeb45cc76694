#!/usr/bin/env bash
# Memory before and after half of many keys with values of mixed lengths are deleted, and after a pass over the store that
# DEBUG DEFRAG asks for: what is resident, and the slabs by MEMORY SLABS beside the least number that holds their blocks.
# Beside it the resident memory of a redis-server or valkey-server on the same requests, where one is installed.
# No plans are made between requests, so that the pass alone is seen.
# usage: bench/pass.sh [keys]
set -euo pipefail
cd "$(dirname "$0")/.."
. bench/beside.sh
keys=${1:-1000000}

resident() { awk '/VmRSS/ { print $2 }' "/proc/$1/status"; }

# waits until the replies end with a line
await() { until tail -n 1 "$room/replies" | grep -q "^$1"; do sleep 0.1; done; }

# sums of slabs, and of the least number that holds the blocks, out of the last reply to MEMORY SLABS
slabs() {
  tac "$room/replies" | sed '/^\*[0-9]*\r$/{/^\*3\r$/!q}' | tac | tr -d '\r' | awk '
    /^\*3$/ { field = 0; next }
    /^:/ { field++; number = substr($0, 2)
           if (field == 1) size = number
           if (field == 2) slabs += number
           if (field == 3) { each = int(65536 / size); least += int((number + each - 1) / each) } }
    END { printf "%d slabs, at least %d are needed", slabs, least }'
}

python3 bench/pass.py "$keys" "$room/sets" "$room/deletions"
mkfifo "$room/input"
"$program" --effort 0 < "$room/input" > "$room/replies" &
exec 3> "$room/input"
cat "$room/sets" >&3
printf 'ECHO set\r\nMEMORY SLABS\r\nECHO told\r\n' >&3
await told
echo "with $keys keys: resident $(resident $!) KiB"
cat "$room/deletions" >&3
printf 'ECHO gone\r\nMEMORY SLABS\r\n' >&3
until tail -n 200 "$room/replies" | grep -q '^gone'; do sleep 0.1; done
sleep 0.5
echo "half of them deleted: resident $(resident $!) KiB, $(slabs)"
start=$(date +%s.%N)
printf 'DEBUG DEFRAG 1000000\r\nECHO passed\r\nMEMORY SLABS\r\n' >&3
until tail -n 200 "$room/replies" | grep -q '^passed'; do sleep 0.05; done
end=$(date +%s.%N)
sleep 0.5
awk -v s="$start" -v e="$end" 'BEGIN { printf "a whole pass took %.2f s\n", e - s }'
echo "after it: resident $(resident $!) KiB, $(slabs)"
exec 3>&-
wait $!
if [ -n "$server" ]; then
  start_server
  python3 bench/pipe.py "$room/socket" "$room/sets" "$room/other" > /dev/null
  echo "$(basename "$server") with $keys keys: resident $(resident "$server_pid") KiB"
  python3 bench/pipe.py "$room/socket" "$room/deletions" "$room/other" > /dev/null
  echo "$(basename "$server"), half of them deleted: resident $(resident "$server_pid") KiB"
fi
