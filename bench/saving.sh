#!/usr/bin/env bash
# Saves what loading.sh loads: a real server makes the keys and saves them without compression, best of three; the program loads that file,
# with and without saving, each best of three, and saving is the difference. Prints both, the sizes of both files, and what each holds at most
# in memory meanwhile. The server then loads the file that the program wrote, and its digest of all data is that of before, or the
# row says that it differs.
# usage: bench/saving.sh [KIND..], behind rt ci; it wants Python 3 and a redis-server
set -euo pipefail
cd "$(dirname "$0")/.."
. bench/beside.sh
[ -n "$server" ] || { echo "no redis-server on the path"; exit 2; }

# starts the server over a folder, with the file that it has
serve_folder() {
  "$server" --port 0 --unixsocket "$1/socket" --save '' --rdbcompression no --enable-debug-command yes --dir "$1" > "$1/log" &
  server_pid=$!
  for _ in $(seq 600); do
    [ -S "$1/socket" ] && redis-cli -s "$1/socket" PING 2> /dev/null | grep -q PONG && return 0
    sleep 0.1
  done
  tail -n 3 "$1/log"
  echo "the server doesn't answer"
  exit 1
}

# the file that the program wrote, as this server can read it: before 7.2 none reads version 11
for_server() {
  case $("$server" --version) in
    *v=7.[2-9]* | *v=[89].*) mv "$1" "$2" ;;
    *) python3 bench/saving.py "$1" "$2" ;;
  esac
}

# ends it and saves nothing
end_server() {
  redis-cli -s "$1/socket" SHUTDOWN NOSAVE > /dev/null
  wait "$server_pid" 2> /dev/null || true
  server_pid=
}

# seconds of a command, best of three
best_of_three() {
  python3 - "$@" << 'P'
import subprocess, sys, time
best = None
for _ in range(3):
    begun = time.perf_counter()
    subprocess.run(sys.argv[1:], stdin=subprocess.DEVNULL, stdout=subprocess.DEVNULL, check=True)
    took = time.perf_counter() - begun
    best = took if best is None else min(best, took)
print("%.2f" % best)
P
}

for kind in ${*:-strings hashes sorted_set list streams groups}; do
  folder=$room/$kind
  mkdir "$folder"
  serve_folder "$folder"
  bench/kinds.py "$kind" | redis-cli -s "$folder/socket" --pipe > /dev/null
  theirs=$(best_of_three redis-cli -s "$folder/socket" SAVE)
  before=$(redis-cli -s "$folder/socket" DEBUG DIGEST)
  end_server "$folder"
  loads=$(best_of_three "$program" --load "$folder/dump.rdb")
  saves=$(best_of_three "$program" --load "$folder/dump.rdb" --save "$folder/ours.rdb")
  large=$(/usr/bin/env python3 -c 'import resource, subprocess, sys
subprocess.run(sys.argv[1:], stdin=subprocess.DEVNULL, check=True)
print(resource.getrusage(resource.RUSAGE_CHILDREN).ru_maxrss // 1024)' "$program" --load "$folder/dump.rdb" --save "$folder/ours.rdb")
  sizes="$(stat -c %s "$folder/dump.rdb") and $(stat -c %s "$folder/ours.rdb") bytes"
  for_server "$folder/ours.rdb" "$folder/dump.rdb"
  rm "$folder/socket" 2> /dev/null || true
  serve_folder "$folder"
  after=$(redis-cli -s "$folder/socket" DEBUG DIGEST)
  end_server "$folder"
  same='the same digest'
  [ "$before" = "$after" ] || same='ANOTHER DIGEST'
  echo "$kind: the server $theirs s, the program $(python3 -c "print('%.2f' % ($saves - $loads))") s ($saves with loading, $large MiB at most); $sizes; $same"
  rm -r "$folder"
done
