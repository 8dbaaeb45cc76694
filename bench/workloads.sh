#!/usr/bin/env bash
# Requests a second of one workload after the other: the built program and a floor (a C++ program that parses, keeps an unordered_map
# and answers) over pipes, and a redis-server or valkey-server over a unix socket, where one is installed, all on the same bytes by the
# same client, which sends ahead. The best of five turns counts; each turn begins without a key. The replies of all must be the same,
# but where a set's or a large hash's members come in any order: such a row says that they weren't compared.
# Then the resident memory with all keys, for values of 3, 32 and 100 bytes.
# A workload over lists, sorted sets, sets, hashes or streams has a third number, the elements of each: there are as many keys as hold
# together one element for each request, and fewer requests where each looks at many elements.
# usage: bench/workloads.sh [keys] [requests of each workload] [turns] [workloads, such as "set:32 get:32 mix:32 lpos:32:1000",
#                           or "lists", "zsets", "sets", "hashes" or "streams"]
set -euo pipefail
cd "$(dirname "$0")/.."
. bench/beside.sh
keys=${1:-1000}
count=${2:-1000000}
turns=${3:-5}
kinds=${4:-set:3 set:32 set:100 set:1024 get:3 get:32 get:100 get:1024 incr:8 setex:32 expire:32 mset:32 mget:32 append:32 del:32 mix:32}
# all workloads of a family: what each does, the numbers of elements, and their bytes
all_of() {
  for what in $1; do for elements in $2; do for length in $3; do
    echo "$what:$length:$elements"
  done; done; done
}
case $kinds in
  lists) kinds=$(all_of "lpush pushpop lrange lindex lpos" "10 1000 100000" "3 32 1000") ;;
  zsets) kinds=$(all_of "zadd zrescore zrank zrange zbyscore zincrby zaddpop" "100 10000 1000000" 32) ;;
  sets) kinds=$(all_of "sadd sismember spop sinter" "100 10000" 32) ;;
  hashes) kinds=$(all_of "hset hreset hget hgetall hincrby" "10 1000" 32) ;;
  streams) kinds=$(all_of "xadd xrange xdel xreadgroup" "1000 1000000" 8) ;;
esac
gcc -O2 -o "$room/client" bench/client.c
g++ -O2 -std=c++17 -o "$room/floor" bench/floor.cpp
[ -z "$server" ] || start_server

# the best turn of one of the three: seconds, digest of the replies, resident KiB, seconds of processor time
best_of() {
  for _ in $(seq "$turns"); do
    if [ "$1" = socket ]; then
      printf 'FLUSHALL\r\n' > "$room/flush"
      python3 bench/pipe.py "$room/socket" "$room/flush" "$room/none" > "$room/none"
    fi
    "$room/client" "$room/prepared" "$room/measured" "$@"
  done | sort -n | head -n 1
}

for kind in $kinds; do
  IFS=: read -r what length elements <<< "$kind"
  of_kind=$count
  case $what in mset | mget) of_kind=$((count / 5)) ;; esac
  [ "$length" -le 100 ] || of_kind=$((count / 5))
  of_keys=$keys
  [ -z "$elements" ] || of_keys=$(((of_kind + elements - 1) / elements))
  case $what in
    lrange) of_kind=$(((of_kind + 99) / 100)) ;;
    lindex) of_kind=$((of_kind / (1 + elements / 1000))) ;;
    lpos) of_kind=$((of_kind / (1 + elements / 200))) ;;
    # so that few sets of 100 outgrow the 128 members that are packed
    sadd) of_kind=$((of_kind / 5)) ;;
    sinter | hgetall) of_kind=$of_keys ;;
    # half of the entries, since some streams are asked more often than others
    xdel) of_kind=$(((of_kind + 1) / 2)) ;;
    xreadgroup) of_kind=$(((of_kind + 19) / 20)) ;;
  esac
  # a member is popped at random, and the fields of a hash that isn't packed come in any order
  compared=1
  [ "$what" != spop ] || compared=0
  [ "$what" != hgetall ] || [ "$elements" -le 100 -a "$length" -le 64 ] || compared=0
  many=$(python3 bench/workloads.py "$what" "$of_keys" "$of_kind" "$length" "$room/prepared" "$room/measured" $elements)
  ours=$(best_of program "$program")
  floor=$(best_of program "$room/floor")
  theirs=
  [ -z "$server" ] || theirs=$(best_of socket "$room/socket" "$server_pid")
  echo "$many $ours $floor $theirs" | awk -v what="${what^^}" -v length_of="$length" -v keys="$of_keys" -v elements="$elements" -v compared="$compared" -v name="$(basename "$server")" '
    { printf "%s, %s of %s bytes, %d %s: redis-core %.0f, floor %.0f requests a second, %.2f of the floor",
        what, elements ? "elements" : "values", length_of, keys, elements ? "of " elements : "keys", $1 / $2, $1 / $6, $6 / $2
      same = $3 == $7
      if (NF > 9) {
        printf "; %s %.0f, %.2f times the server", name, $1 / $10, $10 / $2
        same = same && $3 == $11
      }
      printf "; resident redis-core %d, floor %d%s KiB%s\n", $4, $8, (NF > 9) ? ", " name " " $12 : "",
        !compared ? "; replies not compared" : same ? "" : "; THE REPLIES DIFFER" }'
done
