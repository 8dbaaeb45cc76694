#!/usr/bin/env bash
# Refuses memory in two runs, one of commands on strings and one of commands of each family behind a file with a value of each
# type that is taken: each call of malloc or realloc in turn, one a run. Each must end with all replies, or with status 8
# behind a whole reply and with its line. Prints how each ended, and fails at the first that ended otherwise.
# Then so in a run of several sessions with an EXEC in it, by session_memory.py.
# usage: bench/fail_alloc.sh, behind rt ci; it wants a compiler of C
set -euo pipefail
cd "$(dirname "$0")/.."
program=crates/top_rows/out/top_rows
[ -x "$program" ] || { echo "build it first: rt ci"; exit 2; }
room=$(mktemp -d)
trap 'rm -rf "$room"' EXIT
# stands before the C library, and refuses the call whose number is FAIL_ALLOC, counted from 1
"${CC:-cc}" -O2 -shared -fPIC -o "$room/refuse.so" -x c - << 'C'
#define _GNU_SOURCE
#include <dlfcn.h>
#include <stdlib.h>
#include <unistd.h>

static long calls, refused;

__attribute__((constructor)) static void begin(void) {
    const char *number = getenv("FAIL_ALLOC");
    refused = number ? atol(number) : 0;
    calls = 0;
}

static int refuses(void) {
    calls += 1;
    return calls == refused && write(2, "refused\n", 8) == 8;
}

void *malloc(size_t size) {
    void *(*real)(size_t) = (void *(*)(size_t))dlsym(RTLD_NEXT, "malloc");
    return refuses() ? NULL : real(size);
}

void *realloc(void *place, size_t size) {
    void *(*real)(void *, size_t) = (void *(*)(void *, size_t))dlsym(RTLD_NEXT, "realloc");
    return refuses() ? NULL : real(place, size);
}
C
# refuses each allocation of the case whose first words are given
refuse_each() {
  awk -v words="case $1" '/^case / { on = index($0, words) == 1 } on' crates/top_rows/stdin > "$room/rows"
  number=0
  while true; do
    number=$((number + 1))
    status=0
    timeout 60 env FAIL_ALLOC="$number" LD_PRELOAD="$room/refuse.so" \
      "$program" < "$room/rows" > "$room/out" 2> "$room/notes" || status=$?
    said=$(grep '^run = ' "$room/out" || true)
    case "$said" in
      'run = 0 [] as wanted') ;;
      'run = 8 [redis-core: out of memory\n] as wanted') ;;
      'run = 8 [redis-core: out of memory\n] '[0-9]*' of '[0-9]*' replies') ;;
      # it wants for the program's own bytes, and nothing was served
      '') [ "$status" -eq 1 ] || { echo "$number: the program ended with $status"; exit 1; } ;;
      *) echo "$number: $said"; exit 1 ;;
    esac
    grep -q '^refused$' "$room/notes" || break
    echo "$number: ${said:-nothing was served}"
  done
  echo "$1: all $((number - 1)) allocations were refused in turn; with none refused: $said"
}
refuse_each 'all kinds of commands'
refuse_each 'some commands of each family'
python3 bench/session_memory.py "$room/refuse.so"
