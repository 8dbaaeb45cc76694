#!/usr/bin/env bash
# A million members with scores in a sorted set whose blocks stand in a class heap: put in, given another score, their ranks, and
# ranges of ten from ranks; and the same calls on a C++ tree of scores and members that counts its nodes, with an unordered_map of the
# members beside it. Scores in a scattered and in a rising order, and 1,200,000 scores each of which falls into the middle, each a process
# of its own, in milliseconds. The program is proved in a folder of its own first.
# usage: bench/zset_object.sh; it wants rt and a compiler of C++ with the GNU library
set -euo pipefail
cd "$(dirname "$0")/.."
room=$(mktemp -d)
trap 'rm -rf "$room"' EXIT
git init -q "$room"
mkdir -p "$room/crates"
for crate in blocks class_heap collection_walk digests int_text listpack object_codec quicklist pack_pairs rehash_dict rev_cursor scan_cursor score_list score_table zset_object; do
  mkdir "$room/crates/$crate"
  for part in src specs proofs; do
    [ ! -d "crates/$crate/$part" ] || cp -r "crates/$crate/$part" "$room/crates/$crate"
  done
  grep "^$crate:" crates.txt >> "$room/crates.txt"
done
echo "zset_bench: blocks class_heap listpack object_codec zset_object" >> "$room/crates.txt"
bench="$room/crates/zset_bench"
mkdir -p "$bench"/src "$bench"/specs "$bench"/proofs/owned/{Owned/new,evens}
cat > "$bench/src/main.rt" << 'END'
//! A million members of a sorted set over a class heap, or 1,200,000 whose scores fall into the middle, by the number of words.
#![tactic(auto)]

mod owned;

use crate::owned::Owned;
use std::time::Instant;
use std::{env, io};

const COUNT: u32 = 1_000_000;

// the numbers below a million in a scattered order
fn scattered(n: u32) -> u32 {
    (u64::from(n) * 618_033 % u64::from(COUNT)) as u32
}

// a member of 13 bytes, which is no number
fn text(n: u32) -> [u8; 13] {
    let mut text = *b"member0000000";
    let mut rest = n;
    for at in 6..13usize {
        text[18 - at] = b'0' + (rest % 10) as u8;
        rest /= 10;
    }
    text
}

// the score of a turn: in a scattered order, in a rising one, or in the middle of those before
fn score(n: u32, order: usize) -> i64 {
    match order {
        0 => i64::from(scattered(n)),
        1 => i64::from(n),
        _ => {
            let half = i64::from(n / 2);
            if n % 2 == 0 { half } else { 1_200_000 - half }
        }
    }
}

fn measure(rt: &HostRuntime, order: usize) -> io::Result<()> {
    let mut owned = Owned::new(rt.alloc());
    let mut sum: u64 = 0;
    let count = if order < 2 { COUNT } else { 1_200_000 };
    let start = Instant::now(rt)?;
    for n in 0..count {
        sum = sum.wrapping_add(owned.set(&text(n), score(n, order)));
    }
    let put = start.elapsed(rt)?.as_millis();
    let start = Instant::now(rt)?;
    for n in 0..COUNT {
        sum = sum.wrapping_add(owned.rank(&text(scattered(n))));
    }
    let ranked = start.elapsed(rt)?.as_millis();
    let start = Instant::now(rt)?;
    for n in 0..COUNT {
        sum = sum.wrapping_add(owned.range(scattered(n) as usize));
    }
    let ranges = start.elapsed(rt)?.as_millis();
    let start = Instant::now(rt)?;
    for n in 0..COUNT {
        sum = sum.wrapping_add(owned.set(&text(scattered(n)), i64::from(n % 65_536)));
    }
    let again = start.elapsed(rt)?.as_millis();
    println!(rt; "in ms: put in {put}, ranks {ranked}, ranges {ranges}, other scores {again} ({sum})")
}

fn main(rt: HostRuntime) -> io::Result<()> {
    let order = env::args(&rt)?.count().saturating_sub(1);
    measure(&rt, order)
}
END
cat > "$bench/src/owned.rt" << 'END'
ghost use Rattle.class_heap.specs.Heap.{heap_blocks};
ghost use Rattle.zset_object.specs.Scored.{IsScored};

use class_heap::ClassHeap;
use object_codec::Limits;
use std::alloc::Global;
use std::marker::Model;
use zset_object::Scored;

/// A sorted set, and the heap with its blocks.
#[derive(Drop)]
pub(crate) struct Owned {
    heap: ClassHeap,
    set: Scored,
}

impl Model for Owned {
    ghost use Rattle.std.specs.Prelude.{ℕ};
    ghost use Rattle.class_heap.specs.Heap.{heap_blocks};
    ghost use Rattle.zset_object.specs.Scored.{IsScored};

    ghost Value = { ℕ };

    ghost view = { λ owned. 0 };

    ghost invariant = { λ owned. IsScored (heap_blocks owned.heap) owned.set };
}

impl Owned {
    pub(crate) fn new(alloc: Global) -> Owned {
        Owned {
            heap: ClassHeap::new(alloc),
            set: Scored::new(alloc, Limits::default(), 7),
        }
    }

    // 1 where the member is new
    pub(crate) fn set(&mut self, member: &[u8], score: i64) -> u64 {
        match self.set.set(&mut self.heap, member, score) {
            Ok(is_new) => is_new as u64,
            Err(_) => 0,
        }
    }

    // its rank, where it is a member
    pub(crate) fn rank(&self, member: &[u8]) -> u64 {
        match self.set.rank(&self.heap, member) {
            Some(rank) => rank as u64,
            None => 0,
        }
    }

    // how many of ten ranks from one on have an even score
    pub(crate) fn range(&self, from: usize) -> u64 {
        evens(&self.heap, &self.set, from)
    }
}

// How many of ten ranks from one on have an even score.
fn evens(heap: &ClassHeap, set: &Scored, from: usize) -> u64
    requires { IsScored (heap_blocks heap.now) set.now }
{
    let mut even: u64 = 0;
    let mut next = set.cursor(heap, from);
    for _ in 0..10 {
        match next {
            Some(cursor) => {
                let (_, score) = set.pair(heap, &cursor);
                even = even.wrapping_add(u64::from(score & 1 == 0));
                next = set.next(heap, &cursor);
            }
            None => return even,
        }
    }
    even
}
END
cat > "$bench/proofs/owned/Owned/new/Answers.antt" << 'END'
use Rattle.class_heap.specs.Heap.{heap_blocks}
use Rattle.zset_bench.proofs.owned.Owned.new.Goals as goal

pub invariant_of-result : goal.invariant_of-result
invariant_of-result c = c.new-2.ensures.sound (heap_blocks c.new.result)
END
cat > "$bench/proofs/owned/evens/Invariants.antt" << 'END'
use Rattle.std.specs.Prelude.{IfSome}
use Rattle.class_heap.specs.Heap.{heap_blocks}
use Rattle.zset_object.specs.Items.{IsCursor}
use Rattle.zset_bench.proofs.owned.evens.Given as goal

abbrev pub invariant-loop : goal.invariant-loop
invariant-loop l = IfSome l.next (λ cursor. IsCursor (heap_blocks l.initial.heap) l.initial.set cursor)
END
rmdir "$bench/specs"
(cd "$bench" && rt run) > "$room/log" 2>&1 || { tail -n 40 "$room/log"; exit 1; }
"${CXX:-c++}" -O2 -std=c++20 -o "$room/set" -x c++ - << 'CPP'
#include <chrono>
#include <cstdint>
#include <cstdio>
#include <cstring>
#include <ext/pb_ds/assoc_container.hpp>
#include <ext/pb_ds/tree_policy.hpp>
#include <string>
#include <unordered_map>
#include <utility>

static const uint64_t COUNT = 1000000;
using Key = std::pair<int64_t, std::string>;
using Tree = __gnu_pbds::tree<Key, __gnu_pbds::null_type, std::less<Key>, __gnu_pbds::rb_tree_tag, __gnu_pbds::tree_order_statistics_node_update>;

static uint64_t scattered(uint64_t n) { return n * 618033 % COUNT; }

static std::string name(uint64_t n) {
    char text[14];
    memcpy(text, "member0000000", 14);
    for (int at = 12; at >= 6; at--) {
        text[at] = (char)('0' + n % 10);
        n /= 10;
    }
    return std::string(text, 13);
}

static int64_t score(uint64_t n, int order) {
    if (order == 0) return (int64_t)scattered(n);
    if (order == 1) return (int64_t)n;
    return n % 2 == 0 ? (int64_t)(n / 2) : (int64_t)(1200000 - n / 2);
}

static long since(std::chrono::steady_clock::time_point start) {
    auto passed = std::chrono::steady_clock::now() - start;
    return (long)std::chrono::duration_cast<std::chrono::milliseconds>(passed).count();
}

int main(int words, char **) {
    int order = words - 1;
    Tree tree;
    std::unordered_map<std::string, int64_t> scores;
    uint64_t sum = 0;
    auto set = [&](std::string member, int64_t value) {
        auto [at, is_new] = scores.try_emplace(member, value);
        if (!is_new) {
            if (at->second == value) return;
            tree.erase(Key(at->second, member));
            at->second = value;
        }
        tree.insert(Key(value, std::move(member)));
        sum += is_new;
    };
    uint64_t count = order < 2 ? COUNT : 1200000;
    auto start = std::chrono::steady_clock::now();
    for (uint64_t n = 0; n < count; n++) set(name(n), score(n, order));
    long put = since(start);
    start = std::chrono::steady_clock::now();
    for (uint64_t n = 0; n < COUNT; n++) {
        std::string member = name(scattered(n));
        int64_t value = scores.find(member)->second;
        sum += tree.order_of_key(Key(value, std::move(member)));
    }
    long ranked = since(start);
    start = std::chrono::steady_clock::now();
    for (uint64_t n = 0; n < COUNT; n++) {
        auto at = tree.find_by_order(scattered(n));
        for (int i = 0; i < 10 && at != tree.end(); i++, at++) sum += (at->first & 1) == 0;
    }
    long ranges = since(start);
    start = std::chrono::steady_clock::now();
    for (uint64_t n = 0; n < COUNT; n++) set(name(scattered(n)), (int64_t)(n & 0xFFFF));
    long again = since(start);
    printf("in ms: put in %ld, ranks %ld, ranges %ld, other scores %ld (%lu)\n", put, ranked, ranges, again, (unsigned long)sum);
}
CPP
for words in "" "x" "x x"; do
  for turn in 1 2; do
    echo "zset_object, ${words:-scattered}: $("$bench/out/zset_bench" $words)"
    echo "C++ tree,    ${words:-scattered}: $("$room/set" $words)"
  done
done
