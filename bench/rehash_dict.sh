#!/usr/bin/env bash
# A million keys in a dictionary whose key blocks stand in a class heap: put (looked for, placed and inserted), found, missed
# and taken out, in a scattered order; and the same calls on a C++ unordered_map from strings. Three turns of each with keys
# of 12 bytes and of 24, each a process of its own, in milliseconds. The program is proved in a folder of its own first.
# usage: bench/rehash_dict.sh; it wants rt and a compiler of C++
set -euo pipefail
cd "$(dirname "$0")/.."
room=$(mktemp -d)
trap 'rm -rf "$room"' EXIT
git init -q "$room"
mkdir -p "$room/crates"
for crate in blocks class_heap digests rev_cursor scan_cursor rehash_dict; do
  mkdir "$room/crates/$crate"
  cp -r "crates/$crate/src" "crates/$crate/specs" "crates/$crate/proofs" "$room/crates/$crate"
  grep "^$crate:" crates.txt >> "$room/crates.txt"
done
echo "dict_bench: blocks class_heap rehash_dict" >> "$room/crates.txt"
bench="$room/crates/dict_bench"
mkdir -p "$bench"/src "$bench"/proofs/named/Named/{put,take}
cat > "$bench/src/main.rt" << 'END'
//! A million keys in a dictionary whose key blocks stand in a class heap: put, found, missed and taken out, with keys of 12 bytes, or of 24 where there is a word.
#![tactic(auto)]

mod named;

ghost use Rattle.std.specs.Prelude.{◌≤◌};

use crate::named::Named;
use std::time::Instant;
use std::{env, io};

const COUNT: u64 = 1_000_000;

// the numbers below a million in a scattered order
fn scattered(n: u64) -> u64 {
    n.wrapping_mul(618_033) % COUNT
}

fn text(n: u64) -> [u8; 24] {
    let mut text = *b"object:profile:k00000000";
    let mut rest = n;
    for at in 16..24usize {
        text[39 - at] = b'0' + (rest % 10) as u8;
        rest /= 10;
    }
    text
}

fn measure(rt: &HostRuntime, from: usize) -> io::Result<()>
    requires { from ≤ 24 }
{
    let mut named = Named::new(rt.alloc());
    let start = Instant::now(rt)?;
    for n in 0..COUNT {
        if named.put(&text(n)[from..], n).is_err() {
            return Ok(());
        }
    }
    let put = start.elapsed(rt)?.as_millis();
    let mut sum: u64 = 0;
    let start = Instant::now(rt)?;
    for n in 0..COUNT {
        if let Some(value) = named.get(&text(scattered(n))[from..]) {
            sum = sum.wrapping_add(value);
        }
    }
    let found = start.elapsed(rt)?.as_millis();
    let start = Instant::now(rt)?;
    for n in 0..COUNT {
        if let Some(value) = named.get(&text(COUNT.wrapping_add(scattered(n)))[from..]) {
            sum = sum.wrapping_add(value);
        }
    }
    let missed = start.elapsed(rt)?.as_millis();
    let start = Instant::now(rt)?;
    for n in 0..COUNT {
        if let Some(value) = named.take(&text(scattered(n))[from..]) {
            sum = sum.wrapping_add(value);
        }
    }
    let taken = start.elapsed(rt)?.as_millis();
    println!(rt;
        "{} bytes, in ms: put {put}, found {found}, missed {missed}, taken out {taken} ({sum})",
        24 - from
    )
}

fn main(rt: HostRuntime) -> io::Result<()> {
    let long = env::args(&rt)?.count() > 1;
    measure(&rt, if long { 0 } else { 12 })
}
END
cat > "$bench/src/named.rt" << 'END'
use blocks::{BlockStore, Memory, put_block};
use class_heap::ClassHeap;
use rehash_dict::Dict;
use std::alloc::Global;
use std::marker::Model;

/// A dictionary of numbers, and the heap with the blocks of its keys.
#[derive(Drop)]
pub(crate) struct Named {
    heap: ClassHeap,
    dict: Dict<u64>,
}

impl Model for Named {
    ghost use Rattle.std.specs.Prelude.{ℕ};
    ghost use Rattle.class_heap.specs.Heap.{heap_blocks};
    ghost use Rattle.rehash_dict.specs.Keyed.{Keyed};

    ghost Value = { ℕ };

    ghost view = { λ named. 0 };

    ghost invariant = { λ named. Keyed (heap_blocks named.heap) named.dict };
}

impl Named {
    pub(crate) fn new(alloc: Global) -> Named {
        Named {
            heap: ClassHeap::new(alloc),
            dict: Dict::new(alloc, 7),
        }
    }

    pub(crate) fn get(&self, key: &[u8]) -> Option<u64> {
        let at = self.dict.find(&self.heap, key)?;
        let (_key, value) = self.dict.entry(at);
        Some(*value)
    }

    pub(crate) fn put(&mut self, key: &[u8], value: u64) -> Result<Option<u64>, Memory> {
        if let Some(at) = self.dict.find(&self.heap, key) {
            return Ok(Some(self.dict.swap_value(at, value)));
        }
        let block = put_block(&mut self.heap, key)?;
        match self.dict.insert(&self.heap, block, value) {
            Ok(_) => Ok(None),
            Err((_, error)) => Err(error),
        }
    }

    pub(crate) fn take(&mut self, key: &[u8]) -> Option<u64> {
        match self.dict.remove(&self.heap, key) {
            Some((block, value)) => {
                self.heap.give_back(block);
                Some(value)
            }
            None => None,
        }
    }
}
END
cat > "$bench/proofs/Lib.antt" << 'END'
pub mod Gone
END
cat > "$bench/proofs/Gone.antt" << 'END'
-- A key that was taken out, whose block is given back.
use Rattle.std.specs.Prelude.{◌≡◌, ℕ, List, Option, Some, None, false}
use Rattle.std.proofs.Common.{sym, ap, ◌∙◌, inl, inr}
use Rattle.std.proofs.lemmas.Bool.{cases_eq}
use Rattle.blocks.specs.declared.BlockRef.{BlockRef}
use Rattle.blocks.specs.Blocks.{Blocks, ref_eq, with_block}
use Rattle.blocks.proofs.Refs.{cases_ref, with_block-other}
use Rattle.rehash_dict.specs.Table.{Element, Table, item}
use Rattle.rehash_dict.specs.Keyed.{Keyed}
use Rattle.rehash_dict.specs.Steps.{Removes}
use Rattle.rehash_dict.proofs.Keys.{Keyed-frame}

module _ {V : Type 0} (before after : Blocks) (old new : Table V) (key : List ℕ) (ref : BlockRef) (value : V) (k : Keyed before old) (l : Keyed before new) (r : Removes before old new key ref value) (gone : after ≡ with_block before ref None) where
  other : (i : ℕ) (e : Element V) → item new i ≡ Some e → ref_eq e.key ref ≡ false
  other i e there = elim (cases_ref e.key ref) [
    | inl same ↦ elim (cases_eq i r.at) [
      | inl here ↦ (let bad : Some e ≡ None = sym there ∙ ap (item new) here ∙ r.updates.changed in cc)
      | inr ne ↦ absurd (ne (k.apart i r.at e _ (sym (r.updates.others i ne) ∙ there) r.found (ap before same)))
    ]
    | inr apart ↦ apart
  ]

  -- The dictionary stands over the blocks that are left.
  pub Keyed-gone : Keyed after new
  Keyed-gone = (Keyed-frame before after new l (λ i e there. (λ j. gone j e.key) ∙ with_block-other before ref e.key None (other i e there))).0
END
cat > "$bench/proofs/named/Named/put/Answers.antt" << 'END'
use Rattle.std.proofs.Common.{Some}
use Rattle.class_heap.specs.Heap.{heap_blocks}
use Rattle.rehash_dict.proofs.Fresh.{Keyed-fresh, Lacks-placed}
use Rattle.dict_bench.proofs.named.Named.put.Goals as goal

pub invariant_of-self : goal.invariant_of-self
invariant_of-self c = c.swap_value.ensures.keyed (heap_blocks c.self.inside.heap) c.self.invariant

pub insert-requires-clause-keyed : goal.insert-requires-clause-keyed
insert-requires-clause-keyed c = (Keyed-fresh (heap_blocks c.self.inside.heap) (heap_blocks c.put_block.new.store) c.in_ok-block.block (Some c.args.key.now) c.self.inside.dict c.self.invariant c.in_ok-block.ensures.fresh c.in_ok-block.ensures.placed).0

pub insert-requires-clause-absent : goal.insert-requires-clause-absent
insert-requires-clause-absent c = Lacks-placed (heap_blocks c.self.inside.heap) (heap_blocks c.put_block.new.store) c.in_ok-block.block c.args.key.now c.self.inside.dict c.self.invariant c.in_ok-block.ensures.fresh c.in_ok-block.ensures.placed c.in_default.ensures.none
END
cat > "$bench/proofs/named/Named/take/Answers.antt" << 'END'
use Rattle.class_heap.specs.Heap.{heap_blocks}
use Rattle.std.proofs.Common.{ap}
use Rattle.std.specs.Prelude.{is_some}
use Rattle.dict_bench.proofs.Gone.{Keyed-gone}
use Rattle.dict_bench.proofs.named.Named.take.Goals as goal

pub give_back-requires : goal.give_back-requires
give_back-requires c = ap is_some c.in-Some.ensures.removed.bytes

pub invariant_of-self : goal.invariant_of-self
invariant_of-self c = Keyed-gone (heap_blocks c.self.inside.heap) (heap_blocks c.give_back.new.self) c.self.inside.dict c.remove.new.self c.args.key.now _ _ c.self.invariant c.remove.ensures.keyed c.in-Some.ensures.removed c.give_back.ensures.ended
END
(cd "$bench" && rt run) > "$room/log" 2>&1 || { tail -n 20 "$room/log"; exit 1; }
"${CXX:-c++}" -O2 -std=c++20 -o "$room/map" -x c++ - << 'CPP'
#include <chrono>
#include <cstdint>
#include <cstdio>
#include <cstring>
#include <functional>
#include <string>
#include <string_view>
#include <unordered_map>

static const uint64_t COUNT = 1000000;

struct Hash {
    using is_transparent = void;
    size_t operator()(std::string_view text) const { return std::hash<std::string_view>{}(text); }
};

static uint64_t scattered(uint64_t n) { return n * 618033 % COUNT; }

static char text[25];

static std::string_view name(uint64_t n, size_t from) {
    memcpy(text, "object:profile:k00000000", 24);
    for (int at = 23; at >= 16; at--) {
        text[at] = (char)('0' + n % 10);
        n /= 10;
    }
    return std::string_view(text + from, 24 - from);
}

static long since(std::chrono::steady_clock::time_point start) {
    auto passed = std::chrono::steady_clock::now() - start;
    return (long)std::chrono::duration_cast<std::chrono::milliseconds>(passed).count();
}

int main(int count, char **) {
    size_t from = count > 1 ? 0 : 12;
    std::unordered_map<std::string, uint64_t, Hash, std::equal_to<>> map;
    auto start = std::chrono::steady_clock::now();
    for (uint64_t n = 0; n < COUNT; n++) map.try_emplace(std::string(name(n, from)), n);
    long put = since(start);
    uint64_t sum = 0;
    start = std::chrono::steady_clock::now();
    for (uint64_t n = 0; n < COUNT; n++) {
        auto at = map.find(name(scattered(n), from));
        if (at != map.end()) sum += at->second;
    }
    long found = since(start);
    start = std::chrono::steady_clock::now();
    for (uint64_t n = 0; n < COUNT; n++) {
        auto at = map.find(name(COUNT + scattered(n), from));
        if (at != map.end()) sum += at->second;
    }
    long missed = since(start);
    start = std::chrono::steady_clock::now();
    for (uint64_t n = 0; n < COUNT; n++) {
        auto at = map.find(name(scattered(n), from));
        if (at != map.end()) {
            sum += at->second;
            map.erase(at);
        }
    }
    long taken = since(start);
    printf("%zu bytes, in ms: put %ld, found %ld, missed %ld, taken out %ld (%llu)\n", 24 - from, put, found, missed, taken,
           (unsigned long long)sum);
    return map.size() != 0;
}
CPP
for word in "" long; do
  for _ in 1 2 3; do
    echo "dictionary: $("$bench/out/dict_bench" $word)"
    echo "unordered_map: $("$room/map" $word)"
  done
done
