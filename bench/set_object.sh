#!/usr/bin/env bash
# A million members in a set whose blocks stand in a class heap: added, added again, asked for and taken out, in a scattered order;
# and the same calls on a C++ unordered_set of strings. Three turns of each with members of 12 bytes that are no numbers and with
# such that are, each a process of its own, in milliseconds. The program is proved in a folder of its own first.
# usage: bench/set_object.sh; it wants rt and a compiler of C++
set -euo pipefail
cd "$(dirname "$0")/.."
room=$(mktemp -d)
trap 'rm -rf "$room"' EXIT
git init -q "$room"
mkdir -p "$room/crates"
for crate in blocks class_heap collection_walk digests int_text intset listpack object_codec quicklist rehash_dict rev_cursor scan_cursor set_object; do
  mkdir "$room/crates/$crate"
  for part in src specs proofs; do
    [ ! -d "crates/$crate/$part" ] || cp -r "crates/$crate/$part" "$room/crates/$crate"
  done
  grep "^$crate:" crates.txt >> "$room/crates.txt"
done
echo "set_bench: blocks class_heap object_codec set_object" >> "$room/crates.txt"
bench="$room/crates/set_bench"
mkdir -p "$bench"/src "$bench"/proofs/owned/Owned/{new,remove}
cat > "$bench/src/main.rt" << 'END'
//! A million members of a set over a class heap: added, added again, asked for and taken out, with members of 12 bytes, or with numbers where there is a word.
#![tactic(auto)]

mod owned;

use crate::owned::Owned;
use std::time::Instant;
use std::{env, io};

const COUNT: u64 = 1_000_000;

// the numbers below a million in a scattered order
fn scattered(n: u64) -> u64 {
    n.wrapping_mul(618_033) % COUNT
}

// a member of 12 bytes, which is no number but where `numbers` asks for one
fn text(n: u64, numbers: bool) -> [u8; 12] {
    let mut text = if numbers { *b"100000000000" } else { *b"member000000" };
    let mut rest = n;
    for at in 6..12usize {
        text[17 - at] = b'0' + (rest % 10) as u8;
        rest /= 10;
    }
    text
}

fn measure(rt: &HostRuntime, numbers: bool) -> io::Result<()> {
    let mut owned = Owned::new(rt.alloc());
    let mut sum: u64 = 0;
    let start = Instant::now(rt)?;
    for n in 0..COUNT {
        sum = sum.wrapping_add(owned.add(&text(n, numbers)));
    }
    let added = start.elapsed(rt)?.as_millis();
    let start = Instant::now(rt)?;
    for n in 0..COUNT {
        sum = sum.wrapping_add(owned.add(&text(scattered(n), numbers)));
    }
    let again = start.elapsed(rt)?.as_millis();
    let start = Instant::now(rt)?;
    for n in 0..COUNT {
        sum = sum.wrapping_add(owned.has(&text(scattered(n), numbers)));
    }
    let asked = start.elapsed(rt)?.as_millis();
    let start = Instant::now(rt)?;
    for n in 0..COUNT {
        sum = sum.wrapping_add(owned.remove(&text(scattered(n), numbers)));
    }
    let taken = start.elapsed(rt)?.as_millis();
    println!(rt; "in ms: added {added}, again {again}, asked for {asked}, taken out {taken} ({sum})")
}

fn main(rt: HostRuntime) -> io::Result<()> {
    let numbers = env::args(&rt)?.count() > 1;
    measure(&rt, numbers)
}
END
cat > "$bench/src/owned.rt" << 'END'
use class_heap::ClassHeap;
use object_codec::Limits;
use set_object::Members;
use std::alloc::Global;
use std::marker::Model;

/// A set, and the heap with its blocks.
#[derive(Drop)]
pub(crate) struct Owned {
    heap: ClassHeap,
    members: Members,
}

impl Model for Owned {
    ghost use Rattle.std.specs.Prelude.{ℕ};
    ghost use Rattle.class_heap.specs.Heap.{heap_blocks};
    ghost use Rattle.set_object.specs.Members.{IsMembers};

    ghost Value = { ℕ };

    ghost view = { λ owned. 0 };

    ghost invariant = { λ owned. IsMembers (heap_blocks owned.heap) owned.members };
}

impl Owned {
    pub(crate) fn new(alloc: Global) -> Owned {
        Owned {
            heap: ClassHeap::new(alloc),
            members: Members::new(alloc, Limits::default(), 7),
        }
    }

    // 1 where the member is new
    pub(crate) fn add(&mut self, member: &[u8]) -> u64 {
        match self.members.add(&mut self.heap, member) {
            Ok(is_new) => is_new as u64,
            Err(_) => 0,
        }
    }

    // 1 where it is a member
    pub(crate) fn has(&self, member: &[u8]) -> u64 {
        self.members.has(&self.heap, member) as u64
    }

    // 1 where it was a member
    pub(crate) fn remove(&mut self, member: &[u8]) -> u64 {
        match self.members.remove(&mut self.heap, member) {
            Ok(was) => was as u64,
            Err(_) => 0,
        }
    }
}
END
cat > "$bench/proofs/Lib.antt" << 'END'
pub mod Left
END
cat > "$bench/proofs/Left.antt" << 'END'
-- A set after a removal is sound, also where memory to shrink its table was wanting.
use Rattle.std.specs.Prelude.{◌≡◌, ◌≢◌, Bool, true, false, Result, Ok, Err, OnErr}
use Rattle.std.proofs.Common.{refl, sym, subst, ◌∙◌}
use Rattle.blocks.specs.Blocks.{Blocks}
use Rattle.object_codec.specs.declared.form.Form.{Form}
use Rattle.object_codec.specs.declared.form.Form.TheVariants.{Intset, Listpack, Hashtable, Skiplist, Quicklist, Stream}
use Rattle.set_object.specs.declared.members.Members.{Members}
use Rattle.set_object.specs.Strings.{Strings}
use Rattle.set_object.specs.Members.{IsMembers, IsChanged, form_of}

same : (before after : Blocks) (old new : Members) → IsMembers before old → new ≡ old → after ≡ before → IsMembers after new
same before after old new sound is blocks = subst (λ m. IsMembers after m) (sym is) (subst (λ m. IsMembers m old) (sym blocks) sound)

pub left_sound : {E : Type 0} (before after : Blocks) (old new : Members) (set : Strings) (result : Result Bool E) → IsMembers before old
    → (result ≡ Ok true → IsChanged before after old new set) → (result ≡ Ok false → new ≡ old) → (result ≡ Ok false → after ≡ before)
    → OnErr result (form_of old ≢ Hashtable → new ≡ old) → OnErr result (form_of old ≢ Hashtable → after ≡ before)
    → OnErr result (form_of old ≡ Hashtable → IsChanged before after old new set) → IsMembers after new
left_sound before after old new set (Ok true) sound removed stays blocks err_set err_blocks err_removed = (removed refl).sound
left_sound before after old new set (Ok false) sound removed stays blocks err_set err_blocks err_removed = same before after old new sound (stays refl) (blocks refl)
left_sound before after old new set (Err e) sound removed stays blocks err_set err_blocks err_removed = by_form (form_of old) refl
  where
    packed : (form_of old ≢ Hashtable) → IsMembers after new
    packed apart = same before after old new sound (err_set apart) (err_blocks apart)

    by_form : (form : Form) → form_of old ≡ form → IsMembers after new
    by_form Hashtable is = (err_removed is).sound
    by_form Intset is = packed (λ h. (let bad : Intset ≡ Hashtable = sym is ∙ h in cc))
    by_form Listpack is = packed (λ h. (let bad : Listpack ≡ Hashtable = sym is ∙ h in cc))
    by_form Skiplist is = packed (λ h. (let bad : Skiplist ≡ Hashtable = sym is ∙ h in cc))
    by_form Quicklist is = packed (λ h. (let bad : Quicklist ≡ Hashtable = sym is ∙ h in cc))
    by_form Stream is = packed (λ h. (let bad : Stream ≡ Hashtable = sym is ∙ h in cc))
END
cat > "$bench/proofs/owned/Owned/new/Answers.antt" << 'END'
use Rattle.class_heap.specs.Heap.{heap_blocks}
use Rattle.set_bench.proofs.owned.Owned.new.Goals as goal

pub invariant_of-result : goal.invariant_of-result
invariant_of-result c = c.new-2.ensures.sound (heap_blocks c.new.result)
END
cat > "$bench/proofs/owned/Owned/remove/Answers.antt" << 'END'
use Rattle.class_heap.specs.Heap.{heap_blocks}
use Rattle.set_bench.proofs.Left.{left_sound}
use Rattle.set_bench.proofs.owned.Owned.remove.Goals as goal

pub invariant_of-self : goal.invariant_of-self
invariant_of-self c =
    let e = c.remove.ensures in
    left_sound (heap_blocks c.self.inside.heap) (heap_blocks c.remove.new.store) c.self.inside.members c.remove.new.self _ c.remove.result c.self.invariant e.removed e.same_set e.same_blocks e.err_set e.err_blocks e.err_removed
END
(cd "$bench" && rt run) > "$room/log" 2>&1 || { tail -n 20 "$room/log"; exit 1; }
"${CXX:-c++}" -O2 -std=c++20 -o "$room/set" -x c++ - << 'CPP'
#include <chrono>
#include <cstdint>
#include <cstdio>
#include <cstring>
#include <functional>
#include <string>
#include <string_view>
#include <unordered_set>

static const uint64_t COUNT = 1000000;

struct Hash {
    using is_transparent = void;
    size_t operator()(std::string_view text) const { return std::hash<std::string_view>{}(text); }
};

static uint64_t scattered(uint64_t n) { return n * 618033 % COUNT; }

static char text[13];

static std::string_view name(uint64_t n, bool numbers) {
    memcpy(text, numbers ? "100000000000" : "member000000", 12);
    for (int at = 11; at >= 6; at--) {
        text[at] = (char)('0' + n % 10);
        n /= 10;
    }
    return std::string_view(text, 12);
}

static long since(std::chrono::steady_clock::time_point start) {
    auto passed = std::chrono::steady_clock::now() - start;
    return (long)std::chrono::duration_cast<std::chrono::milliseconds>(passed).count();
}

int main(int count, char **) {
    bool numbers = count > 1;
    std::unordered_set<std::string, Hash, std::equal_to<>> set;
    uint64_t sum = 0;
    auto add = [&](uint64_t n) {
        std::string_view member = name(n, numbers);
        if (set.find(member) == set.end()) sum += set.emplace(member).second;
    };
    auto start = std::chrono::steady_clock::now();
    for (uint64_t n = 0; n < COUNT; n++) add(n);
    long added = since(start);
    start = std::chrono::steady_clock::now();
    for (uint64_t n = 0; n < COUNT; n++) add(scattered(n));
    long again = since(start);
    start = std::chrono::steady_clock::now();
    for (uint64_t n = 0; n < COUNT; n++) sum += set.find(name(scattered(n), numbers)) != set.end();
    long asked = since(start);
    start = std::chrono::steady_clock::now();
    for (uint64_t n = 0; n < COUNT; n++) {
        auto at = set.find(name(scattered(n), numbers));
        if (at != set.end()) {
            set.erase(at);
            sum++;
        }
    }
    long taken = since(start);
    printf("in ms: added %ld, again %ld, asked for %ld, taken out %ld (%llu)\n", added, again, asked, taken,
           (unsigned long long)sum);
    return set.size() != 0;
}
CPP
for word in "" numbers; do
  for _ in 1 2 3; do
    echo "set${word:+ of numbers}: $("$bench/out/set_bench" $word)"
    echo "unordered_set${word:+ of numbers}: $("$room/set" $word)"
  done
done
