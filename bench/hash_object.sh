#!/usr/bin/env bash
# A million fields in a hash whose blocks stand in a class heap: set, set again to another value, asked for and taken out, in a
# scattered order; and the same calls on a C++ unordered_map of strings. Three turns of each, with fields and values of 12 bytes, each a
# process of its own, in milliseconds. The program is proved in a folder of its own first.
# usage: bench/hash_object.sh; it wants rt and a compiler of C++
set -euo pipefail
cd "$(dirname "$0")/.."
room=$(mktemp -d)
trap 'rm -rf "$room"' EXIT
git init -q "$room"
mkdir -p "$room/crates"
for crate in blocks class_heap collection_walk digests int_text listpack object_codec pack_pairs quicklist rehash_dict rev_cursor scan_cursor hash_object; do
  mkdir "$room/crates/$crate"
  for part in src specs proofs; do
    [ ! -d "crates/$crate/$part" ] || cp -r "crates/$crate/$part" "$room/crates/$crate"
  done
  grep "^$crate:" crates.txt >> "$room/crates.txt"
done
echo "hash_bench: blocks class_heap object_codec hash_object listpack" >> "$room/crates.txt"
bench="$room/crates/hash_bench"
mkdir -p "$bench"/src "$bench"/proofs/owned/Owned/{new,remove}
cat > "$bench/src/main.rt" << 'END'
//! A million fields of a hash over a class heap: set, set again, asked for and taken out.
#![tactic(auto)]

mod owned;

use crate::owned::Owned;
use std::io;
use std::time::Instant;

const COUNT: u64 = 1_000_000;

// the numbers below a million in a scattered order
fn scattered(n: u64) -> u64 {
    n.wrapping_mul(618_033) % COUNT
}

// a text of 12 bytes: a word of six, and the number
fn text(word: [u8; 6], n: u64) -> [u8; 12] {
    let mut text = [0; 12];
    text[..6].copy_from_slice(&word);
    let mut rest = n;
    for at in 6..12usize {
        text[17 - at] = b'0' + (rest % 10) as u8;
        rest /= 10;
    }
    text
}

fn main(rt: HostRuntime) -> io::Result<()> {
    let mut owned = Owned::new(rt.alloc());
    let mut sum: u64 = 0;
    let start = Instant::now(&rt)?;
    for n in 0..COUNT {
        sum = sum.wrapping_add(owned.set(&text(*b"field.", n), &text(*b"value.", n)));
    }
    let added = start.elapsed(&rt)?.as_millis();
    let start = Instant::now(&rt)?;
    for n in 0..COUNT {
        sum = sum.wrapping_add(owned.set(&text(*b"field.", scattered(n)), &text(*b"other.", n)));
    }
    let again = start.elapsed(&rt)?.as_millis();
    let start = Instant::now(&rt)?;
    for n in 0..COUNT {
        sum = sum.wrapping_add(owned.length(&text(*b"field.", scattered(n))));
    }
    let asked = start.elapsed(&rt)?.as_millis();
    let start = Instant::now(&rt)?;
    for n in 0..COUNT {
        sum = sum.wrapping_add(owned.remove(&text(*b"field.", scattered(n))));
    }
    let taken = start.elapsed(&rt)?.as_millis();
    println!(rt; "in ms: added {added}, again {again}, asked for {asked}, taken out {taken} ({sum})")
}
END
cat > "$bench/src/owned.rt" << 'END'
use class_heap::ClassHeap;
use hash_object::Fields;
use listpack::Element;
use object_codec::Limits;
use std::alloc::Global;
use std::marker::Model;

/// A hash, and the heap with its blocks.
#[derive(Drop)]
pub(crate) struct Owned {
    heap: ClassHeap,
    fields: Fields,
}

impl Model for Owned {
    ghost use Rattle.std.specs.Prelude.{ℕ};
    ghost use Rattle.class_heap.specs.Heap.{heap_blocks};
    ghost use Rattle.hash_object.specs.Fields.{IsFields};

    ghost Value = { ℕ };

    ghost view = { λ owned. 0 };

    ghost invariant = { λ owned. IsFields (heap_blocks owned.heap) owned.fields };
}

impl Owned {
    pub(crate) fn new(alloc: Global) -> Owned {
        Owned {
            heap: ClassHeap::new(alloc),
            fields: Fields::new(alloc, Limits::default(), 7),
        }
    }

    // 1 where the field is new
    pub(crate) fn set(&mut self, field: &[u8], value: &[u8]) -> u64 {
        match self.fields.set(&mut self.heap, field, value) {
            Ok(is_new) => is_new as u64,
            Err(_) => 0,
        }
    }

    // the length of a field's value
    pub(crate) fn length(&self, field: &[u8]) -> u64 {
        match self.fields.get(&self.heap, field) {
            Some(Element::Text(text)) => text.len() as u64,
            _ => 0,
        }
    }

    // 1 where the field was there
    pub(crate) fn remove(&mut self, field: &[u8]) -> u64 {
        match self.fields.remove(&mut self.heap, field) {
            Ok(was) => was as u64,
            Err(_) => 0,
        }
    }
}
END
cat > "$bench/proofs/Lib.antt" << 'END'
pub mod Left
END
cat > "$bench/proofs/Left.antt" << 'END'
-- A hash after a removal is sound, also where memory to shrink its table was wanting.
use Rattle.std.specs.Prelude.{◌≡◌, ◌≢◌, Bool, true, false, Result, Ok, Err, OnErr}
use Rattle.std.proofs.Common.{refl, sym, subst, ◌∙◌}
use Rattle.blocks.specs.Blocks.{Blocks}
use Rattle.object_codec.specs.declared.form.Form.{Form}
use Rattle.object_codec.specs.declared.form.Form.TheVariants.{Intset, Listpack, Hashtable, Skiplist, Quicklist, Stream}
use Rattle.hash_object.specs.declared.fields.Fields.{Fields}
use Rattle.hash_object.specs.Maps.{FieldMap}
use Rattle.hash_object.specs.Fields.{IsFields, IsChanged, form_of}

same : (before after : Blocks) (old new : Fields) → IsFields before old → new ≡ old → after ≡ before → IsFields after new
same before after old new sound is blocks = subst (λ f. IsFields after f) (sym is) (subst (λ m. IsFields m old) (sym blocks) sound)

pub left_sound : {E : Type 0} (before after : Blocks) (old new : Fields) (map : FieldMap) (result : Result Bool E) → IsFields before old
    → (result ≡ Ok true → IsChanged before after old new map) → (result ≡ Ok false → new ≡ old) → (result ≡ Ok false → after ≡ before)
    → OnErr result (form_of old ≢ Hashtable → new ≡ old) → OnErr result (form_of old ≢ Hashtable → after ≡ before)
    → OnErr result (form_of old ≡ Hashtable → IsChanged before after old new map) → IsFields after new
left_sound before after old new map (Ok true) sound removed stays blocks err_fields err_blocks err_removed = (removed refl).sound
left_sound before after old new map (Ok false) sound removed stays blocks err_fields err_blocks err_removed = same before after old new sound (stays refl) (blocks refl)
left_sound before after old new map (Err e) sound removed stays blocks err_fields err_blocks err_removed = by_form (form_of old) refl
  where
    packed : (form_of old ≢ Hashtable) → IsFields after new
    packed apart = same before after old new sound (err_fields apart) (err_blocks apart)

    by_form : (form : Form) → form_of old ≡ form → IsFields after new
    by_form Hashtable is = (err_removed is).sound
    by_form Intset is = packed (λ h. (let bad : Intset ≡ Hashtable = sym is ∙ h in cc))
    by_form Listpack is = packed (λ h. (let bad : Listpack ≡ Hashtable = sym is ∙ h in cc))
    by_form Skiplist is = packed (λ h. (let bad : Skiplist ≡ Hashtable = sym is ∙ h in cc))
    by_form Quicklist is = packed (λ h. (let bad : Quicklist ≡ Hashtable = sym is ∙ h in cc))
    by_form Stream is = packed (λ h. (let bad : Stream ≡ Hashtable = sym is ∙ h in cc))
END
cat > "$bench/proofs/owned/Owned/new/Answers.antt" << 'END'
use Rattle.class_heap.specs.Heap.{heap_blocks}
use Rattle.hash_bench.proofs.owned.Owned.new.Goals as goal

pub invariant_of-result : goal.invariant_of-result
invariant_of-result c = c.new-2.ensures.sound (heap_blocks c.new.result)
END
cat > "$bench/proofs/owned/Owned/remove/Answers.antt" << 'END'
use Rattle.class_heap.specs.Heap.{heap_blocks}
use Rattle.hash_bench.proofs.Left.{left_sound}
use Rattle.hash_bench.proofs.owned.Owned.remove.Goals as goal

pub invariant_of-self : goal.invariant_of-self
invariant_of-self c =
    let e = c.remove.ensures in
    left_sound (heap_blocks c.self.inside.heap) (heap_blocks c.remove.new.store) c.self.inside.fields c.remove.new.self _ c.remove.result c.self.invariant e.removed e.same_fields e.same_blocks e.err_fields e.err_blocks e.err_removed
END
(cd "$bench" && rt run) > "$room/log" 2>&1 || { tail -n 20 "$room/log"; exit 1; }
"${CXX:-c++}" -O2 -std=c++20 -o "$room/map" -x c++ - << 'CPP'
#include <chrono>
#include <cstdint>
#include <cstdio>
#include <cstring>
#include <functional>
#include <string>
#include <string_view>
#include <unordered_map>

static const uint64_t COUNT = 1000000;

struct Hash {
    using is_transparent = void;
    size_t operator()(std::string_view text) const { return std::hash<std::string_view>{}(text); }
};

static uint64_t scattered(uint64_t n) { return n * 618033 % COUNT; }

struct Text {
    char bytes[12];
    Text(const char *word, uint64_t n) {
        memcpy(bytes, word, 6);
        for (int at = 11; at >= 6; at--) {
            bytes[at] = (char)('0' + n % 10);
            n /= 10;
        }
    }
    operator std::string_view() const { return std::string_view(bytes, 12); }
};

static long since(std::chrono::steady_clock::time_point start) {
    auto passed = std::chrono::steady_clock::now() - start;
    return (long)std::chrono::duration_cast<std::chrono::milliseconds>(passed).count();
}

int main() {
    std::unordered_map<std::string, std::string, Hash, std::equal_to<>> map;
    uint64_t sum = 0;
    auto set = [&](std::string_view field, std::string_view value) {
        auto at = map.find(field);
        if (at == map.end()) {
            sum += map.emplace(field, value).second;
        } else {
            at->second = value;
        }
    };
    auto start = std::chrono::steady_clock::now();
    for (uint64_t n = 0; n < COUNT; n++) set(Text("field.", n), Text("value.", n));
    long added = since(start);
    start = std::chrono::steady_clock::now();
    for (uint64_t n = 0; n < COUNT; n++) set(Text("field.", scattered(n)), Text("other.", n));
    long again = since(start);
    start = std::chrono::steady_clock::now();
    for (uint64_t n = 0; n < COUNT; n++) {
        auto at = map.find(std::string_view(Text("field.", scattered(n))));
        if (at != map.end()) sum += at->second.size();
    }
    long asked = since(start);
    start = std::chrono::steady_clock::now();
    for (uint64_t n = 0; n < COUNT; n++) {
        auto at = map.find(std::string_view(Text("field.", scattered(n))));
        if (at != map.end()) {
            map.erase(at);
            sum++;
        }
    }
    long taken = since(start);
    printf("in ms: added %ld, again %ld, asked for %ld, taken out %ld (%llu)\n", added, again, asked, taken,
           (unsigned long long)sum);
    return map.size() != 0;
}
CPP
for _ in 1 2 3; do
  echo "hash: $("$bench/out/hash_bench")"
  echo "unordered_map: $("$room/map")"
done
