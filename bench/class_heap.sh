#!/usr/bin/env bash
# A million blocks of 16 and of 100 bytes in a class heap: placed, read, every second one given back and as many placed
# again; and the same sequence with malloc, whose blocks are set to zeros as those of the heap are. Three turns of each,
# each a process of its own, in milliseconds. The program is proved in a folder of its own before it runs.
# usage: bench/class_heap.sh; it wants rt and a compiler of C
set -euo pipefail
cd "$(dirname "$0")/.."
room=$(mktemp -d)
trap 'rm -rf "$room"' EXIT
git init -q "$room"
mkdir -p "$room/crates"
for crate in blocks class_heap; do
  mkdir "$room/crates/$crate"
  cp -r "crates/$crate/src" "crates/$crate/specs" "crates/$crate/proofs" "$room/crates/$crate"
  grep "^$crate:" crates.txt >> "$room/crates.txt"
done
echo "class_heap_bench: blocks class_heap" >> "$room/crates.txt"
bench="$room/crates/class_heap_bench"
mkdir -p "$bench"/{src,specs} "$bench"/proofs/blocks_held/Held/{give_back,place_given,place_kept,read}
cat > "$bench/src/main.rt" << 'END'
//! A million blocks in a class heap, of 16 bytes, or of 100 where there is a word: placed, read, every second one given back and placed again.
#![tactic(auto)]

mod blocks_held;

use crate::blocks_held::Held;
use std::alloc::AllocError;
use std::env;
use std::io;
use std::time::Instant;

const COUNT: usize = 500_000;

fn place(held: &mut Held, len: usize) -> Result<(), AllocError> {
    for _number in 0..COUNT {
        held.place_kept(len)?;
        held.place_given(len)?;
    }
    Ok(())
}

fn again(held: &mut Held, len: usize) -> Result<(), AllocError> {
    for _number in 0..COUNT {
        held.place_given(len)?;
    }
    Ok(())
}

fn measure(rt: &HostRuntime, len: usize) -> io::Result<()> {
    let mut held = Held::new(rt.alloc());
    let start = Instant::now(rt)?;
    if place(&mut held, len).is_err() {
        return Ok(());
    }
    let placed = start.elapsed(rt)?.as_millis();
    let start = Instant::now(rt)?;
    let sum = held.read();
    let read = start.elapsed(rt)?.as_millis();
    let start = Instant::now(rt)?;
    for _number in 0..COUNT {
        held.give_back();
    }
    let given = start.elapsed(rt)?.as_millis();
    let start = Instant::now(rt)?;
    if again(&mut held, len).is_err() {
        return Ok(());
    }
    let placed_again = start.elapsed(rt)?.as_millis();
    println!(rt;
        "{len} bytes, in ms: placed {placed}, read {read}, half given back {given}, placed again {placed_again} ({sum})"
    )
}

fn main(rt: HostRuntime) -> io::Result<()> {
    let long = env::args(&rt)?.count() > 1;
    measure(&rt, if long { 100 } else { 16 })
}
END
cat > "$bench/src/blocks_held.rt" << 'END'
ghost use Rattle.class_heap_bench.specs.Held.{AreLive};

use blocks::{BlockRef, BlockStore, Memory};
use class_heap::ClassHeap;
use std::alloc::Global;

/// A heap, and references to its blocks: those that stay, and those that are given back.
#[derive(Drop)]
pub(crate) struct Held {
    heap: ClassHeap,
    kept: Vec<BlockRef>,
    given: Vec<BlockRef>,
    ghost live: { AreLive kept.items given.items heap },
}

impl Held {
    pub(crate) fn new(alloc: Global) -> Held {
        Held {
            heap: ClassHeap::new(alloc),
            kept: Vec::new(alloc),
            given: Vec::new(alloc),
        }
    }

    pub(crate) fn place_kept(&mut self, len: usize) -> Result<(), Memory> {
        self.kept.reserve(1)?;
        let at = self.heap.place(len)?;
        self.kept.push_reserved(at);
        Ok(())
    }

    pub(crate) fn place_given(&mut self, len: usize) -> Result<(), Memory> {
        self.given.reserve(1)?;
        let at = self.heap.place(len)?;
        self.given.push_reserved(at);
        Ok(())
    }

    pub(crate) fn read(&self) -> u64 {
        let mut sum: u64 = 0;
        for at in &self.kept {
            if let Some(byte) = self.heap.bytes(*at).last() {
                sum = sum.wrapping_add(u64::from(*byte) + 1);
            }
        }
        for at in &self.given {
            if let Some(byte) = self.heap.bytes(*at).last() {
                sum = sum.wrapping_add(u64::from(*byte) + 1);
            }
        }
        sum
    }

    pub(crate) fn give_back(&mut self) {
        if let Some(at) = self.given.pop() {
            self.heap.give_back(at);
        }
    }
}
END
cat > "$bench/specs/Lib.antt" << 'END'
pub mod Held
END
cat > "$bench/specs/Held.antt" << 'END'
use Rattle.std.specs.Prelude.{◌+◌, ◌≤◌, List}
use Rattle.blocks.specs.declared.BlockRef.{BlockRef}
use Rattle.blocks.specs.Blocks.{times, live}
use Rattle.class_heap.specs.declared.heap.ClassHeap.{ClassHeap}
use Rattle.class_heap.specs.Heap.{heap_blocks}

-- each reference of the two lists is live, and none stands there twice
abbrev pub AreLive : List BlockRef → List BlockRef → ClassHeap → Type 0
AreLive kept given heap = (r : BlockRef) → times r kept + times r given ≤ live (heap_blocks heap) r
END
cat > "$bench/proofs/Lib.antt" << 'END'
pub mod Refs
END
cat > "$bench/proofs/Refs.antt" << 'END'
-- Two lists of references, each live and none there twice, as blocks are placed and given back.
use Rattle.std.specs.Prelude.{◌≡◌, ℕ, zero, suc, ◌+◌, ◌<◌, ◌≤◌, List, [], ◌∷◌, ◌++◌, length, Some, None, IsSome, is_some, Bool, false}
use Rattle.std.proofs.Common.{arith, get_or, ap, ◌∙◌, sym, subst, inl, inr, cond}
use Rattle.blocks.specs.declared.BlockRef.{BlockRef}
use Rattle.blocks.specs.Blocks.{Blocks, times, live, ref_eq, with_block}
use Rattle.blocks.proofs.Refs.{cases_ref, ref_eq-refl, ref_eq-sym, with_block-same, with_block-other}
use Rattle.blocks.proofs.Times.{times-append}
use Rattle.blocks.proofs.Change.{cases_live}

same_count : {a b : Bool} → a ≡ b → cond a 1 zero ≡ cond b 1 zero
same_count e = ap (λ t. cond t 1 zero) e

one_same : (at : BlockRef) → times at (at ∷ []) ≡ 1
one_same at = ap (λ t. cond t 1 0 + 0) (ref_eq-refl at)

one_other : (at r : BlockRef) → ref_eq r at ≡ false → times r (at ∷ []) ≡ 0
one_other at r ne = ap (λ t. cond t 1 0 + 0) (ref_eq-sym at r ∙ ne)

live_at : (b : Blocks) (r : BlockRef) (bytes : List ℕ) → b r ≡ Some bytes → live b r ≡ 1
live_at b r bytes e = ap (λ o. cond (is_some o) 1 0) e

live_none : (b : Blocks) (r : BlockRef) → b r ≡ None → live b r ≡ 0
live_none b r e = ap (λ o. cond (is_some o) 1 0) e

-- one more reference
pub more : (b c : Blocks) (at : BlockRef) (bytes : List ℕ) (refs new rest : List BlockRef) → ((r : BlockRef) → times r refs + times r rest ≤ live b r) → b at ≡ None → c ≡ with_block b at (Some bytes) → new ≡ refs ++ at ∷ [] → (r : BlockRef) → times r new + times r rest ≤ live c r
more b c at bytes refs new rest own fresh is made r = elim (cases_ref r at) [
  | inl same ↦ subst (λ q. times q new + times q rest ≤ live c q) (sym same) (omega (arith, ap (times at) made ∙ times-append at refs (at ∷ []), one_same at, own at, live_none b at fresh, live_at c at bytes (ap (λ m. m at) is ∙ with_block-same b at (Some bytes))))
  | inr other ↦ omega (arith, ap (times r) made ∙ times-append r refs (at ∷ []), one_other at r other, own r, same_count (ap is_some (ap (λ m. m r) is ∙ with_block-other b at r (Some bytes) other)))
]

pub kept : (b c : Blocks) (refs rest : List BlockRef) → ((r : BlockRef) → times r refs + times r rest ≤ live b r) → c ≡ b → (r : BlockRef) → times r refs + times r rest ≤ live c r
kept b c refs rest own is r = subst (λ m. times r refs + times r rest ≤ live m r) (sym is) (own r)

pub swapped : (b : Blocks) (refs rest : List BlockRef) → ((r : BlockRef) → times r refs + times r rest ≤ live b r) → (r : BlockRef) → times r rest + times r refs ≤ live b r
swapped b refs rest own r = omega (arith, own r)

is_live : (b : Blocks) (r : BlockRef) → 0 < live b r → IsSome (b r)
is_live b r h = elim (cases_live b r) [ inl dead ↦ absurd (omega (arith, h, dead.0)) | inr alive ↦ alive.1 ]

pub live_last : (b : Blocks) (at : BlockRef) (left refs rest : List BlockRef) → ((r : BlockRef) → times r left + times r rest ≤ live b r) → left ≡ refs ++ at ∷ [] → IsSome (b at)
live_last b at left refs rest own made = is_live b at (omega (arith, own at, ap (times at) made ∙ times-append at refs (at ∷ []), one_same at))

pub fewer : (b c : Blocks) (at : BlockRef) (left refs rest : List BlockRef) → ((r : BlockRef) → times r left + times r rest ≤ live b r) → left ≡ refs ++ at ∷ [] → c ≡ with_block b at None → (r : BlockRef) → times r refs + times r rest ≤ live c r
fewer b c at left refs rest own made is r = elim (cases_ref r at) [
  | inl same ↦ subst (λ q. times q refs + times q rest ≤ live c q) (sym same) (omega (arith, own at, most b at, ap (times at) made ∙ times-append at refs (at ∷ []), one_same at))
  | inr other ↦ omega (arith, own r, ap (times r) made ∙ times-append r refs (at ∷ []), same_count (ap is_some (ap (λ m. m r) is ∙ with_block-other b at r None other)))
]
  where
    most : (b : Blocks) (r : BlockRef) → live b r ≤ 1
    most b r = elim (cases_live b r) [ inl dead ↦ omega (arith, dead.0) | inr alive ↦ omega (arith, alive.0) ]

pub in_list : (refs : List BlockRef) (i : ℕ) (d : BlockRef) → i < length refs → 0 < times (get_or refs i d) refs
in_list [] i d lt = absurd (omega arith)
in_list (x ∷ rest) zero d lt = omega (arith, same_count (ref_eq-refl x))
in_list (x ∷ rest) (suc i) d lt = (let r = in_list rest i d (omega arith) in omega (arith, r))

pub live_read : (b : Blocks) (refs lent rest : List BlockRef) (i : ℕ) (d : BlockRef) → ((r : BlockRef) → times r refs + times r rest ≤ live b r) → lent ≡ refs → i < length lent → IsSome (b (get_or lent i d))
live_read b refs lent rest i d own same lt = is_live b (get_or lent i d) (omega (arith, own (get_or lent i d), in_list lent i d lt, ap (times (get_or lent i d)) same))
END
cat > "$bench/proofs/blocks_held/Held/give_back/Answers.antt" << 'END'
use Rattle.class_heap.specs.Heap.{heap_blocks}
use Rattle.class_heap_bench.proofs.Refs.{live_last, fewer, swapped}
use Rattle.class_heap_bench.proofs.blocks_held.Held.give_back.Goals as goal

pub give_back-requires : goal.give_back-requires
give_back-requires c = (let s = c.args.self.now in live_last (heap_blocks s.heap) c.in-Some.at s.given.items c.pop.new.self.items s.kept.items (swapped (heap_blocks s.heap) s.kept.items s.given.items s.live) c.in-Some.ensures.items)

pub invariant_of-self : goal.invariant_of-self
invariant_of-self c = (let s = c.args.self.now in record { live = swapped (heap_blocks c.give_back.new.self) c.pop.new.self.items s.kept.items (fewer (heap_blocks s.heap) (heap_blocks c.give_back.new.self) c.in-Some.at s.given.items c.pop.new.self.items s.kept.items (swapped (heap_blocks s.heap) s.kept.items s.given.items s.live) c.in-Some.ensures.items c.give_back.ensures.ended) })
END
cat > "$bench/proofs/blocks_held/Held/place_given/Answers.antt" << 'END'
use Rattle.std.proofs.Common.{◌∙◌, ap, sym, subst, ◌++◌, ◌∷◌, [], ◌+◌, ◌≤◌}
use Rattle.blocks.specs.Blocks.{times, live}
use Rattle.class_heap.specs.Heap.{heap_blocks}
use Rattle.class_heap_bench.proofs.Refs.{more, kept, swapped}
use Rattle.class_heap_bench.proofs.blocks_held.Held.place_given.Goals as goal

pub invariant_of-self-in-Break-branch-2 : goal.invariant_of-self-in-Break-branch-2
invariant_of-self-in-Break-branch-2 c = (let s = c.args.self.now in record { live = λ r. kept (heap_blocks s.heap) (heap_blocks c.place.new.self) s.kept.items c.reserve.new.self.items (λ q. subst (λ xs. times q s.kept.items + times q xs ≤ live (heap_blocks s.heap) q) (sym c.reserve.ensures.items) (s.live q)) c.in_err-at.ensures.err_blocks r })

pub invariant_of-self-2 : goal.invariant_of-self-2
invariant_of-self-2 c = (let s = c.args.self.now in record { live = swapped (heap_blocks c.place.new.self) c.push_reserved.new.self.items s.kept.items (more (heap_blocks s.heap) (heap_blocks c.place.new.self) c.in_ok-at.at _ s.given.items c.push_reserved.new.self.items s.kept.items (swapped (heap_blocks s.heap) s.kept.items s.given.items s.live) c.in_ok-at.ensures.fresh c.in_ok-at.ensures.placed (c.push_reserved.ensures.items ∙ ap (λ l. l ++ c.in_ok-at.at ∷ []) c.reserve.ensures.items)) })
END
cat > "$bench/proofs/blocks_held/Held/place_kept/Answers.antt" << 'END'
use Rattle.std.proofs.Common.{◌∙◌, ap, sym, subst, ◌++◌, ◌∷◌, [], ◌+◌, ◌≤◌}
use Rattle.blocks.specs.Blocks.{times, live}
use Rattle.class_heap.specs.Heap.{heap_blocks}
use Rattle.class_heap_bench.proofs.Refs.{more, kept}
use Rattle.class_heap_bench.proofs.blocks_held.Held.place_kept.Goals as goal

pub invariant_of-self-in-Break-branch-2 : goal.invariant_of-self-in-Break-branch-2
invariant_of-self-in-Break-branch-2 c = (let s = c.args.self.now in record { live = λ r. kept (heap_blocks s.heap) (heap_blocks c.place.new.self) c.reserve.new.self.items s.given.items (λ q. subst (λ xs. times q xs + times q s.given.items ≤ live (heap_blocks s.heap) q) (sym c.reserve.ensures.items) (s.live q)) c.in_err-at.ensures.err_blocks r })

pub invariant_of-self-2 : goal.invariant_of-self-2
invariant_of-self-2 c = (let s = c.args.self.now in record { live = (more (heap_blocks s.heap) (heap_blocks c.place.new.self) c.in_ok-at.at _ s.kept.items c.push_reserved.new.self.items s.given.items s.live c.in_ok-at.ensures.fresh c.in_ok-at.ensures.placed (c.push_reserved.ensures.items ∙ ap (λ l. l ++ c.in_ok-at.at ∷ []) c.reserve.ensures.items)) })
END
cat > "$bench/proofs/blocks_held/Held/read/Answers.antt" << 'END'
use Rattle.class_heap.specs.Heap.{heap_blocks}
use Rattle.class_heap_bench.proofs.Refs.{live_read, swapped}
use Rattle.class_heap_bench.proofs.blocks_held.Held.read.Goals as goal

pub bytes-requires : goal.bytes-requires
bytes-requires c = (let s = c.args.self.now in live_read (heap_blocks s.heap) s.kept.items c.deref-at-items.result.now s.given.items c.loop-at.at-index _ s.live c.deref-at-items.ensures.value c.loop-at-test.true)

pub bytes-requires-in-loop-at-2 : goal.bytes-requires-in-loop-at-2
bytes-requires-in-loop-at-2 c = (let s = c.args.self.now in live_read (heap_blocks s.heap) s.given.items c.deref-at-items-2.result.now s.kept.items c.loop-at-2.at-index _ (swapped (heap_blocks s.heap) s.kept.items s.given.items s.live) c.deref-at-items-2.ensures.value c.loop-at-2-test.true)
END
(cd "$bench" && rt run) > "$room/log" 2>&1 || { tail -n 20 "$room/log"; exit 1; }
"${CC:-cc}" -O2 -o "$room/malloc" -x c - << 'C'
#include <stdio.h>
#include <stdlib.h>
#include <string.h>
#include <time.h>

enum { COUNT = 500000 };

static unsigned char *kept[COUNT], *given[COUNT];

static double now(void) {
    struct timespec time;
    clock_gettime(CLOCK_MONOTONIC, &time);
    return time.tv_sec * 1e3 + time.tv_nsec / 1e6;
}

static unsigned char *place(size_t len) {
    unsigned char *block = malloc(len);
    if (!block) abort();
    return memset(block, 0, len);
}

int main(int count, char **words) {
    size_t len = count > 1 ? 100 : 16;
    (void)words;
    double start = now();
    for (int i = 0; i < COUNT; i++) {
        kept[i] = place(len);
        given[i] = place(len);
    }
    double placed = now();
    unsigned long sum = 0;
    for (int i = 0; i < COUNT; i++) sum += kept[i][len - 1] + 1;
    for (int i = 0; i < COUNT; i++) sum += given[i][len - 1] + 1;
    double read = now();
    for (int i = COUNT - 1; i >= 0; i--) free(given[i]);
    double back = now();
    for (int i = 0; i < COUNT; i++) given[i] = place(len);
    double again = now();
    printf("%zu bytes, in ms: placed %.0f, read %.0f, half given back %.0f, placed again %.0f (%lu)\n", len,
           placed - start, read - placed, back - read, again - back, sum);
    return 0;
}
C
for word in "" long; do
  for _ in 1 2 3; do
    echo "class heap: $("$bench/out/class_heap_bench" $word)"
    echo "malloc: $("$room/malloc" $word)"
  done
done
