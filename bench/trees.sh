#!/usr/bin/env bash
# How long linked_tree takes for 1,000,000 nodes: makes a small program over the crate in a folder of its own, builds and runs it.
# It prints the milliseconds for making and linking the nodes, for a walk over all of them, and for 1,000,000 questions of document order.
# Usage: bench/trees.sh
set -eu
top=$(cd "$(dirname "$0")/.." && pwd)
work=$(mktemp -d)
trap 'rm -rf "$work"' EXIT
mkdir -p "$work/crates/trees/src"
for crate in index_lists linked_tree; do cp -r "$top/crates/$crate" "$work/crates/$crate"; done
printf 'index_lists:\nlinked_tree: index_lists sqlite_items\ntrees: linked_tree\n' > "$work/crates.txt"
cat > "$work/crates/trees/src/main.rt" <<'MAIN'
#![tactic(auto)]

use linked_tree::Arena;
use std::io;
use std::rt::Clock;
use std::time::Instant;

const NODES: u32 = 1_000_000;

// Each node is the child of the one an eighth of its number, so that there are seven levels.
fn link(arena: &mut Arena, node: u32) {
    let parent = (node - 1) / 8;
    let fits = node < arena.count() && arena.parent(node).is_none() && arena.first(node).is_none();
    if fits && parent < node {
        arena.link_last(parent, node);
    }
}

fn main(rt: HostRuntime) -> io::Result<()> {
    let mut arena = Arena::new(rt.alloc());
    let start = Instant::now(&rt)?;
    for node in 0..NODES {
        if arena.count() < NODES {
            arena.make()?;
        }
        if node > 0 {
            link(&mut arena, node);
        }
    }
    let built = start.elapsed(&rt)?.as_millis();
    let start = Instant::now(&rt)?;
    let mut kids = 0u64;
    for node in 0..arena.count() {
        kids += arena.kids(node).count() as u64;
    }
    let walked = start.elapsed(&rt)?.as_millis();
    let start = Instant::now(&rt)?;
    let mut before = 0u64;
    for node in 1..arena.count() {
        if arena.before(node - 1, node) {
            before += 1;
        }
    }
    let asked = start.elapsed(&rt)?.as_millis();
    println!(rt; "built {built} ms, walked {kids} in {walked} ms, asked {before} in {asked} ms")
}
MAIN
cd "$work/crates/trees"
rt try < /dev/null 2> "$work/log" || { tail -n 20 "$work/log" >&2; exit 1; }
