#!/usr/bin/env bash
# Times frozen_tree: makes a small program over the crate in a folder of its own, builds and runs it. It prints how long it takes to build a
# map of 20,000 nodes in one call, to change one text at a time in a map of 100,000 nodes, 50,000 times with each map kept (and the memory
# that a change takes), to read 1,000,000 texts at random, and, beside them, to clone a plain HashMap of 100,000 texts. Usage: bench/frozen.sh
set -eu
top=$(cd "$(dirname "$0")/.." && pwd)
work=$(mktemp -d)
trap 'rm -rf "$work"' EXIT
mkdir -p "$work/crates/frozen/src"
for crate in serna_kinds frozen_tree; do
    mkdir "$work/crates/$crate"
    cp -r "$top/crates/$crate/"{src,specs,proofs} "$work/crates/$crate/"
done
printf 'serna_kinds: indexmap sqlite_items\nfrozen_tree: serna_kinds sqlite_items boxcar\nfrozen: serna_kinds frozen_tree\n' > "$work/crates.txt"
cat > "$work/crates/frozen/src/main.rt" <<'MAIN'
#![tactic(auto)]

use frozen_tree::{CellChange, Frozen, KeptValue, Revisions};
use serna_kinds::{Cell, CellValue, Chars, Facet, NodeName, SourceView};
use std::alloc::Global;
use std::collections::HashMap;
use std::io;
use std::rt::Files;
use std::time::Instant;

const BUILT: u32 = 20_000;
const NODES: u32 = 100_000;
const CHANGES: u64 = 50_000;
const READS: u32 = 1_000_000;

fn cell(node: u32, facet: Facet) -> Cell {
    Cell {
        node: NodeName(node),
        facet,
    }
}

// A text and a parent for each node.
fn nodes(alloc: Global, count: u32) -> io::Result<Vec<CellChange>> {
    let text = Chars::from_text(alloc, "a text of some thirty characters")?;
    let mut changes = Vec::new(alloc);
    for node in 0..count {
        changes.push(CellChange {
            cell: cell(node, Facet::Text),
            value: Some(KeptValue::Text(text.copy()?)),
        })?;
        changes.push(CellChange {
            cell: cell(node, Facet::Up),
            value: Some(KeptValue::Up(Some(NodeName(0)))),
        })?;
    }
    Ok(changes)
}

// The bytes of memory that the program has in use.
fn in_use<R: Files + Alloc>(rt: &R) -> io::Result<u64> {
    let text = std::fs::read_to_string(rt, "/proc/self/statm")?;
    let pages = text.split(' ').nth(1).unwrap_or("0");
    Ok(pages.parse::<u64>().unwrap_or(0).saturating_mul(4096))
}

fn main(rt: HostRuntime) -> io::Result<()> {
    let alloc = rt.alloc();
    let changes = nodes(alloc, BUILT)?;
    let start = Instant::now(&rt)?;
    let built = Frozen::new().with_cells(alloc, &changes)?;
    println!(rt; "built {} nodes: {} ms", BUILT, start.elapsed(&rt)?.as_millis())?;
    drop(built);

    let map = Frozen::new().with_cells(alloc, &nodes(alloc, NODES)?)?;
    let revisions = Revisions::new(alloc)?;
    let before = in_use(&rt)?;
    let start = Instant::now(&rt)?;
    let mut now = map.copy()?;
    let mut seed = 1u32;
    for revision in 0..CHANGES {
        seed = seed.wrapping_mul(1664525).wrapping_add(1013904223);
        let text = Chars::from_text(alloc, "another text")?;
        let change = CellChange {
            cell: cell(seed % NODES, Facet::Text),
            value: Some(KeptValue::Text(text)),
        };
        now = now.with_cells_at(alloc, revision, &[change])?;
        revisions.keep(alloc, revision, now.copy()?)?;
    }
    let took = start.elapsed(&rt)?.as_millis();
    let each = in_use(&rt)?.saturating_sub(before) / CHANGES;
    println!(rt; "{} changes at {} nodes: {} ms, {} bytes each", CHANGES, NODES, took, each)?;

    let start = Instant::now(&rt)?;
    let mut length = 0usize;
    for _ in 0..READS {
        seed = seed.wrapping_mul(1664525).wrapping_add(1013904223);
        if let Some(CellValue::Text(text)) = now.read(cell(seed % NODES, Facet::Text)) {
            length = length.wrapping_add(text.len());
        }
    }
    println!(rt; "{} reads at random: {} ms ({} bytes of text)", READS, start.elapsed(&rt)?.as_millis(), length)?;

    let mut plain = HashMap::new(alloc);
    for node in 0..NODES {
        plain.insert(node, node as u64)?;
    }
    let start = Instant::now(&rt)?;
    let copy = plain.clone()?;
    println!(rt; "one clone of a HashMap of {} numbers: {} us", copy.len(), start.elapsed(&rt)?.as_micros())
}
MAIN
cd "$work/crates/frozen"
rt run < /dev/null 2> "$work/log" || { tail -n 20 "$work/log" >&2; exit 1; }
