#!/usr/bin/env bash
# How long dependency_log takes for 400,000 edges: makes a small program over the crate in a folder of its own, builds and runs it.
# It prints the milliseconds for 40,000 puts of 10 cells each, for asking each of 100,000 cells for its slots, and for dropping every slot.
# Usage: bench/edges.sh
set -eu
top=$(cd "$(dirname "$0")/.." && pwd)
work=$(mktemp -d)
trap 'rm -rf "$work"' EXIT
mkdir -p "$work/crates/edges/src"
for crate in index_lists serna_kinds dependency_log; do cp -r "$top/crates/$crate" "$work/crates/$crate"; done
cat > "$work/crates.txt" <<'CRATES'
serna_kinds: indexmap sqlite_items
index_lists:
dependency_log: index_lists serna_kinds indexmap
edges: dependency_log serna_kinds
CRATES
cat > "$work/crates/edges/src/main.rt" <<'MAIN'
#![tactic(auto)]

use dependency_log::Log;
use serna_kinds::{Cell, Facet, NodeName};
use std::io;
use std::rt::Clock;
use std::time::Instant;

const SLOTS: u64 = 40_000;
const CELLS: u64 = 100_000;

// The cell with a number; numbers past the last one begin anew.
fn cell(number: u64) -> Cell {
    Cell { node: NodeName((number % CELLS) as u32), facet: Facet::Text }
}

fn main(rt: HostRuntime) -> io::Result<()> {
    let alloc = rt.alloc();
    let mut log = Log::new(alloc);
    let start = Instant::now(&rt)?;
    for slot in 0..SLOTS {
        let mut cells = Vec::new(alloc);
        for turn in 0..10 {
            cells.push(cell(slot * 3 + turn * 7919))?;
        }
        log.put(alloc, slot, cells.as_slice())?;
    }
    let put = start.elapsed(&rt)?.as_millis();
    let start = Instant::now(&rt)?;
    let mut told = 0u64;
    for number in 0..CELLS {
        for _slot in log.slots_of(cell(number)) {
            told = told.wrapping_add(1);
        }
    }
    let asked = start.elapsed(&rt)?.as_millis();
    let start = Instant::now(&rt)?;
    for slot in 0..SLOTS {
        log.drop_slot(slot);
    }
    let dropped = start.elapsed(&rt)?.as_millis();
    println!(rt; "put {put} ms, asked {told} edges in {asked} ms, dropped {dropped} ms")
}
MAIN
cd "$work/crates/edges"
rt try < /dev/null 2> "$work/log" || { tail -n 20 "$work/log" >&2; exit 1; }
