#!/usr/bin/env bash
# Times source_tree: makes a small program over the crates in a folder of its own and runs it without proof. It prints how long it takes
# to begin a source of 100,001 nodes, to change one text at a time 50,000 times, and to put a child in and take it out 10,000 times.
# Usage: bench/source.sh
set -eu
top=$(cd "$(dirname "$0")/.." && pwd)
work=$(mktemp -d)
trap 'rm -rf "$work"' EXIT
mkdir -p "$work/crates/source/src"
lower="serna_kinds tree_lines source_model frozen_tree source_primitives source_steps source_tree"
for crate in $lower; do
    mkdir "$work/crates/$crate"
    cp -r "$top/crates/$crate/"{src,specs,proofs} "$work/crates/$crate/"
    grep "^$crate:" "$top/crates.txt" >> "$work/crates.txt"
done
echo "source: sqlite_items boxcar $lower" >> "$work/crates.txt"
cat > "$work/crates/source/src/main.rt" <<'MAIN'
#![tactic(auto)]

use serna_kinds::{Chars, Items, NameTable, NodeName};
use source_primitives::{Primitive, SubItem};
use source_tree::SourceTree;
use std::alloc::Global;
use std::io;
use std::time::Instant;
use tree_lines::{Line, read_tree};

const PARAGRAPHS: u32 = 50_000;
const CHANGES: u32 = 50_000;
const CHILDREN: u32 = 10_000;

fn push(alloc: Global, lines: &mut Vec<Line>, bytes: &[u8]) -> io::Result<()> {
    lines.push(Line {
        number: 1,
        bytes: Items::from_slice(alloc, bytes)?,
    })?;
    Ok(())
}

// A document of so many paragraphs: the numbers are 1 for the outermost element, and for each paragraph an even one with the odd
// one of its text behind it.
fn begun(alloc: Global, lines: &[Line]) -> io::Result<SourceTree> {
    let mut names = NameTable::new(alloc);
    match read_tree(alloc, lines, &mut names) {
        Ok(tree) => Ok(SourceTree::begin(alloc, &tree)?),
        Err(_) => Err(io::ErrorKind::InvalidData.into()),
    }
}

fn main(rt: HostRuntime) -> io::Result<()> {
    let alloc = rt.alloc();
    let mut lines = Vec::new(alloc);
    push(alloc, &mut lines, b"(d")?;
    for _ in 0..PARAGRAPHS {
        push(alloc, &mut lines, b"(p")?;
        push(alloc, &mut lines, b"-a text of some thirty characters")?;
        push(alloc, &mut lines, b")p")?;
    }
    push(alloc, &mut lines, b")d")?;
    let start = Instant::now(&rt)?;
    let mut source = begun(alloc, &lines)?;
    println!(rt; "read and begun, {} nodes: {} ms", source.made(), start.elapsed(&rt)?.as_millis())?;

    let start = Instant::now(&rt)?;
    let mut seed = 1u32;
    for _ in 0..CHANGES {
        seed = seed.wrapping_mul(1664525).wrapping_add(1013904223);
        let node = NodeName(2 * ((seed >> 8) % PARAGRAPHS) + 3);
        let piece = Chars::from_text(alloc, "x")?;
        source.apply(alloc, &Primitive::InsertText(node, 2, piece))?;
    }
    println!(rt; "{} insertions into texts: {} ms", CHANGES, start.elapsed(&rt)?.as_millis())?;

    let start = Instant::now(&rt)?;
    for _ in 0..CHILDREN {
        seed = seed.wrapping_mul(1664525).wrapping_add(1013904223);
        let node = NodeName(2 * ((seed >> 8) % PARAGRAPHS) + 2);
        let mut items = Items::new(alloc);
        items.push(SubItem::Comment(NodeName(source.made() + 1), Chars::from_text(alloc, "c")?))?;
        let undoing = source.apply(alloc, &Primitive::InsertChild(node, 0, items))?;
        source.apply(alloc, &undoing)?;
    }
    println!(rt; "{} children put in and taken out: {} ms", CHILDREN, start.elapsed(&rt)?.as_millis())
}
MAIN
cd "$work/crates/source"
# What the program prints is of the compiled run; the interpreter, which runs it beside, is stopped after a few steps.
rt try --seconds 900 --steps 1000 < /dev/null > "$work/out" 2> "$work/log" || true
grep -h ' ms$' "$work/out" "$work/log" | sed 's/^| //' || { tail -n 20 "$work/log" >&2; exit 1; }
