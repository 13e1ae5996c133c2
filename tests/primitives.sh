#!/usr/bin/env bash
# Applies each primitive to a small source first, in the middle and last, compares the lines with those written here, and takes it back.
# Then it applies random primitives and takes them back, 1,000 one by one and 1,000 together from the last to the first: each time
# every cell has to be what it was. It makes a small program over the crates in a folder of its own and runs it without proof.
# Usage: tests/primitives.sh
set -eu
top=$(cd "$(dirname "$0")/.." && pwd)
work=$(mktemp -d)
trap 'rm -rf "$work"' EXIT
mkdir -p "$work/crates/primitives/src"
lower="serna_kinds tree_lines source_model frozen_tree source_primitives source_steps source_tree"
for crate in $lower; do
    mkdir "$work/crates/$crate"
    cp -r "$top/crates/$crate/"{src,specs,proofs} "$work/crates/$crate/"
    grep "^$crate:" "$top/crates.txt" >> "$work/crates.txt"
done
echo "primitives: sqlite_items boxcar $lower" >> "$work/crates.txt"
cat > "$work/crates/primitives/src/main.rt" <<'MAIN'
#![tactic(auto)]

use frozen_tree::Frozen;
use serna_kinds::{AttrPair, Cell, CellValue, Chars, Facet, Items, NameId, NameTable, NodeName, SourceView};
use source_primitives::{Primitive, SubItem};
use source_steps::{Difference, Said, body_at, kids_in};
use source_tree::SourceTree;
use std::alloc::Global;
use std::io;
use std::slice;
use tree_lines::{Line, read_tree};

const ROUNDS: usize = 1_000;

// The document of the table: the numbers of its nodes are 1 for `d`, 2 for the text, 3 for `e`, 4 for `f`, 5 for the text in it, and
// 6 for `g`.
const SMALL: [&[u8]; 13] = [
    b"(d", b"Aa 1", b"Ab 2", b"Ac 3", b"-abc", b"(e", b"(f", b"-deep", b")f", b")e", b"(g", b")g", b")d",
];

const ROWS: [&[u8]; 24] = [
    b"Cfirst", b"(d", b"Aa one", b"Ab two", b"Ac three", b"-some words", b"(e", b"Ab x", b"-more", b"(e", b"-deep",
    b"(e", b")e", b"Cinside", b")e", b"-behind", b")e", b"(f", b"Ac y", b"Aa z", b")f", b"-end", b")d", b"Clast",
];

#[derive(Drop)]
struct Random {
    seed: u32,
}

impl Random {
    fn below(&mut self, count: usize) -> usize {
        self.seed = self.seed.wrapping_mul(1664525).wrapping_add(1013904223);
        (self.seed >> 8) as usize % count
    }
}

fn text(alloc: Global, characters: &str) -> io::Result<Chars> {
    Ok(Chars::from_text(alloc, characters)?)
}

fn begun(alloc: Global, rows: &[&[u8]], names: &mut NameTable) -> io::Result<SourceTree> {
    let mut lines = Vec::new(alloc);
    for row in rows {
        lines.push(Line {
            number: 1,
            bytes: Items::from_slice(alloc, row)?,
        })?;
    }
    match read_tree(alloc, &lines, names) {
        Ok(tree) => Ok(SourceTree::begin(alloc, &tree)?),
        Err(_) => Err(io::ErrorKind::InvalidData.into()),
    }
}

// The names of an element's attributes.
fn attribute_names(alloc: Global, source: &SourceTree, node: u32) -> io::Result<Vec<NameId>> {
    let mut found = Vec::new(alloc);
    let cell = Cell {
        node: NodeName(node),
        facet: Facet::Attrs,
    };
    if let Some(CellValue::Attrs(pairs)) = source.view().read(cell) {
        for pair in pairs {
            found.push(pair.name)?;
        }
    }
    Ok(found)
}

// A text, or an element with an element, a text and a comment in it.
fn subtree(alloc: Global, made: u32, name: NameId, random: &mut Random) -> io::Result<Items<SubItem>> {
    let mut items = Items::new(alloc);
    if random.below(2) == 0 {
        items.push(SubItem::Text(NodeName(made + 1), text(alloc, "t")?))?;
        return Ok(items);
    }
    items.push(SubItem::Begin(NodeName(made + 1), name, Items::new(alloc)))?;
    items.push(SubItem::Begin(NodeName(made + 2), name, Items::new(alloc)))?;
    items.push(SubItem::Text(NodeName(made + 3), text(alloc, "u")?))?;
    items.push(SubItem::Finish)?;
    items.push(SubItem::Comment(NodeName(made + 4), text(alloc, "v")?))?;
    items.push(SubItem::Finish)?;
    Ok(items)
}

fn in_text(alloc: Global, node: NodeName, characters: &Chars, random: &mut Random) -> io::Result<Primitive> {
    let len = characters.as_text().len();
    let from = random.below(len + 1);
    let to = from + random.below(len - from + 1);
    if random.below(2) == 0 {
        return Ok(Primitive::InsertText(node, from, text(alloc, "xy")?));
    }
    Ok(Primitive::RemoveText(node, from, to))
}

fn in_element(
    alloc: Global,
    source: &SourceTree,
    node: NodeName,
    name: NameId,
    pairs: &[AttrPair],
    attributes: &[NameId],
    random: &mut Random,
) -> io::Result<Option<Primitive>> {
    let kids = kids_in(source.view(), node).len();
    let attribute = attributes[random.below(attributes.len())];
    match random.below(5) {
        0 => {
            let place = random.below(kids + 1);
            let items = subtree(alloc, source.made(), name, random)?;
            Ok(Some(Primitive::InsertChild(node, place, items)))
        }
        1 => {
            if kids == 0 {
                return Ok(None);
            }
            Ok(Some(Primitive::RemoveChild(node, random.below(kids))))
        }
        2 => Ok(Some(Primitive::SetAttr(node, attribute, text(alloc, "value")?))),
        3 => {
            if pairs.is_empty() {
                return Ok(None);
            }
            let place = random.below(pairs.len());
            Ok(Some(Primitive::RemoveAttr(node, pairs[place].name)))
        }
        _ => {
            for pair in pairs {
                if pair.name.0 == attribute.0 {
                    return Ok(None);
                }
            }
            let place = random.below(pairs.len() + 1);
            Ok(Some(Primitive::PutAttr(node, place, attribute, text(alloc, "put")?)))
        }
    }
}

// A primitive that may be applied, where the node that is hit has one.
fn picked(alloc: Global, source: &SourceTree, attributes: &[NameId], random: &mut Random) -> io::Result<Option<Primitive>> {
    let node = NodeName(1 + random.below(source.made() as usize) as u32);
    let Some(said) = body_at(source.view(), node) else {
        return Ok(None);
    };
    match said {
        Said::Root => Ok(None),
        Said::Comment(_) => Ok(None),
        Said::Text(characters) => Ok(Some(in_text(alloc, node, characters, random)?)),
        Said::Element(name, pairs) => in_element(alloc, source, node, name, pairs, attributes, random),
    }
}

// On how many cells of the nodes with these numbers the maps differ.
fn differences(alloc: Global, old: &Frozen, new: &Frozen, made: u32) -> io::Result<usize> {
    let mut cells = Vec::new(alloc);
    for number in 0..made + 1 {
        for facet in [Facet::Label, Facet::Kids, Facet::Up, Facet::Attrs, Facet::Text] {
            cells.push(Cell {
                node: NodeName(number),
                facet,
            })?;
        }
    }
    let found = Difference::between(alloc, old, new, &cells)?;
    Ok(found.cells.cells().len())
}

fn comment(alloc: Global) -> io::Result<Items<SubItem>> {
    let mut items = Items::new(alloc);
    items.push(SubItem::Comment(NodeName(7), text(alloc, "n")?))?;
    Ok(items)
}

// The primitive of a row; `a`, `b` and `c` are the names of the attributes, `other` is one that the element does not have.
fn primitive_at(alloc: Global, row: usize, names: &[NameId], other: NameId) -> io::Result<Primitive> {
    let (d, words) = (NodeName(1), NodeName(2));
    Ok(match row {
        0 => Primitive::InsertText(words, 0, text(alloc, "x")?),
        1 => Primitive::InsertText(words, 1, text(alloc, "x")?),
        2 => Primitive::InsertText(words, 3, text(alloc, "x")?),
        3 => Primitive::RemoveText(words, 0, 1),
        4 => Primitive::RemoveText(words, 1, 2),
        5 => Primitive::RemoveText(words, 2, 3),
        6 => Primitive::InsertChild(d, 0, comment(alloc)?),
        7 => Primitive::InsertChild(d, 1, comment(alloc)?),
        8 => Primitive::InsertChild(d, 3, comment(alloc)?),
        9 => Primitive::RemoveChild(d, 0),
        10 => Primitive::RemoveChild(d, 1),
        11 => Primitive::RemoveChild(d, 2),
        12 => Primitive::SetAttr(d, names[0], text(alloc, "v")?),
        13 => Primitive::SetAttr(d, names[1], text(alloc, "v")?),
        14 => Primitive::SetAttr(d, names[2], text(alloc, "v")?),
        15 => Primitive::SetAttr(d, other, text(alloc, "v")?),
        16 => Primitive::RemoveAttr(d, names[0]),
        17 => Primitive::RemoveAttr(d, names[1]),
        18 => Primitive::RemoveAttr(d, names[2]),
        19 => Primitive::PutAttr(d, 0, other, text(alloc, "v")?),
        20 => Primitive::PutAttr(d, 1, other, text(alloc, "v")?),
        _ => Primitive::PutAttr(d, 3, other, text(alloc, "v")?),
    })
}

const SMALL_LINES: &str = "(d\nAa 1\nAb 2\nAc 3\n-abc\n(e\n(f\n-deep\n)f\n)e\n(g\n)g\n)d\n";

// The lines that each row leaves.
const LEFT: [&str; 22] = [
    "(d\nAa 1\nAb 2\nAc 3\n-xabc\n(e\n(f\n-deep\n)f\n)e\n(g\n)g\n)d\n",
    "(d\nAa 1\nAb 2\nAc 3\n-axbc\n(e\n(f\n-deep\n)f\n)e\n(g\n)g\n)d\n",
    "(d\nAa 1\nAb 2\nAc 3\n-abcx\n(e\n(f\n-deep\n)f\n)e\n(g\n)g\n)d\n",
    "(d\nAa 1\nAb 2\nAc 3\n-bc\n(e\n(f\n-deep\n)f\n)e\n(g\n)g\n)d\n",
    "(d\nAa 1\nAb 2\nAc 3\n-ac\n(e\n(f\n-deep\n)f\n)e\n(g\n)g\n)d\n",
    "(d\nAa 1\nAb 2\nAc 3\n-ab\n(e\n(f\n-deep\n)f\n)e\n(g\n)g\n)d\n",
    "(d\nAa 1\nAb 2\nAc 3\nCn\n-abc\n(e\n(f\n-deep\n)f\n)e\n(g\n)g\n)d\n",
    "(d\nAa 1\nAb 2\nAc 3\n-abc\nCn\n(e\n(f\n-deep\n)f\n)e\n(g\n)g\n)d\n",
    "(d\nAa 1\nAb 2\nAc 3\n-abc\n(e\n(f\n-deep\n)f\n)e\n(g\n)g\nCn\n)d\n",
    "(d\nAa 1\nAb 2\nAc 3\n(e\n(f\n-deep\n)f\n)e\n(g\n)g\n)d\n",
    "(d\nAa 1\nAb 2\nAc 3\n-abc\n(g\n)g\n)d\n",
    "(d\nAa 1\nAb 2\nAc 3\n-abc\n(e\n(f\n-deep\n)f\n)e\n)d\n",
    "(d\nAa v\nAb 2\nAc 3\n-abc\n(e\n(f\n-deep\n)f\n)e\n(g\n)g\n)d\n",
    "(d\nAa 1\nAb v\nAc 3\n-abc\n(e\n(f\n-deep\n)f\n)e\n(g\n)g\n)d\n",
    "(d\nAa 1\nAb 2\nAc v\n-abc\n(e\n(f\n-deep\n)f\n)e\n(g\n)g\n)d\n",
    "(d\nAa 1\nAb 2\nAc 3\nAg v\n-abc\n(e\n(f\n-deep\n)f\n)e\n(g\n)g\n)d\n",
    "(d\nAb 2\nAc 3\n-abc\n(e\n(f\n-deep\n)f\n)e\n(g\n)g\n)d\n",
    "(d\nAa 1\nAc 3\n-abc\n(e\n(f\n-deep\n)f\n)e\n(g\n)g\n)d\n",
    "(d\nAa 1\nAb 2\n-abc\n(e\n(f\n-deep\n)f\n)e\n(g\n)g\n)d\n",
    "(d\nAg v\nAa 1\nAb 2\nAc 3\n-abc\n(e\n(f\n-deep\n)f\n)e\n(g\n)g\n)d\n",
    "(d\nAa 1\nAg v\nAb 2\nAc 3\n-abc\n(e\n(f\n-deep\n)f\n)e\n(g\n)g\n)d\n",
    "(d\nAa 1\nAb 2\nAc 3\nAg v\n-abc\n(e\n(f\n-deep\n)f\n)e\n(g\n)g\n)d\n",
];

fn element_name(source: &SourceTree, node: NodeName, otherwise: NameId) -> NameId {
    let Some(said) = body_at(source.view(), node) else {
        return otherwise;
    };
    match said {
        Said::Element(name, _) => name,
        Said::Root => otherwise,
        Said::Text(_) => otherwise,
        Said::Comment(_) => otherwise,
    }
}

// How many rows leave other lines, or are not taken back, or show while they are only staged.
fn wrong_rows(alloc: Global) -> io::Result<usize> {
    let mut names = NameTable::new(alloc);
    let mut wrong = 0usize;
    for (row, wanted) in LEFT.iter().enumerate() {
        let mut source = begun(alloc, &SMALL, &mut names)?;
        let attributes = attribute_names(alloc, &source, 1)?;
        let other = element_name(&source, NodeName(6), attributes[0]);
        let start = source.freeze()?;
        let primitive = primitive_at(alloc, row, &attributes, other)?;
        let staged = source.after(alloc, slice::from_ref(&primitive))?;
        if staged.changed().is_empty() || source.lines(alloc, &names)?.as_text() != SMALL_LINES {
            wrong += 1;
        }
        drop(staged);
        let undoing = source.apply(alloc, &primitive)?;
        if source.lines(alloc, &names)?.as_text() != *wanted || source.taken() != 1 {
            wrong += 1;
        }
        source.apply(alloc, &undoing)?;
        let back = differences(alloc, &start, source.view(), source.made())?;
        if back > 0 || source.lines(alloc, &names)?.as_text() != SMALL_LINES {
            wrong += 1;
        }
    }
    Ok(wrong)
}

fn main(rt: HostRuntime) -> io::Result<()> {
    let alloc = rt.alloc();
    let rows = wrong_rows(alloc)?;
    println!(rt; "{} rows, {} wrong", LEFT.len(), rows)?;
    let mut random = Random { seed: 1 };
    let mut names = NameTable::new(alloc);
    let mut source = begun(alloc, &ROWS, &mut names)?;
    let attributes = attribute_names(alloc, &source, 2)?;
    let mut kinds = [0usize; 7];
    let mut wrong = 0usize;

    let mut done = 0;
    while done < ROUNDS {
        let Some(primitive) = picked(alloc, &source, &attributes, &mut random)? else {
            continue;
        };
        let kind = match primitive {
            Primitive::InsertText(_, _, _) => 0,
            Primitive::RemoveText(_, _, _) => 1,
            Primitive::InsertChild(_, _, _) => 2,
            Primitive::RemoveChild(_, _) => 3,
            Primitive::SetAttr(_, _, _) => 4,
            Primitive::RemoveAttr(_, _) => 5,
            Primitive::PutAttr(_, _, _, _) => 6,
        };
        kinds[kind] += 1;
        let before = source.freeze()?;
        let undoing = source.apply(alloc, &primitive)?;
        source.apply(alloc, &undoing)?;
        if differences(alloc, &before, source.view(), source.made())? > 0 {
            wrong += 1;
        }
        done += 1;
    }

    let start = source.freeze()?;
    let mut undoings = Items::new(alloc);
    let mut done = 0;
    let mut unseen = 0usize;
    while done < ROUNDS {
        let Some(primitive) = picked(alloc, &source, &attributes, &mut random)? else {
            continue;
        };
        let before = source.freeze()?;
        undoings.push(source.apply(alloc, &primitive)?)?;
        if differences(alloc, &before, source.view(), source.made())? == 0 {
            unseen += 1;
        }
        done += 1;
    }
    let far = differences(alloc, &start, source.view(), source.made())?;
    while let Some(undoing) = undoings.pop() {
        source.apply(alloc, &undoing)?;
    }
    let back = differences(alloc, &start, source.view(), source.made())?;
    let tried = kinds[0] > 0 && kinds[1] > 0 && kinds[2] > 0 && kinds[3] > 0 && kinds[4] > 0 && kinds[5] > 0 && kinds[6] > 0;
    if wrong == 0 && back == 0 && far > 0 && tried && unseen < ROUNDS {
        println!(rt; "{} primitives taken back one by one, {} together", ROUNDS, ROUNDS)
    } else {
        println!(rt; "wrong: {} of {}, and {} cells at the end ({} before)", wrong, ROUNDS, back, far)
    }
}
MAIN
cd "$work/crates/primitives"
said=$(rt try < /dev/null 2> "$work/log") || { tail -n 20 "$work/log" >&2; exit 1; }
echo "$said"
[ "$said" = "22 rows, 0 wrong
1000 primitives taken back one by one, 1000 together" ]
