#!/usr/bin/env bash
# How long content_model takes for a word of 100,000 names: makes a small program over the crate in a folder of its own, builds and runs it.
# It prints the model, whether the word is allowed, and the milliseconds that `allows` took. Usage: bench/models.sh
set -eu
top=$(cd "$(dirname "$0")/.." && pwd)
work=$(mktemp -d)
trap 'rm -rf "$work"' EXIT
mkdir -p "$work/crates/models/src"
cp -r "$top/crates/content_model" "$work/crates/content_model"
printf 'content_model: indexmap\nmodels: content_model\n' > "$work/crates.txt"
cat > "$work/crates/models/src/main.rt" <<'MAIN'
#![tactic(auto)]

use content_model::{Model, Symbols};
use std::io;
use std::rt::Clock;
use std::time::Instant;

fn timed(rt: &(impl Print + Clock), alloc: std::alloc::Global, text: &str) -> io::Result<()> {
    let mut symbols = Symbols::new(alloc);
    let Ok(model) = Model::read(alloc, text, &mut symbols) else {
        return rt.println("no model");
    };
    let name = symbols.find("a").unwrap_or(0);
    let mut word = Vec::new(alloc);
    for _ in 0..100000u32 {
        word.push(name)?;
    }
    let start = Instant::now(rt)?;
    let allowed = model.allows(alloc, word.as_slice())?;
    let took = start.elapsed(rt)?.as_millis();
    println!(rt; "{text} {allowed} {took} ms")
}

fn main(rt: HostRuntime) -> io::Result<()> {
    timed(&rt, rt.alloc(), "(a*)*")?;
    timed(&rt, rt.alloc(), "((a|b)+,c?)*")?;
    timed(&rt, rt.alloc(), "((((a?,b)|a)+,(c|d)*)+)*")?;
    timed(&rt, rt.alloc(), "(#PCDATA|a)*")
}
MAIN
cd "$work/crates/models"
rt run < /dev/null 2> "$work/log" || { tail -n 20 "$work/log" >&2; exit 1; }
