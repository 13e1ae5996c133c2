#!/usr/bin/env bash
# Times ten shows of 200, 400, 800 and 1,600 short paragraphs under a stylesheet with a template for each: the time for each
# paragraph should stay about the same. An input has at most 16,384 bytes, so that there is room for no more.
set -eu
cd "$(dirname "$0")/.."
program=$(bash tests/build.sh)
work=$(mktemp -d)
trap 'rm -rf "$work"' EXIT
for count in 200 400 800 1600; do
    {
        sed '/^!document$/,$d' samples/pages.serna
        printf '!document\n(d\n'
        for _ in $(seq "$count"); do printf '(p\n-a\n)p\n'; done
        printf ')d\n!script\n'
        for _ in $(seq 10); do echo show; done
    } >"$work/in"
    echo "$count paragraphs, ten shows:"
    ( TIMEFORMAT='  %R s'; time "$program" <"$work/in" >"$work/out" ) 2>&1
    [ "$(grep -c '^line' "$work/out")" = "$((count * 10))" ]
done
