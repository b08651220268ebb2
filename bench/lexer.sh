#!/bin/sh
# The speed of css_text's Lexer beside the same byte loop in Rust, on 6 MB of ordinary CSS.
#
#   bench/lexer.sh [ROUNDS]
#
# Prints the best of five times ROUNDS rounds (30) of both in MB/s, and their ratio; 0.5 or more is wanted. It needs `rt` and
# `rustc`, and works in a temporary folder: a copy of css_text and a small program over it, which is proved and built
# there, and the Rust program.
set -eu
rounds=${1:-30}
top=$(cd "$(dirname "$0")/.." && pwd)
work=$(mktemp -d)
trap 'rm -rf "$work"' EXIT

mkdir -p "$work/crates/css_text" "$work/crates/lexer_speed/src"
cp "$top/HANDLES" "$work/"
(cd "$top/crates/css_text" && tar cf - src specs proofs) | (cd "$work/crates/css_text" && tar xf -)
{
    grep '^css_text:' "$top/crates.txt"
    echo 'lexer_speed: css_text'
} >"$work/crates.txt"

cat >"$work/rule.css" <<'CSS'
/* Navigation */
.navbar > .container-fluid, .navbar-expand-lg .nav-link:not(.disabled):hover::before {
  display: flex;
  flex-wrap: inherit;
  align-items: center;
  padding: calc(var(--bs-gutter-x, 1.5rem) * .5) 0 .25rem;
  margin: -1px auto 10px;
  color: rgba(33, 37, 41, .75);
  background: #f8f9fa url("data:image/svg+xml,%3csvg viewBox='0 0 16 16'/%3e") no-repeat right .75rem center/16px 12px;
  background-image: url(../img/icons/arrow-right.svg);
  font-family: system-ui, -apple-system, "Segoe UI", Roboto, 'Helvetica Neue', sans-serif;
  transition: color .15s ease-in-out, background-color .15s ease-in-out !important;
}
@media (min-width: 992px) and (prefers-reduced-motion: no-preference) {
  .col-md-6\:active { flex: 0 0 auto; width: 50%; content: "\201C"; }
}
CSS
awk '{ text = text $0 "\n" } END { while (size < 6000000) { printf "%s", text; size += length(text) } }' "$work/rule.css" >"$work/sheet.css"

cat >"$work/crates/lexer_speed/src/main.rt" <<'RT'
// Reads a sheet from the input, lexes it again and again, and prints the pieces, the sum of their ends and the best time.
#![tactic(auto)]

use css_text::lexer::Lexer;
use std::io;
use std::time::{Duration, Instant};

// How many pieces there are, and the sum of their ends.
#[inline(never)]
fn count(src: &str) -> (u64, u64) {
    let mut lexer = Lexer::over(src);
    let mut pieces: u64 = 0;
    let mut ends: u64 = 0;
    'pieces: loop {
        match lexer.next() {
            Ok(Some(piece)) => {
                pieces = pieces.wrapping_add(1);
                ends = ends.wrapping_add(piece.span.end as u64);
            }
            Ok(None) => return (pieces, ends),
            Err(_) => return (pieces, ends),
        }
    }
}

fn main(rt: HostRuntime) -> io::Result<()> {
    let sheet = io::read_to_string(rt.alloc(), rt.stdin())?;
    let mut best = Duration::MAX;
    let mut found = (0, 0);
    for _round in 0..ROUNDS {
        let start = Instant::now(&rt)?;
        found = count(sheet.as_str());
        best = best.min(start.elapsed(&rt)?);
    }
    let nanos = best.as_nanos();
    let (pieces, ends) = found;
    println!(rt; "{pieces} {ends} {nanos}")?;
    Ok(())
}
RT
sed -i "s/ROUNDS/$rounds/" "$work/crates/lexer_speed/src/main.rt"

mkdir -p "$work/crates/lexer_speed/proofs/count"
cat >"$work/crates/lexer_speed/proofs/count/Invariants.antt" <<'ANTT'
use Rattle.std.proofs.Common.{length}
use Rattle.lexer_speed.proofs.count.Given as goal

abbrev pub decreases-pieces : goal.decreases-pieces
decreases-pieces l = length l.lexer.pieces
ANTT

cat >"$work/loop.rs" <<'RS'
use std::io::Read;
use std::time::Instant;

#[derive(Clone, Copy, PartialEq)]
enum Kind { Space, Comment, Quoted, Url, AtWord, Word, Single }

fn is_space(b: u8) -> bool { matches!(b, b' ' | b'\t' | b'\n' | b'\r' | 12) }
fn is_quote(b: u8) -> bool { matches!(b, b'"' | b'\'') }
fn is_single(b: u8) -> bool { matches!(b, b'{' | b'}' | b'(' | b')' | b'[' | b']' | b':' | b';' | b',') }
fn ends_word(b: u8) -> bool { is_space(b) || is_quote(b) || is_single(b) || b == b'@' }
fn byte_at(s: &[u8], i: usize) -> u8 { if i < s.len() { s[i] } else { 0 } }
fn spaces_end(s: &[u8], mut i: usize) -> usize {
    while i < s.len() && is_space(s[i]) { i += 1; }
    i
}
fn unit_end(s: &[u8], i: usize) -> usize { if s[i] == b'\\' && i + 1 < s.len() { i + 2 } else { i + 1 } }
fn units_end(s: &[u8], mut i: usize) -> usize {
    while i < s.len() {
        if ends_word(s[i]) || (s[i] == b'/' && byte_at(s, i + 1) == b'*') { return i; }
        i = unit_end(s, i);
    }
    i
}
fn through(s: &[u8], mut i: usize, last: u8) -> Option<usize> {
    while i < s.len() {
        if s[i] == last { return Some(i + 1); }
        i = unit_end(s, i);
    }
    None
}
fn through_comment(s: &[u8], mut i: usize) -> Option<usize> {
    while i < s.len() {
        if s[i] == b'*' && byte_at(s, i + 1) == b'/' { return Some(i + 2); }
        i += 1;
    }
    None
}
fn begins_url(s: &[u8], i: usize) -> bool {
    byte_at(s, i).to_ascii_lowercase() == b'u' && byte_at(s, i + 1).to_ascii_lowercase() == b'r'
        && byte_at(s, i + 2).to_ascii_lowercase() == b'l' && byte_at(s, i + 3) == b'('
        && !is_quote(byte_at(s, spaces_end(s, i + 4)))
}
fn piece_at(s: &[u8], i: usize) -> Option<(Kind, usize)> {
    let c = s[i];
    if is_space(c) { Some((Kind::Space, spaces_end(s, i + 1))) }
    else if c == b'/' && byte_at(s, i + 1) == b'*' { through_comment(s, i + 2).map(|end| (Kind::Comment, end)) }
    else if is_quote(c) { through(s, i + 1, c).map(|end| (Kind::Quoted, end)) }
    else if begins_url(s, i) { through(s, i + 4, b')').map(|end| (Kind::Url, end)) }
    else if c == b'@' { Some((Kind::AtWord, units_end(s, i + 1))) }
    else if is_single(c) { Some((Kind::Single, i + 1)) }
    else { Some((Kind::Word, units_end(s, i))) }
}
#[inline(never)]
fn count(s: &[u8]) -> (u64, u64) {
    let (mut pieces, mut ends, mut at) = (0u64, 0u64, 0);
    while at < s.len() {
        match piece_at(s, at) {
            Some((_, end)) => { pieces += 1; ends += end as u64; at = end; }
            None => break,
        }
    }
    (pieces, ends)
}
fn main() {
    let mut sheet = Vec::new();
    std::io::stdin().read_to_end(&mut sheet).unwrap();
    let (mut best, mut found) = (u128::MAX, (0, 0));
    for _ in 0..ROUNDS {
        let start = Instant::now();
        found = count(std::hint::black_box(&sheet));
        best = best.min(start.elapsed().as_nanos());
    }
    println!("{} {} {}", found.0, found.1, best);
}
RS
sed -i "s/ROUNDS/$rounds/" "$work/loop.rs"

rustc -O -A dead_code -o "$work/loop" "$work/loop.rs"
if ! (cd "$work/crates/css_text" && rt lib && cd ../lexer_speed && rt run <"$work/sheet.css") >"$work/log" 2>&1; then
    cat "$work/log"
    exit 1
fi
size=$(wc -c <"$work/sheet.css")
# by turns, so that both meet the same load
for _ in 1 2 3 4 5; do
    echo "$("$work/crates/lexer_speed/out/lexer_speed" <"$work/sheet.css") $("$work/loop" <"$work/sheet.css")"
done | awk -v size="$size" '
    $1 != $4 || $2 != $5 { print "the two differ: " $0; exit 1 }
    !pieces || $3 < proved { proved = $3 }
    !pieces || $6 < plain { plain = $6 }
    { pieces = $1 }
    END {
        printf "%d bytes, %d pieces\n", size, pieces
        printf "proved lexer  %6.1f MB/s\n", size * 1000 / proved
        printf "Rust loop     %6.1f MB/s\n", size * 1000 / plain
        printf "ratio         %6.2f\n", plain / proved
    }'
