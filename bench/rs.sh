#!/bin/sh
# Times the calls of `rs_code` on words of 136 symbols with t = 8 and of 255 with t = 16: builds a small
# proved program in a folder of its own, runs it, and prints the best of seven rounds of each call, in
# nanoseconds a symbol or a word.
set -eu

top=$(CDPATH='' cd -- "$(dirname -- "$0")/.." && pwd -P)
folder=$(mktemp -d)
trap 'rm -rf "$folder"' EXIT
mkdir -p "$folder/crates/rs_times/src"
for crate in gf256 rs_code; do
    mkdir "$folder/crates/$crate"
    for part in src specs proofs; do
        cp -r "$top/crates/$crate/$part" "$folder/crates/$crate/"
    done
done
printf 'gf256:\nrs_code: gf256\nrs_times: rs_code\n' >"$folder/crates.txt"
echo 'Handles allowed: none.' >"$folder/HANDLES"
cat >"$folder/crates/rs_times/src/main.rt" <<'PROGRAM'
//! Times the calls of `rs_code` on words of one length.
#![tactic(auto)]

ghost use Rattle.std.specs.Prelude.{◌≡◌, ◌+◌, ◌*◌, ◌%◌, ◌^◌, ◌<◌, ◌≤◌, ℕ, length, IfOk};

use rs_code::{Coder, correct, parity};
use std::io;
use std::rt::Clock;
use std::time::Instant;

/// The calls of a round, of which the fastest of seven counts.
const CALLS: u32 = 1000;

fn main(rt: HostRuntime) -> io::Result<()> {
    time_words(&rt, 8, &mut [0; 136])?;
    time_words(&rt, 16, &mut [0; 255])?;
    time_interleaves(&rt, 8, &[3; 600], &mut [0; 80])?;
    time_interleaves(&rt, 16, &[3; 1115], &mut [0; 160])
}

/// What is called on a word.
enum Call {
    Parity,
    Clean,
    Correct,
    OneParity,
    OneCorrect,
    Make,
}

/// Prints the times of the calls on a word of this length.
fn time_words(rt: &(impl Clock + Print), t: u32, word: &mut [u8]) -> io::Result<()>
    requires least { 1 ≤ t }
    requires most { t ≤ 16 }
    requires long { 2 * t < length word.old }
    requires short { length word.old ≤ 255 }
{
    let coder = Coder::new(t);
    let symbols = word.len();
    let checked = (symbols - 2 * t as usize) as u128;
    let tenths = best(rt, &Call::Parity, &coder, t, word)? * 10 / checked;
    println!(rt; "t = {t}, {symbols} symbols: Coder::parity {tenths} tenths of a nanosecond a symbol")?;
    let tenths = best(rt, &Call::Clean, &coder, t, word)? * 10 / symbols as u128;
    println!(rt; "t = {t}, {symbols} symbols: Coder::is_code_word {tenths} tenths a symbol")?;
    let whole = best(rt, &Call::Correct, &coder, t, word)?;
    println!(rt; "t = {t}, {symbols} symbols: Coder::correct with t errors {whole} a word")?;
    let whole = best(rt, &Call::OneParity, &coder, t, word)?;
    println!(rt; "t = {t}, {symbols} symbols: parity {whole} a word")?;
    let whole = best(rt, &Call::OneCorrect, &coder, t, word)?;
    println!(rt; "t = {t}, {symbols} symbols: correct with t errors {whole} a word")?;
    let whole = best(rt, &Call::Make, &coder, t, word)?;
    println!(rt; "t = {t}: Coder::new {whole}")
}

/// The nanoseconds of a call, in the fastest of seven rounds.
fn best(rt: &impl Clock, call: &Call, coder: &Coder, t: u32, word: &mut [u8]) -> io::Result<u128>
    requires least { 1 ≤ t }
    requires most { t ≤ 16 }
    requires coder { coder.now ≡ t }
    requires long { 2 * t < length word.old }
    requires short { length word.old ≤ 255 }
    ensures { IfOk result (λ n. n < 2 ^ 100) }
{
    let mut least = u128::MAX;
    for _round in 0..7 {
        let start = Instant::now(rt)?;
        for number in 0..CALLS {
            make_call(call, coder, t, word, (number % 255) as u8);
        }
        least = least.min(start.elapsed(rt)?.as_nanos());
    }
    Ok(least / u128::from(CALLS) % (1 << 100))
}

fn make_call(call: &Call, coder: &Coder, t: u32, word: &mut [u8], number: u8)
    requires least { 1 ≤ t }
    requires most { t ≤ 16 }
    requires coder { coder.now ≡ t }
    requires long { 2 * t < length word.old }
    requires short { length word.old ≤ 255 }
{
    let at = word.len() - 2 * t as usize;
    match call {
        Call::Parity => {
            word[0] = number;
            let (front, checks) = word.split_at_mut(at);
            coder.parity(front, checks);
        }
        Call::Clean => word[0] ^= u8::from(coder.is_code_word(word)),
        Call::Correct => {
            damage(word, t, number);
            let _count = coder.correct(word);
        }
        Call::OneParity => {
            word[0] = number;
            let (front, checks) = word.split_at_mut(at);
            parity(front, t, checks);
        }
        Call::OneCorrect => {
            damage(word, t, number);
            let _count = correct(word, t);
        }
        Call::Make => make_coder(t, word),
    }
}

/// Makes a coder and asks it once. It stays a function of its own: a function that keeps a coder sets all
/// of the coder's room to 0 each time it begins, and the time of that would count with every other call.
#[inline(never)]
fn make_coder(t: u32, word: &mut [u8])
    requires least { 1 ≤ t }
    requires most { t ≤ 16 }
    requires long { 2 * t < length word.old }
    requires short { length word.old ≤ 255 }
{
    word[0] ^= u8::from(Coder::new(t).is_code_word(word));
}

/// Changes t symbols.
fn damage(word: &mut [u8], t: u32, number: u8)
    requires most { t ≤ 16 }
    requires long { 2 * t < length word.old }
{
    for j in 0..t as usize {
        let place = (number as usize + 7 * j) % word.len();
        word[place] ^= number | 1;
    }
}

/// Prints the time of the check symbols of five interleaves side by side.
fn time_interleaves(rt: &(impl Clock + Print), t: u32, symbols: &[u8], out: &mut [u8]) -> io::Result<()>
    requires least { 1 ≤ t }
    requires most { t ≤ 16 }
    requires whole { length symbols.now % 5 ≡ 0 }
    requires some { 1 ≤ length symbols.now }
    requires room { length out.old ≡ 2 * t * 5 }
    requires short { length symbols.now + length out.old ≤ 255 * 5 }
{
    let coder = Coder::new(t);
    let mut least = u128::MAX;
    for _round in 0..7 {
        let start = Instant::now(rt)?;
        for _number in 0..CALLS {
            coder.interleaved_parity(symbols, 5, out);
        }
        least = least.min(start.elapsed(rt)?.as_nanos());
    }
    let tenths = least / 100 / symbols.len() as u128;
    println!(rt; "t = {t}, five interleaves: Coder::interleaved_parity {tenths} tenths a symbol")
}
PROGRAM
log=$folder/log
(cd "$folder/crates/rs_times" && rt run </dev/null) >"$log" 2>&1 || {
    tail -n 20 "$log" >&2
    echo "bench: the program could not be built" >&2
    exit 1
}
grep '^t = ' "$log"
