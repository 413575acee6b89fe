//! The recorded answers: a fixed list of sheets with what `plan` prints and what names holds.

use crate::cases::{FILES, cases};
use crate::generator::{Theme, sheet};
use crate::oracle::{Lent, PLAN_BYTES, answer};

const SEED: u64 = 2026;
const NUMBERS: usize = 7_000;

/// Appends a sheet with its answer: lengths and names as u32, little-endian.
fn append(list: &mut Vec<u8>, bytes: &[u8]) {
    let verdict = answer(bytes);
    let text = verdict.plan_text(bytes);
    let answer = verdict.lent(&Lent::PLAN);
    let names = answer.names();
    let number = |n: usize| (n as u32).to_le_bytes();
    list.extend_from_slice(&number(bytes.len()));
    list.extend_from_slice(bytes);
    list.extend_from_slice(&number(text.len()));
    list.extend_from_slice(text.as_bytes());
    list.extend_from_slice(&number(names.len()));
    names.iter().for_each(|n| list.extend_from_slice(&n.to_le_bytes()));
}

/// Whether a sheet belongs into the list: nearly all small ones, a few larger, none too big, long walks rarely.
fn belongs(number: usize, theme: Theme, length: usize) -> bool {
    match theme {
        _ if length > PLAN_BYTES => false,
        Theme::Way => number < 1_000,
        _ => length <= 800 || number.is_multiple_of(17),
    }
}

/// The hand-written cases first, then sheets of the generator.
pub fn list() -> (Vec<u8>, usize) {
    let (mut list, mut count) = (Vec::new(), 0);
    for case in FILES.iter().flat_map(|(_, text)| cases(text)) {
        append(&mut list, &case.sheet);
        count += 1;
    }
    for number in 0..NUMBERS {
        let (theme, bytes) = sheet(SEED, number);
        if belongs(number, theme, bytes.len()) {
            append(&mut list, &bytes);
            count += 1;
        }
    }
    (list, count)
}

/// The sheets of a list, each with its text and its names.
pub fn entries(list: &[u8]) -> Vec<(&[u8], &[u8], Vec<u32>)> {
    fn number(rest: &mut &[u8]) -> usize {
        let (head, tail) = rest.split_first_chunk().expect("a whole number");
        *rest = tail;
        u32::from_le_bytes(*head) as usize
    }
    fn bytes<'a>(rest: &mut &'a [u8]) -> &'a [u8] {
        let length = number(rest);
        let (head, tail) = rest.split_at(length);
        *rest = tail;
        head
    }
    let (mut rest, mut made) = (list, Vec::new());
    while !rest.is_empty() {
        let (sheet, text) = (bytes(&mut rest), bytes(&mut rest));
        let names = (0..number(&mut rest)).map(|_| number(&mut rest) as u32).collect();
        made.push((sheet, text, names));
    }
    made
}
