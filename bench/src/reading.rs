//! Reading a job text beside a plain reader: the recursive-descent reader of the tests, written in
//! ordinary Rust.

use crate::clock;
use crate::families;
use crate::families::need;
use crate::job::text;
use crate::library::{Lent, NEEDS};
use crate::plain;
use crate::random::Random;
use crate::spread::{median, number, Spread};
use crate::table::{disagreement, table, REPEATED};
use crate::vjolthar::{COLUMNS, FORBIDDEN, NAME_BYTES, TEXT};

const REPEATS: usize = 15;

/// A row for each kind of text.
pub fn readings(count: usize, lent: &mut Lent) {
    let typical: Vec<Vec<u8>> = families::thesis(COLUMNS)
        .jobs(count)
        .into_iter()
        .map(|job| job.text.into_bytes())
        .collect();
    let large = large(count);
    let damaged_typical = damaged(&typical);
    let damaged_large = damaged(&large);
    let kinds = [
        ("typical", typical),
        ("large", large),
        ("typical, damaged", damaged_typical),
        ("large, damaged", damaged_large),
    ];
    let rows: Vec<_> = kinds
        .iter()
        .map(|(name, texts)| row(name, texts, lent))
        .collect();
    table(
        &[
            "Texts",
            "How many, of these refused",
            "Bytes",
            "Ours, microseconds",
            "Plain reader / ours",
            REPEATED,
        ],
        &rows,
    );
}

fn row(name: &str, texts: &[Vec<u8>], lent: &mut Lent) -> Vec<String> {
    let (mut ours, mut ratios, mut factors, mut refused) = (vec![], vec![], vec![], 0);
    let plain_read = unseen();
    for text in texts {
        refused += usize::from(agree(text, lent) != 0);
        let mut pairs = Vec::new();
        for _ in 0..REPEATS {
            let seconds = clock::timed(|| lent.read(text));
            pairs.push((seconds, clock::timed(|| plain_read(text))));
        }
        let ratio = Spread::new(pairs.iter().map(|pair| pair.1 / pair.0));
        ours.push(1e6 * median(pairs.iter().map(|pair| pair.0)));
        ratios.push(ratio.median().value);
        factors.push(ratio.factor());
    }
    vec![
        name.to_string(),
        format!("{}, {refused}", texts.len()),
        Spread::new(texts.iter().map(|text| text.len() as f64)).counts(),
        Spread::new(ours).shown(),
        Spread::new(ratios).shown(),
        number(median(factors)),
    ]
}

/// The plain reader, where the compiler does not see which function is called, so that it leaves out
/// nothing of what is not looked at afterwards.
fn unseen() -> fn(&[u8]) -> plain::Reading {
    let read: fn(&[u8]) -> plain::Reading = plain::read;
    // SAFETY: the pointer to the function lives through the call.
    unsafe { std::ptr::read_volatile(&read) }
}

/// Both readers answer the same, or the benchmark ends. The refusal's number.
fn agree(text: &[u8], lent: &mut Lent) -> u16 {
    let theirs = plain::read(text);
    let ours = lent.read(text);
    let names: Vec<u8> = theirs
        .names
        .iter()
        .flat_map(|name| [name, &[0; NAME_BYTES][name.len()..]].concat())
        .collect();
    let same = (ours.refusal, ours.place, ours.columns, ours.needs)
        == (theirs.refusal, theirs.place, theirs.columns, theirs.needs)
        && lent.forbidden[..ours.sets] == theirs.forbidden
        && lent.marks[..ours.marked] == theirs.marks
        && lent.names[..names.len()] == names;
    if !same {
        let words = format!(
            "the plain reader disagrees: {theirs:?}, ours {} at {}",
            ours.refusal, ours.place
        );
        disagreement(&words, &String::from_utf8_lossy(text));
    }
    ours.refusal
}

/// Texts with long names and as many lines as there may be, filled up with forbidden sets to just
/// under the longest.
fn large(count: usize) -> Vec<Vec<u8>> {
    let mut random = Random::new(8192);
    let names: Vec<String> = (0..COLUMNS)
        .map(|column| format!("longcolumn{column:02}"))
        .collect();
    let one = |_| {
        let needs: Vec<_> = (0..NEEDS)
            .map(|_| need(&mut random, COLUMNS, 28, 50))
            .collect();
        let mut forbidden: Vec<_> = (0..FORBIDDEN).map(|_| random.columns(COLUMNS, 2)).collect();
        loop {
            let written = text(&names, &forbidden, &needs);
            if written.len() + NAME_BYTES + 1 > TEXT {
                return written.into_bytes();
            }
            let next = random.below(FORBIDDEN);
            let size = (forbidden[next].len() + 1).min(COLUMNS);
            forbidden[next] = random.columns(COLUMNS, size);
        }
    };
    (0..count).map(one).collect()
}

/// Each text with one byte changed, or cut short, at a random place.
fn damaged(texts: &[Vec<u8>]) -> Vec<Vec<u8>> {
    let mut random = Random::new(77);
    let signs = b"abc012,+&|()=\n ";
    let mut one = |text: &Vec<u8>| {
        let mut text = text.clone();
        let place = random.below(text.len());
        match random.below(4) {
            0 => text.truncate(place),
            _ => text[place] = signs[random.below(signs.len())],
        }
        text
    };
    texts.iter().map(&mut one).collect()
}
