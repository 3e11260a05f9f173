//! The calls that programs read from standard input, as bytes: five numbers of 16 bits, low
//! byte first (tag, words of the book lent, size of what is lent beside it, a number, how many
//! bytes are carried), then the bytes carried.

use crate::books::Words;
use crate::layout::Word;

/// A call's four numbers before the count of its bytes, and these bytes.
pub type Record<'a> = ([i64; 4], &'a [u8]);

pub fn record(numbers: [i64; 4], carried: &[u8]) -> Vec<u8> {
    let head = numbers.into_iter().chain([carried.len() as i64]);
    [shorts(&head.collect::<Vec<i64>>()), carried.to_vec()].concat()
}

/// Numbers of 16 bits, low byte first.
pub fn shorts(numbers: &[i64]) -> Vec<u8> {
    numbers.iter().flat_map(|number| (*number as u16).to_le_bytes()).collect()
}

pub fn of_shorts(bytes: &[u8]) -> Vec<i64> {
    bytes.chunks(2).map(|pair| i64::from(pair[0]) + 256 * i64::from(pair[1])).collect()
}

/// The first call of some bytes, and the bytes behind it.
pub fn first(bytes: &[u8]) -> Option<(Record<'_>, &[u8])> {
    let (head, rest) = bytes.split_at_checked(10)?;
    let [tag, book, beside, number, count] = of_shorts(head)[..] else { return None };
    let (carried, rest) = rest.split_at_checked(count as usize)?;
    Some((([tag, book, beside, number], carried), rest))
}

/// All calls of an input, each read by a rule that may know it for none.
pub fn all<C>(mut input: &[u8], read: fn(Record) -> Option<C>) -> Result<Vec<C>, String> {
    let mut calls = Vec::new();
    while !input.is_empty() {
        let whole = first(input).and_then(|(record, rest)| Some((read(record)?, rest)));
        let (call, rest) = whole.ok_or(format!("call {} is none", calls.len()))?;
        calls.push(call);
        input = rest;
    }
    Ok(calls)
}

/// Words given: the number of each, 16 bits, and its value, 64 bits.
pub fn given(words: &Words) -> Vec<u8> {
    let pair = |(word, value): (&i64, &u64)| {
        [&(*word as u16).to_le_bytes()[..], &value.to_le_bytes()].concat()
    };
    words.iter().flat_map(pair).collect()
}

pub fn words_given(carried: &[u8]) -> Option<Words> {
    let long = |bytes: &[u8]| bytes.iter().rev().fold(0, |high, byte| high << 8 | u64::from(*byte));
    let pair = |ten: &[u8]| (of_shorts(&ten[..2])[0], long(&ten[2..]));
    (carried.len() % 10 == 0).then(|| carried.chunks(10).map(pair).collect())
}

/// Sets words of a book; those that it doesn't have are passed over.
pub fn set_words(book: &mut [Word], words: &Words) {
    for (word, value) in words {
        if let Some(place) = book.get_mut(*word as usize) {
            *place = Word::of_bits(*value);
        }
    }
}
