//! Open, place, ask, commit and lay on bytes: "two to a word, low byte first; an odd
//! last byte is no part of it and stays."

mod common;
use common::*;
use reference::bytes::{ask_bytes, commit_bytes, lay_bytes, open_bytes, place_bytes};
use reference::Totals;

const ODD: u8 = 0xEE;

/// The bytes of some words and an odd last one.
fn bytes(words: &[u16]) -> Vec<u8> {
    let mut bytes: Vec<u8> = words
        .iter()
        .flat_map(|word| [(word % 256) as u8, (word / 256) as u8])
        .collect();
    bytes.push(ODD);
    bytes
}

#[test]
fn an_opened_strip() {
    let mut strip = bytes(&other_words(strip_length(10, 6)));
    assert_eq!(open_bytes(300, 2, 10, 400, &mut strip), Ok(()));
    // 300 is 1 times 256 and 44, 400 is 1 times 256 and 144.
    assert_eq!(strip[..10], [44, 1, 2, 0, 10, 0, 1, 0, 144, 1]);
    assert_eq!(strip, bytes(&opened_with_gap(300, 2, 10, 400, 6)));
}

#[test]
fn three_squares() {
    let mut strip = bytes(&opened(10, 2, 10, 4));
    let mut words = opened(10, 2, 10, 4);
    for (position, tries) in [(at(0, 0, 0), 1), (at(0, 0, 4), 2), (at(0, 2, 0), 3)] {
        let mut work = bytes(&other_words(6));
        let tried = place_bytes(&mut strip, &bytes(&S), 1, &mut work);
        assert_eq!((tried.answer, tried.tries), (Ok(position), tries));
        assert_eq!(work, bytes(&[0; 6]));
        assert_eq!(check_place_tries(&mut words, &S, 1, 6), tried);
        assert_eq!(strip, bytes(&words));
    }
    let job = sheet(10, 2, 10, &[(&S, 1), (&S, 1), (&S, 1)]);
    let mut laid = bytes(&other_words(strip_length(10, 4)));
    let (mut output, mut work) = (bytes(&other_words(13)), bytes(&other_words(6)));
    let answer = lay_bytes(&job, 0, &mut laid, &mut output, &mut work);
    assert_eq!(answer, Ok(Totals { placed: 3, used: 8 }));
    assert_eq!(laid, strip);
    let entries = [[0, 0, 0, 0], [0, 0, 0, 4], [0, 0, 2, 0]].concat();
    let after = other_words(13)[12];
    assert_eq!(output, bytes(&[entries, vec![after]].concat()));
    assert_eq!(work, bytes(&[0; 6]));
}

#[test]
fn three_squares_in_two_steps() {
    let mut strip = bytes(&opened(10, 2, 10, 4));
    let mut words = opened(10, 2, 10, 4);
    for (position, tries) in [(at(0, 0, 0), 1), (at(0, 0, 4), 2), (at(0, 2, 0), 3)] {
        let before = strip.clone();
        let mut work = bytes(&other_words(6));
        let tried = ask_bytes(&strip, &bytes(&S), 1, &mut work);
        assert_eq!((tried.answer, tried.tries), (Ok(position), tries));
        assert_eq!(strip, before);
        assert_eq!(work, bytes(&[0; 6]));
        let mut work = bytes(&other_words(6));
        let answer = commit_bytes(&mut strip, &bytes(&S), position, &mut work);
        assert_eq!(answer, Ok(()));
        assert_eq!(work, bytes(&[0; 6]));
        assert_eq!(check_commit(&mut words, &S, position, 6), Ok(()));
        assert_eq!(strip, bytes(&words));
    }
    // With a byte less the work buffer has five words.
    let mut work = bytes(&other_words(6));
    let third = at(0, 4, 0);
    let tried = ask_bytes(&strip, &bytes(&S), 1, &mut work[..11]);
    assert_eq!((tried.answer, tried.tries), (Err(no(12, 1)), 0));
    let answer = commit_bytes(&mut strip, &bytes(&S), third, &mut work[..11]);
    assert_eq!(answer, Err(no(12, 1)));
    let answer = commit_bytes(&mut strip, &bytes(&S), third, &mut work);
    assert_eq!(answer, Err(no(14, 1)));
    assert_eq!(strip, bytes(&words));
}

/// Strip and output keep their bytes; the work buffer is cleared all the same.
#[test]
fn refused() {
    let before = bytes(&other_words(strip_length(10, 4)));
    let mut strip = before.clone();
    assert_eq!(open_bytes(10, 2, 0, 0, &mut strip), Err(no(17, 0)));
    assert_eq!(open_bytes(10, 2, 10, 401, &mut strip), Err(no(21, 0)));
    let mut work = bytes(&other_words(6));
    let tried = place_bytes(&mut strip, &bytes(&S), 1, &mut work);
    assert_eq!((tried.answer, tried.tries), (Err(no(5, 0)), 0));
    assert_eq!(work, bytes(&[0; 6]));
    let (mut output, mut work) = (bytes(&other_words(3)), bytes(&other_words(6)));
    let job = sheet(10, 2, 10, &[(&S, 1)]);
    let answer = lay_bytes(&job, 401, &mut strip, &mut output, &mut work);
    assert_eq!(answer, Err(no(21, 0)));
    let answer = lay_bytes(&job, 400, &mut strip, &mut output, &mut work);
    assert_eq!(answer, Err(no(15, 0)));
    assert_eq!(strip, before);
    assert_eq!(output, bytes(&other_words(3)));
    assert_eq!(work, bytes(&[0; 6]));
}

/// An odd byte is no word: with one byte less the last word is missing.
#[test]
fn an_odd_byte_is_no_word() {
    let mut strip = bytes(&other_words(strip_length(10, 4)));
    let whole = strip.len() - 1;
    assert_eq!(
        open_bytes(10, 2, 10, 0, &mut strip[..whole - 1]),
        Err(no(4, 0))
    );
    assert_eq!(open_bytes(10, 2, 10, 0, &mut strip[..whole]), Ok(()));
    let (square, mut work) = (bytes(&S), bytes(&other_words(6)));
    let mut place = |outline: &[u8], work: &mut [u8]| {
        let tried = place_bytes(&mut strip, outline, 1, work);
        tried.answer.map_err(|refusal| refusal.number)
    };
    assert_eq!(place(&square[..15], &mut work), Err(7));
    assert_eq!(place(&square, &mut work[..11]), Err(12));
    assert_eq!(place(&square, &mut work[..12]), Ok(at(0, 0, 0)));
    assert_eq!(place(&[], &mut []), Err(7));
}
