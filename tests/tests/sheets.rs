//! Job sheets and cut lists: round trips, sharing, rubbish, and every damage.

mod common;
use common::*;
use reference::generate::{
    damaged_list, damaged_sheet, small_figures, sound_list, sound_pieces, sound_sheet, ListDamage,
    Random, SheetDamage, SheetPlan,
};
use reference::sheet::list_words;

/// "Reads back as that list": the words up to the last piece, and W, R, N.
#[test]
fn a_written_list_reads_back() {
    for seed in 0..1_000 {
        let mut random = Random::new(seed);
        let of = small_figures(&mut random);
        let words = sound_list(&mut random);
        let wrn = (of.width, of.resolution, of.columns);
        let written = check_write(wrn, &words, 3_000).unwrap();
        let length = list_length(&words);
        assert_eq!(
            check_read(&written, length),
            Ok((of, words[..length].to_vec()))
        );
        if length > 1 {
            assert_eq!(check_read(&written, length - 1), Err(no(15, 0)));
        }
    }
}

/// "Writing numbers the records 1, 2, 3 in list order": the bytes are wholly
/// determined.
#[test]
fn written_sheets_are_in_list_order() {
    for seed in 0..1_000 {
        let mut random = Random::new(seed);
        let of = small_figures(&mut random);
        let count = random.index(8);
        let pieces = sound_pieces(&mut random, count, 8);
        let wrn = (of.width, of.resolution, of.columns);
        let bytes = SheetPlan::in_order(of, &pieces).bytes();
        let written = check_write(wrn, &list_words(&pieces), bytes.len());
        assert_eq!(written, Ok(bytes));
    }
}

/// Two pieces, T and S, with every byte written out.
#[test]
fn the_bytes_of_a_written_sheet() {
    let words = [
        2, // pieces
        3, 5, 0, 0, 300, 0, 300, 2, // vertices, mask, x, y
        4, 15, 1, 1, 5, 1, 5, 5, 1, 5, //
        9, 9, 9, // not looked at
    ];
    let expected: [u8; 16 + 6 * 7 + 6 * 2] = [
        0x4E, 0x4A, 0x01, 0x00, //
        0x80, 0x3E, 0x90, 0x01, 0x00, 0x10, // W 16,000, R 400, N 4,096
        1, 0, 7, 0, 2, 0, //
        0, 0, 0, 0, 2, 0, //
        0x2C, 0x01, 0, 0, 3, 0, //
        0x2C, 0x01, 2, 0, 0, 0, //
        1, 0, 1, 0, 5, 0, //
        5, 0, 1, 0, 6, 0, //
        5, 0, 5, 0, 7, 0, //
        1, 0, 5, 0, 0, 0, //
        1, 0, 5, 0, 2, 0, //
        4, 0, 15, 0, 0, 0,
    ];
    let written = check_write((16_000, 400, 4_096), &words, 100);
    assert_eq!(written, Ok(expected.to_vec()));
    let list = words[..19].to_vec();
    let read = check_read(&expected, 100);
    assert_eq!(read, Ok((figures(16_000, 400, 4_096), list)));
}

#[test]
fn an_empty_list() {
    let expected = [0x4E, 0x4A, 1, 0, 10, 0, 2, 0, 7, 0, 0, 0, 0, 0, 0, 0];
    assert_eq!(check_write((10, 2, 7), &[0], 20), Ok(expected.to_vec()));
    assert_eq!(
        check_write((10, 2, 7), &[0, 5, 5], 20),
        Ok(expected.to_vec())
    );
    assert_eq!(check_read(&expected, 9), Ok((figures(10, 2, 7), vec![0])));
}

/// Sheets with shuffled records, shared chains and rubbish read as the pieces
/// they were made of; what is written from that reads the same again.
#[test]
fn shuffled_sheets_read_as_their_pieces() {
    let mut shared = 0;
    for seed in 0..1_000 {
        let mut random = Random::new(100_000 + seed);
        let of = small_figures(&mut random);
        let count = random.index(8);
        let pieces = sound_pieces(&mut random, count, 8);
        let plan = SheetPlan::shuffled(&mut random, of, &pieces, true);
        let vertices: usize = pieces.iter().map(|piece| piece.outline.len() / 2).sum();
        shared += usize::from(plan.vertices.len() < vertices);
        let words = list_words(&pieces);
        let read = check_read(&plan.bytes(), words.len() + 5);
        assert_eq!(read, Ok((of, words.clone())));
        let wrn = (of.width, of.resolution, of.columns);
        let written = check_write(wrn, &words, 5_000).unwrap();
        assert_eq!(check_read(&written, 2_000), Ok((of, words.clone())));
        assert_eq!(check_write(wrn, &words, 5_000), Ok(written));
    }
    assert!(shared > 100, "{shared}");
}

/// A tail shared by two pieces: both end in (4,0) (4,4).
#[test]
fn a_shared_tail() {
    let mut plan = plan(10, 2, 10, &[]);
    // 1 and 2 begin the chains, 3 and 4 are their common end.
    plan.vertices = vec![[0, 0, 3], [0, 4, 3], [4, 0, 4], [4, 4, 0]];
    plan.pieces = vec![[1, 1, 2], [2, 3, 0]];
    plan.first_piece = 1;
    let words = vec![2, 3, 1, 0, 0, 4, 0, 4, 4, 3, 3, 0, 4, 4, 0, 4, 4];
    assert_eq!(
        check_read(&plan.bytes(), 90),
        Ok((figures(10, 2, 10), words))
    );
}

/// "records outside every chain are not looked at"
#[test]
fn records_outside_every_chain() {
    let mut plan = plan(10, 2, 10, &[(&S, 1)]);
    plan.vertices.push([65_535, 65_535, 5]);
    plan.vertices.push([16_001, 0, 65_535]);
    // A piece record outside the chain brings no vertex chain with it.
    plan.pieces.push([0, 0, 2]);
    plan.pieces.push([65_535, 16, 65_535]);
    plan.pieces.push([5, 1, 1]);
    let words = list(&[(&S, 1)]);
    assert_eq!(
        check_read(&plan.bytes(), 90),
        Ok((figures(10, 2, 10), words))
    );
    // An empty chain passes whatever P is.
    plan.first_piece = 0;
    assert_eq!(
        check_read(&plan.bytes(), 90),
        Ok((figures(10, 2, 10), vec![0]))
    );
}

#[test]
fn damaged_sheets_are_refused() {
    for damage in SheetDamage::ALL {
        for seed in 0..40 {
            let mut random = Random::new(seed);
            let damaged = damaged_sheet(&mut random, damage);
            let expected = Err(damaged.refusal);
            let read = check_read(&damaged.bytes, 40_000).map(|_| ());
            assert_eq!(read, expected, "{damage:?} {seed}");
            let columns = match damaged.bytes.get(8..10) {
                Some(word) => u16::from_le_bytes([word[0], word[1]]),
                None => 1,
            };
            let room = [strip_length(columns, 50), 800, 9_000];
            let laid = check_lay(&damaged.bytes, room).map(|_| ());
            assert_eq!(laid, expected, "{damage:?} {seed}");
            let text = reference::lay_text(&damaged.bytes);
            let (number, ordinal) = (damaged.refusal.number, damaged.refusal.ordinal);
            assert_eq!(text, format!("job refused {number} {ordinal}\n"));
        }
    }
}

#[test]
fn damaged_lists_are_refused() {
    for damage in ListDamage::ALL {
        for seed in 0..100 {
            let mut random = Random::new(seed);
            let damaged = damaged_list(&mut random, damage);
            let written = check_write((10, 2, 10), &damaged.words, 9_000);
            assert_eq!(written, Err(damaged.refusal), "{damage:?} {seed}");
        }
    }
}

/// A sound sheet cut off at any length: 1 below 16 bytes, else 2.
#[test]
fn sheets_cut_off_anywhere() {
    for seed in 0..30 {
        let mut random = Random::new(200_000 + seed);
        let whole = sound_sheet(&mut random);
        for length in 0..whole.len() {
            let number = if length < 16 { 1 } else { 2 };
            let read = check_read(&whole[..length], 2_000);
            assert_eq!(read, Err(no(number, 0)));
        }
        assert!(check_read(&whole, 2_000).is_ok());
    }
}

/// Read asks of a sheet what write asks of its list: a list with bad pieces,
/// put on a sheet, is refused alike.
#[test]
fn read_and_write_refuse_alike() {
    use reference::generate::{any_mask, outline, OutlineKind};
    let mut refused = 0;
    for seed in 0..1_500 {
        let mut random = Random::new(300_000 + seed);
        let of: Vec<(Vec<u16>, u16)> = (0..random.between(1, 3))
            .map(|_| {
                let kind = random.pick(&OutlineKind::ALL[..18]);
                let words = outline(&mut random, kind, 6);
                (words, any_mask(&mut random))
            })
            .collect();
        let of: Vec<(&[u16], u16)> = of.iter().map(|(words, mask)| (&words[..], *mask)).collect();
        let read = check_read(&sheet(10, 2, 10, &of), 9_000).map(|_| ());
        let written = check_write((10, 2, 10), &list(&of), 9_000).map(|_| ());
        assert_eq!(read, written);
        refused += usize::from(read.is_err());
    }
    assert!(refused > 300 && refused < 1_400, "{refused}");
}
