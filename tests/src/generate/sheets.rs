//! Job sheets, sound and damaged.

use super::lists::crossed_piece;
use super::{outline, small_figures, sound_piece_of, sound_pieces, OutlineKind, Random};
use crate::figures::{no, Figures, Piece, Refusal};

/// A record of three numbers.
pub type Three = [u16; 3];

/// The numbers of a sheet, before they are bytes.
#[derive(Clone, Debug)]
pub struct SheetPlan {
    pub figures: Figures,
    pub first_piece: u16,
    /// x, y, next
    pub vertices: Vec<Three>,
    /// first vertex, mask, next
    pub pieces: Vec<Three>,
}

impl SheetPlan {
    /// A sheet with its records numbered 1, 2, 3 in list order.
    pub fn in_order(figures: Figures, pieces: &[Piece]) -> SheetPlan {
        let mut plan = SheetPlan {
            figures,
            first_piece: if pieces.is_empty() { 0 } else { 1 },
            vertices: Vec::new(),
            pieces: Vec::new(),
        };
        for piece in pieces {
            let first = plan.vertices.len() as u16 + 1;
            for pair in piece.outline.chunks_exact(2) {
                let next = plan.vertices.len() as u16 + 2;
                plan.vertices.push([pair[0], pair[1], next]);
            }
            if let Some(last) = plan.vertices.last_mut() {
                last[2] = 0;
            }
            let next = plan.pieces.len() as u16 + 2;
            plan.pieces.push([first, piece.mask, next]);
        }
        if let Some(last) = plan.pieces.last_mut() {
            last[2] = 0;
        }
        plan
    }

    /// A sheet of these pieces with its records in any order, and records of
    /// rubbish in no chain among them. Where `share` is true, pieces may share
    /// vertex chains, whole or from some vertex on.
    pub fn shuffled(
        random: &mut Random,
        figures: Figures,
        pieces: &[Piece],
        share: bool,
    ) -> SheetPlan {
        let mut vertices = Vec::new();
        let mut piece_records = Vec::new();
        let mut next_piece = 0;
        for piece in pieces.iter().rev() {
            let first = add_chain(random, &mut vertices, &piece.outline, share);
            piece_records.push([first, piece.mask, next_piece]);
            next_piece = piece_records.len() as u16;
        }
        add_rubbish(random, &mut vertices);
        add_rubbish(random, &mut piece_records);
        let in_vertex_order = new_numbers(random, vertices.len());
        let in_piece_order = new_numbers(random, piece_records.len());
        let renumbered = |number: u16, order: &[u16]| match order.get(usize::from(number)) {
            Some(&new) => new,
            None => number,
        };
        for vertex in &mut vertices {
            vertex[2] = renumbered(vertex[2], &in_vertex_order);
        }
        for piece in &mut piece_records {
            piece[0] = renumbered(piece[0], &in_vertex_order);
            piece[2] = renumbered(piece[2], &in_piece_order);
        }
        SheetPlan {
            figures,
            first_piece: renumbered(next_piece, &in_piece_order),
            vertices: moved(&vertices, &in_vertex_order),
            pieces: moved(&piece_records, &in_piece_order),
        }
    }

    /// Adds records of rubbish in no chain, so that there are so many in all.
    pub fn fill_up(&mut self, random: &mut Random, records: usize) {
        while self.vertices.len() + self.pieces.len() < records {
            let rubbish = rubbish(random);
            match random.once_in(2) {
                true => self.vertices.push(rubbish),
                false => self.pieces.push(rubbish),
            }
        }
    }

    pub fn bytes(&self) -> Vec<u8> {
        let counts = [self.vertices.len() as u16, self.pieces.len() as u16];
        self.bytes_with_counts(counts)
    }

    /// The bytes with another V and P than the records there are.
    pub fn bytes_with_counts(&self, [v, p]: [u16; 2]) -> Vec<u8> {
        let figures = self.figures;
        let mut numbers = vec![figures.width, figures.resolution, figures.columns];
        numbers.extend([self.first_piece, v, p]);
        numbers.extend(self.vertices.iter().flatten());
        numbers.extend(self.pieces.iter().flatten());
        let mut bytes = vec![0x4E, 0x4A, 0x01, 0x00];
        for number in numbers {
            bytes.push((number % 256) as u8);
            bytes.push((number / 256) as u8);
        }
        bytes
    }

    /// The place in `pieces` of each record of the piece chain, which ends.
    fn piece_places(&self) -> Vec<usize> {
        chain_places(&self.pieces, self.first_piece)
    }

    /// The place in `vertices` of each vertex of a piece.
    fn vertex_places(&self, piece: usize) -> Vec<usize> {
        chain_places(&self.vertices, self.pieces[piece][0])
    }
}

fn chain_places(records: &[Three], first: u16) -> Vec<usize> {
    let mut places = Vec::new();
    let mut present = first;
    while present != 0 {
        let place = usize::from(present) - 1;
        places.push(place);
        present = records[place][2];
    }
    places
}

/// Adds a vertex chain, begun at its end so that the rest of a chain that is
/// there already can be used again. The answer is its first record's number.
fn add_chain(random: &mut Random, vertices: &mut Vec<Three>, outline: &[u16], share: bool) -> u16 {
    let mut next = 0;
    for pair in outline.chunks_exact(2).rev() {
        let record = [pair[0], pair[1], next];
        let same = vertices.iter().position(|&vertex| vertex == record);
        next = match same {
            Some(place) if share && !random.once_in(8) => place as u16 + 1,
            _ => {
                vertices.push(record);
                vertices.len() as u16
            }
        };
    }
    next
}

fn add_rubbish(random: &mut Random, records: &mut Vec<Three>) {
    for _ in 0..random.index(4) {
        records.push(rubbish(random));
    }
}

fn rubbish(random: &mut Random) -> Three {
    [0; 3].map(|_| random.word(0, 65_535))
}

/// A new number for each of the numbers 0 to `count`; 0 keeps its own.
fn new_numbers(random: &mut Random, count: usize) -> Vec<u16> {
    let mut numbers: Vec<u16> = (0..=count as u16).collect();
    random.shuffle(&mut numbers[1..]);
    numbers
}

/// The records, each moved to its new number.
fn moved(records: &[Three], order: &[u16]) -> Vec<Three> {
    let mut result = vec![[0; 3]; records.len()];
    for (place, record) in records.iter().enumerate() {
        result[usize::from(order[place + 1]) - 1] = *record;
    }
    result
}

/// A sound sheet of small pieces.
pub fn sound_sheet(random: &mut Random) -> Vec<u8> {
    let figures = small_figures(random);
    let count = random.index(6);
    let pieces = sound_pieces(random, count, 8);
    if random.once_in(4) {
        SheetPlan::in_order(figures, &pieces).bytes()
    } else {
        SheetPlan::shuffled(random, figures, &pieces, true).bytes()
    }
}

/// A sheet whose piece chain comes back: after `lead` pieces it goes round in
/// `round` of them. Where `round` is 0 it ends after the lead.
pub fn round_of_pieces(random: &mut Random, lead: usize, round: usize) -> SheetPlan {
    let pieces = vec![sound_pieces(random, 1, 8).remove(0); lead + round];
    let figures = small_figures(random);
    let mut plan = SheetPlan::shuffled(random, figures, &pieces, true);
    let chain = plan.piece_places();
    if round > 0 {
        plan.pieces[chain[lead + round - 1]][2] = chain[lead] as u16 + 1;
    }
    plan
}

/// A sheet of up to three pieces, the vertex chain of the last of which comes
/// back as above. The lead and the round have 3 to 64 vertices together.
pub fn round_of_vertices(random: &mut Random, lead: usize, round: usize) -> SheetPlan {
    let before = random.index(3);
    let mut pieces = sound_pieces(random, before, 8);
    pieces.push(sound_piece_of(random, lead + round, 8));
    let figures = small_figures(random);
    let mut plan = SheetPlan::shuffled(random, figures, &pieces, false);
    let chain = plan.vertex_places(plan.piece_places()[before]);
    if round > 0 {
        plan.vertices[chain[lead + round - 1]][2] = chain[lead] as u16 + 1;
    }
    plan
}

/// A way in which a sheet fails one of the questions 1 to 3, 16, 17 and 6 to 11.
#[derive(Clone, Copy, Debug, PartialEq, Eq)]
pub enum SheetDamage {
    FirstByte,
    SecondByte,
    ThirdByte,
    FourthByte,
    /// Fewer than 16 bytes.
    NoHead,
    /// 16 bytes or more, but some missing at the end.
    CutOff,
    OneByteLonger,
    OneRecordLonger,
    VerticesDoNotFit,
    PiecesDoNotFit,
    /// V or P is 65,535.
    GreatestCounts,
    /// V and P fit, but the sheet is longer than 65,536 bytes.
    TooLong,
    WidthZero,
    WidthOver,
    ResolutionZero,
    ResolutionOver,
    ColumnsZero,
    ColumnsOver,
    FirstPiecePastP,
    PieceNextPastP,
    PieceLoop,
    /// A chain of 201 pieces.
    TooManyPieces,
    FirstVertexZero,
    FirstVertexPastV,
    VertexNextPastV,
    VertexLoop,
    TwoVertices,
    SixtyFiveVertices,
    CoordinateOver,
    MaskZero,
    MaskOver,
    Crossed,
    Uncovered,
}

impl SheetDamage {
    pub const ALL: [SheetDamage; 33] = [
        SheetDamage::FirstByte,
        SheetDamage::SecondByte,
        SheetDamage::ThirdByte,
        SheetDamage::FourthByte,
        SheetDamage::NoHead,
        SheetDamage::CutOff,
        SheetDamage::OneByteLonger,
        SheetDamage::OneRecordLonger,
        SheetDamage::VerticesDoNotFit,
        SheetDamage::PiecesDoNotFit,
        SheetDamage::GreatestCounts,
        SheetDamage::TooLong,
        SheetDamage::WidthZero,
        SheetDamage::WidthOver,
        SheetDamage::ResolutionZero,
        SheetDamage::ResolutionOver,
        SheetDamage::ColumnsZero,
        SheetDamage::ColumnsOver,
        SheetDamage::FirstPiecePastP,
        SheetDamage::PieceNextPastP,
        SheetDamage::PieceLoop,
        SheetDamage::TooManyPieces,
        SheetDamage::FirstVertexZero,
        SheetDamage::FirstVertexPastV,
        SheetDamage::VertexNextPastV,
        SheetDamage::VertexLoop,
        SheetDamage::TwoVertices,
        SheetDamage::SixtyFiveVertices,
        SheetDamage::CoordinateOver,
        SheetDamage::MaskZero,
        SheetDamage::MaskOver,
        SheetDamage::Crossed,
        SheetDamage::Uncovered,
    ];
}

#[derive(Clone, Debug)]
pub struct DamagedSheet {
    pub bytes: Vec<u8>,
    /// What read has to answer, and lay on a strip of the right length.
    pub refusal: Refusal,
}

/// A sheet with nothing wrong but this damage, at any of its pieces.
pub fn damaged_sheet(random: &mut Random, damage: SheetDamage) -> DamagedSheet {
    let count = random.between(1, 4) as usize;
    let place = random.index(count);
    damaged_sheet_at(random, damage, count, place)
}

/// The same, of so many pieces, at the piece at this place, counted from 0.
pub fn damaged_sheet_at(
    random: &mut Random,
    damage: SheetDamage,
    count: usize,
    place: usize,
) -> DamagedSheet {
    let mut pieces = sound_pieces(random, count, 8);
    let ordinal = place as u16 + 1;
    match damage {
        SheetDamage::CoordinateOver => {
            pieces[place].outline = outline(random, OutlineKind::OverLimit, 8);
        }
        SheetDamage::MaskZero => pieces[place].mask = 0,
        SheetDamage::MaskOver => pieces[place].mask = random.pick(&[16, 17, 256, 65_535]),
        SheetDamage::Crossed => pieces[place] = crossed_piece(random),
        SheetDamage::Uncovered => {
            pieces[place].outline = outline(random, OutlineKind::Flat, 8);
        }
        _ => {}
    }
    let figures = small_figures(random);
    let plan = SheetPlan::shuffled(random, figures, &pieces, false);
    let (bytes, number) = damaged_bytes(random, plan, damage, place);
    let ordinal = if (7..=11).contains(&number) {
        ordinal
    } else {
        0
    };
    DamagedSheet {
        bytes,
        refusal: no(number, ordinal),
    }
}

/// The damaged bytes and the question that fails.
fn damaged_bytes(
    random: &mut Random,
    mut plan: SheetPlan,
    damage: SheetDamage,
    place: usize,
) -> (Vec<u8>, u16) {
    let bytes = plan.bytes();
    let (v, p) = (plan.vertices.len() as u16, plan.pieces.len() as u16);
    match damage {
        SheetDamage::FirstByte => (with_byte(random, bytes, 0), 1),
        SheetDamage::SecondByte => (with_byte(random, bytes, 1), 1),
        SheetDamage::ThirdByte => (with_byte(random, bytes, 2), 1),
        SheetDamage::FourthByte => (with_byte(random, bytes, 3), 1),
        SheetDamage::NoHead => (bytes[..random.index(16)].to_vec(), 1),
        SheetDamage::CutOff => {
            let length = random.between(16, bytes.len() as i64 - 1);
            (bytes[..length as usize].to_vec(), 2)
        }
        SheetDamage::OneByteLonger => ([bytes, vec![0]].concat(), 2),
        SheetDamage::OneRecordLonger => ([bytes, vec![0; 6]].concat(), 2),
        SheetDamage::VerticesDoNotFit => {
            let other = if random.once_in(2) { v + 1 } else { v - 1 };
            (plan.bytes_with_counts([other, p]), 2)
        }
        SheetDamage::PiecesDoNotFit => {
            let other = if random.once_in(2) { p + 1 } else { p - 1 };
            (plan.bytes_with_counts([v, other]), 2)
        }
        SheetDamage::GreatestCounts => {
            let counts = random.pick(&[[65_535, p], [v, 65_535], [65_535, 65_535]]);
            (plan.bytes_with_counts(counts), 2)
        }
        SheetDamage::TooLong => {
            let longer = random.word(10_921, 11_000) - p;
            plan.vertices.resize(usize::from(longer), [0; 3]);
            (plan.bytes(), 2)
        }
        SheetDamage::WidthZero => (with_word(bytes, 4, 0), 3),
        SheetDamage::WidthOver => (with_word(bytes, 4, random.word(16_001, 65_535)), 3),
        SheetDamage::ResolutionZero => (with_word(bytes, 6, 0), 16),
        SheetDamage::ResolutionOver => (with_word(bytes, 6, random.word(401, 65_535)), 16),
        SheetDamage::ColumnsZero => (with_word(bytes, 8, 0), 17),
        SheetDamage::ColumnsOver => (with_word(bytes, 8, random.word(4_097, 65_535)), 17),
        _ => damaged_chains(random, plan, damage, place),
    }
}

/// The damages of piece chain and vertex chains, and those of a piece that
/// were made before.
fn damaged_chains(
    random: &mut Random,
    mut plan: SheetPlan,
    damage: SheetDamage,
    place: usize,
) -> (Vec<u8>, u16) {
    let (v, p) = (plan.vertices.len() as u16, plan.pieces.len() as u16);
    let chain = plan.piece_places();
    let piece = chain[place];
    let last_piece = chain[chain.len() - 1];
    let vertices = plan.vertex_places(piece);
    let last_vertex = vertices[vertices.len() - 1];
    let past_p = random.pick(&[p + 1, p + 2, 65_535]);
    let past_v = random.pick(&[v + 1, v + 2, 65_535]);
    let number = match damage {
        SheetDamage::FirstPiecePastP => {
            plan.first_piece = past_p;
            6
        }
        SheetDamage::PieceNextPastP => {
            plan.pieces[piece][2] = past_p;
            6
        }
        SheetDamage::PieceLoop => {
            plan.pieces[last_piece][2] = piece as u16 + 1;
            6
        }
        SheetDamage::TooManyPieces => {
            let [first_vertex, mask, _] = plan.pieces[piece];
            plan.pieces = (2..=202).map(|next| [first_vertex, mask, next]).collect();
            plan.pieces[200][2] = 0;
            plan.first_piece = 1;
            6
        }
        SheetDamage::FirstVertexZero => {
            plan.pieces[piece][0] = 0;
            7
        }
        SheetDamage::FirstVertexPastV => {
            plan.pieces[piece][0] = past_v;
            7
        }
        SheetDamage::VertexNextPastV => {
            plan.vertices[random.pick(&vertices)][2] = past_v;
            7
        }
        SheetDamage::VertexLoop => {
            plan.vertices[last_vertex][2] = random.pick(&vertices) as u16 + 1;
            7
        }
        SheetDamage::TwoVertices => {
            let second = vertices[random.index(2)];
            plan.vertices[second][2] = 0;
            7
        }
        SheetDamage::SixtyFiveVertices => {
            let mut last = last_vertex;
            for _ in vertices.len()..65 {
                let [x, y, _] = plan.vertices[last];
                plan.vertices.push([x, y, 0]);
                plan.vertices[last][2] = plan.vertices.len() as u16;
                last = plan.vertices.len() - 1;
            }
            7
        }
        SheetDamage::CoordinateOver => 8,
        SheetDamage::MaskZero | SheetDamage::MaskOver => 9,
        SheetDamage::Crossed => 10,
        SheetDamage::Uncovered => 11,
        _ => unreachable!("made by damaged_bytes"),
    };
    (plan.bytes(), number)
}

/// The bytes with another byte at the place.
fn with_byte(random: &mut Random, mut bytes: Vec<u8>, place: usize) -> Vec<u8> {
    bytes[place] ^= random.word(1, 255) as u8;
    bytes
}

fn with_word(mut bytes: Vec<u8>, place: usize, word: u16) -> Vec<u8> {
    bytes[place..place + 2].copy_from_slice(&word.to_le_bytes());
    bytes
}
