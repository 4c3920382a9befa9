//! Parts of the engine that no public call shows alone, exported for tests and
//! benchmarks.

use reference::Refusal;

mod exported {
    extern "C" {
        pub fn vikelodu_well_formed(strip: *const u16, strip_words: usize) -> bool;
        pub fn vikelodu_rewrite(strip: *mut u16, strip_words: usize) -> u64;
        pub fn vikelodu_decoded(strip: *const u16, strip_words: usize) -> u32;
        pub fn vikelodu_vertex(outline: *const u16, outline_words: usize, turn: u16, i: u16)
            -> u64;
    }
}

/// Question 5.
pub fn well_formed(strip: &[u16]) -> bool {
    // Sound: the function asks nothing of its caller, and reads only what the slice lends.
    unsafe { exported::vikelodu_well_formed(strip.as_ptr(), strip.len()) }
}

/// The runs read from the strip and written to it anew: records 1, 2, 3 by
/// column then low, the free records after them in rising order.
pub fn rewrite(strip: &mut [u16]) -> Result<(), Refusal> {
    // Sound, as above; it writes what the slice lends.
    match unsafe { exported::vikelodu_rewrite(strip.as_mut_ptr(), strip.len()) } {
        0 => Ok(()),
        5 => Err(Refusal {
            number: 5,
            ordinal: 0,
        }),
        answer => panic!("rewrite answers {answer:#x}"),
    }
}

/// The number of runs, read into the engine's own arrays; nothing where the
/// strip is not well formed.
pub fn decoded(strip: &[u16]) -> Option<u32> {
    // Sound, as above.
    let runs = unsafe { exported::vikelodu_decoded(strip.as_ptr(), strip.len()) };
    (runs != u32::MAX).then_some(runs)
}

/// x and y of vertex i as the engine reads it through the turn; nothing where there
/// is no such turn or no such vertex.
pub fn vertex(outline: &[u16], turn: u16, i: u16) -> Option<(u16, u16)> {
    // Sound, as above.
    let answer = unsafe { exported::vikelodu_vertex(outline.as_ptr(), outline.len(), turn, i) };
    if answer == 1 << 32 {
        return None;
    }
    assert!(answer < 1 << 32, "more than a vertex: {answer:#x}");
    Some((answer as u16, (answer >> 16) as u16))
}
