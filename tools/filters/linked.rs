// The proved filters and an offer, as entry.txt gives them to other languages.

use crate::plans::Files;
use crate::tests::Kind;

#[derive(Clone, Copy)]
#[repr(u8)]
pub enum Which {
    Box,
    Slab,
    Plane,
    Row,
}

#[link(name = "filter_calls", kind = "static")]
unsafe extern "C" {
    // a slice is a place and a length
    fn filters_strike(
        which: u8,
        edges: bool,
        numbers: *const i64,
        number_count: usize,
        depth: u8,
        times: usize,
        verdicts: *mut u8,
        verdict_count: usize,
    ) -> bool;

    fn filters_offer(
        text: *const u8,
        text_len: usize,
        record: *const u8,
        record_len: usize,
        pairs: *const u8,
        pairs_len: usize,
        depth: u8,
        times: usize,
        counts: *mut u32,
        count_places: usize,
    ) -> bool;
}

/// Makes the tests of these numbers, puts them to a filter so many times, and stores the verdicts.
pub fn strike(
    which: Which,
    kind: Kind,
    numbers: &[i64],
    depth: u8,
    times: usize,
    verdicts: &mut [u8],
) {
    // SAFETY: two slices, with their lengths
    let done = unsafe {
        filters_strike(
            which as u8,
            kind == Kind::Ee,
            numbers.as_ptr(),
            numbers.len(),
            depth,
            times,
            verdicts.as_mut_ptr(),
            verdicts.len(),
        )
    };
    assert!(done, "all numbers make tests");
}

/// Reads a plan and offers its pairs so many times: the shared, struck, repeated and kept tests of each kind, VF first.
pub fn offer(files: &Files, depth: u8, times: usize) -> [[u32; 4]; 2] {
    let Files {
        text,
        record,
        pairs,
    } = files;
    let mut counts = [[0; 4]; 2];
    let places = counts.as_flattened_mut();
    // SAFETY: four slices, with their lengths
    let done = unsafe {
        filters_offer(
            text.as_ptr(),
            text.len(),
            record.as_ptr(),
            record.len(),
            pairs.as_ptr(),
            pairs.len(),
            depth,
            times,
            places.as_mut_ptr(),
            places.len(),
        )
    };
    assert!(done, "the plan has no fault");
    counts
}
