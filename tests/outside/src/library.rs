//! The proved library as C sees it (include/wickerbell.h): each slice is a pointer and then a length.

use crate::lent::Lent;

extern "C" {
    fn wickerbell_lasso(
        records: *const u8,
        records_length: usize,
        stem: *const u8,
        stem_length: usize,
        period: *const u8,
        period_length: usize,
    ) -> u32;

    fn wickerbell_decide(
        model: *const u8,
        model_length: usize,
        rule: *const u8,
        rule_length: usize,
        stem_room: u64,
        period_room: u64,
        smallest: *mut u32,
        smallest_length: usize,
        largest: *mut u32,
        largest_length: usize,
        links: *mut u32,
        links_length: usize,
        contexts: *mut u64,
        contexts_length: usize,
        stem: *mut u8,
        stem_length: usize,
        period: *mut u8,
        period_length: usize,
        row: *mut u64,
        row_length: usize,
    ) -> u32;
}

/// 0 rejected, 1 accepted, 100 plus the refusal.
pub fn lasso(records: &[u8], stem: &[u8], period: &[u8]) -> u32 {
    // Sound: three slices that are only read, each with its own length.
    unsafe { wickerbell_lasso(records.as_ptr(), records.len(), stem.as_ptr(), stem.len(), period.as_ptr(), period.len()) }
}

/// The answer number; the rest of the answer is in the lent row.
pub fn decide(model: &[u8], rule: &[u8], stem_room: u64, period_room: u64, lent: &mut Lent) -> u32 {
    let (smallest, largest, links, contexts) =
        (lent.smallest.part(), lent.largest.part(), lent.links.part(), lent.contexts.part());
    let (stem, period, row) = (lent.stem.part(), lent.period.part(), lent.row.part());
    // Sound: two slices that are only read, and seven that are borrowed apart from each other, each with its own length.
    unsafe {
        wickerbell_decide(
            model.as_ptr(),
            model.len(),
            rule.as_ptr(),
            rule.len(),
            stem_room,
            period_room,
            smallest.as_mut_ptr(),
            smallest.len(),
            largest.as_mut_ptr(),
            largest.len(),
            links.as_mut_ptr(),
            links.len(),
            contexts.as_mut_ptr(),
            contexts.len(),
            stem.as_mut_ptr(),
            stem.len(),
            period.as_mut_ptr(),
            period.len(),
            row.as_mut_ptr(),
            row.len(),
        )
    }
}
