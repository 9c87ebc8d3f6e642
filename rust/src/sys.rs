//! The functions of libxport.a as they are exported. tools/check-header holds this file against crates/xport/src.

/// Code 0 and what was found, or a refusal's number and its two values.
#[repr(C)]
#[derive(Clone, Copy)]
pub(crate) struct Flat {
    pub(crate) code: u32,
    pub(crate) first: u64,
    pub(crate) second: u64,
}

#[repr(C)]
#[derive(Clone, Copy)]
pub(crate) struct FlatFields {
    pub(crate) code: u32,
    pub(crate) first: u64,
    pub(crate) second: u64,
    pub(crate) ssrc: u32,
    pub(crate) begin: u16,
    pub(crate) end: u16,
    pub(crate) thinning: u8,
}

#[repr(C)]
#[derive(Clone, Copy)]
pub(crate) struct FlatStretch {
    pub(crate) code: u32,
    pub(crate) first: u64,
    pub(crate) second: u64,
    pub(crate) word: u64,
    pub(crate) place: u64,
    pub(crate) position: u64,
    pub(crate) taken: u64,
    pub(crate) listed: u64,
}

#[repr(C)]
#[derive(Clone, Copy)]
pub(crate) struct FlatBlock {
    pub(crate) next: u64,
    pub(crate) size: u64,
    pub(crate) length: u32,
    pub(crate) kind: u8,
    pub(crate) specific: u8,
}

#[repr(C)]
#[derive(Clone, Copy)]
pub(crate) struct FlatSummary {
    pub(crate) code: u32,
    pub(crate) first: u64,
    pub(crate) second: u64,
    pub(crate) ssrc: u32,
    pub(crate) lost: u32,
    pub(crate) duplicates: u32,
    pub(crate) jitter_min: u32,
    pub(crate) jitter_max: u32,
    pub(crate) jitter_mean: u32,
    pub(crate) jitter_deviation: u32,
    pub(crate) begin: u16,
    pub(crate) end: u16,
    pub(crate) flags: u8,
    pub(crate) hops_min: u8,
    pub(crate) hops_max: u8,
    pub(crate) hops_mean: u8,
    pub(crate) hops_deviation: u8,
}

/// The numbers of a summary that is not complete.
#[repr(C)]
#[derive(Clone, Copy, Debug, PartialEq, Eq, Hash)]
pub(crate) struct Kept {
    pub(crate) first: u64,
    pub(crate) second: u64,
    pub(crate) third: u64,
    pub(crate) fourth: u64,
}

/// What the items of a packet in portions that are still to come need to know.
#[repr(C)]
#[derive(Clone, Copy, Debug, PartialEq, Eq, Hash)]
pub(crate) struct Known {
    pub(crate) announced: u32,
    pub(crate) block: u32,
    pub(crate) whose: u32,
    pub(crate) next: u16,
    pub(crate) inside: usize,
    pub(crate) kept: Kept,
}

/// Where a packet that comes in portions stands.
#[repr(C)]
#[derive(Clone, Copy, Debug, PartialEq, Eq, Hash)]
pub(crate) struct Portions {
    pub(crate) held: u64,
    pub(crate) missing: usize,
    pub(crate) rest: usize,
    pub(crate) behind: usize,
    pub(crate) known: Known,
    pub(crate) item: u8,
}

#[repr(C)]
#[derive(Clone, Copy)]
pub(crate) struct FlatFollowed {
    pub(crate) code: u32,
    pub(crate) first: u64,
    pub(crate) second: u64,
    pub(crate) taken: u64,
    pub(crate) events: u64,
    pub(crate) state: Portions,
}

// The readings, the block types, the flags of a summary and the kinds of chunk words.
pub(crate) const STANDARD: u8 = 0;
pub(crate) const CRATE: u8 = 1;
pub(crate) const LOSS: u8 = 1;
pub(crate) const DUPLICATE: u8 = 2;
pub(crate) const RECEIPT_TIMES: u8 = 3;
pub(crate) const REFERENCE_TIME: u8 = 4;
pub(crate) const DLRR: u8 = 5;
pub(crate) const SUMMARY: u8 = 6;
pub(crate) const HAS_LOST: u8 = 128;
pub(crate) const HAS_DUPLICATES: u8 = 64;
pub(crate) const HAS_JITTER: u8 = 32;
pub(crate) const HOPS: u8 = 16;
pub(crate) const TTL: u8 = 8;
pub(crate) const NULL: u8 = 0;
pub(crate) const ZEROS: u8 = 1;
pub(crate) const ONES: u8 = 2;
pub(crate) const VECTOR: u8 = 3;

extern "C" {
    pub(crate) fn xr_count(r: u8, packet: *const u8, packet_len: usize) -> Flat;
    pub(crate) fn xr_parse(r: u8, packet: *const u8, packet_len: usize) -> Flat;
    pub(crate) fn xr_locate(r: u8, packet: *const u8, packet_len: usize, k: usize) -> Flat;
    pub(crate) fn xr_block_at(r: u8, packet: *const u8, packet_len: usize, at: usize) -> FlatBlock;
    pub(crate) fn xr_fields(r: u8, packet: *const u8, packet_len: usize, k: usize, t: u8) -> FlatFields;
    pub(crate) fn xr_time(r: u8, packet: *const u8, packet_len: usize, k: usize) -> Flat;
    pub(crate) fn xr_summary(r: u8, packet: *const u8, packet_len: usize, k: usize) -> FlatSummary;
    pub(crate) fn xr_numbers(
        r: u8,
        packet: *const u8,
        packet_len: usize,
        k: usize,
        t: u8,
        out: *mut u16,
        out_len: usize,
    ) -> Flat;
    pub(crate) fn xr_words(
        r: u8,
        packet: *const u8,
        packet_len: usize,
        k: usize,
        t: u8,
        out: *mut u16,
        out_len: usize,
    ) -> Flat;
    pub(crate) fn xr_pairs(
        r: u8,
        packet: *const u8,
        packet_len: usize,
        k: usize,
        numbers: *mut u16,
        numbers_len: usize,
        times: *mut u32,
        times_len: usize,
    ) -> Flat;
    pub(crate) fn xr_entries(
        r: u8,
        packet: *const u8,
        packet_len: usize,
        k: usize,
        ssrcs: *mut u32,
        ssrcs_len: usize,
        lasts: *mut u32,
        lasts_len: usize,
        delays: *mut u32,
        delays_len: usize,
    ) -> Flat;
    pub(crate) fn xr_cursor(
        packet: *const u8,
        packet_len: usize,
        k: usize,
        t: u8,
        word: usize,
        place: usize,
        position: usize,
        budget: usize,
        out: *mut u16,
        out_len: usize,
    ) -> FlatStretch;
    pub(crate) fn xr_fields_view(r: u8, t: u8, view: *const u8, view_len: usize) -> FlatFields;
    pub(crate) fn xr_time_view(r: u8, view: *const u8, view_len: usize) -> Flat;
    pub(crate) fn xr_summary_view(r: u8, view: *const u8, view_len: usize) -> FlatSummary;
    pub(crate) fn xr_numbers_view(
        r: u8,
        t: u8,
        view: *const u8,
        view_len: usize,
        out: *mut u16,
        out_len: usize,
    ) -> Flat;
    pub(crate) fn xr_words_view(r: u8, t: u8, view: *const u8, view_len: usize, out: *mut u16, out_len: usize)
        -> Flat;
    pub(crate) fn xr_pairs_view(
        r: u8,
        view: *const u8,
        view_len: usize,
        numbers: *mut u16,
        numbers_len: usize,
        times: *mut u32,
        times_len: usize,
    ) -> Flat;
    pub(crate) fn xr_entries_view(
        r: u8,
        view: *const u8,
        view_len: usize,
        ssrcs: *mut u32,
        ssrcs_len: usize,
        lasts: *mut u32,
        lasts_len: usize,
        delays: *mut u32,
        delays_len: usize,
    ) -> Flat;
    pub(crate) fn xr_cursor_view(
        t: u8,
        view: *const u8,
        view_len: usize,
        word: usize,
        place: usize,
        position: usize,
        budget: usize,
        out: *mut u16,
        out_len: usize,
    ) -> FlatStretch;
    pub(crate) fn xr_portions_start() -> Portions;
    pub(crate) fn xr_follow(
        state: Portions,
        bytes: *const u8,
        bytes_len: usize,
        tags: *mut u64,
        tags_len: usize,
        numbers: *mut u16,
        numbers_len: usize,
        values: *mut u64,
        values_len: usize,
        sums: *mut u64,
        sums_len: usize,
    ) -> FlatFollowed;
    pub(crate) fn xr_chunk_of(word: u16) -> Flat;
    pub(crate) fn xr_chunk(k: u8, value: u32, out: *mut u8, out_len: usize) -> Flat;
    pub(crate) fn xr_words_from_marks(marks: *const u8, marks_len: usize, out: *mut u16, out_len: usize) -> Flat;
    pub(crate) fn xr_write_plain(list: *const u8, list_len: usize, out: *mut u8, out_len: usize) -> Flat;
    pub(crate) fn xr_write_careful(list: *const u8, list_len: usize, out: *mut u8, out_len: usize) -> Flat;
}
