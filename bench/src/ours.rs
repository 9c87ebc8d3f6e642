// The proved library: crates/xport, as the static library libxport.a exports it. A slice crosses as a
// pointer and a length.

pub const STANDARD: u8 = 0;
pub const CRATE: u8 = 1;

/// Code 0 and what was found, or RULES' number of the refusal and its two values.
#[repr(C)]
#[derive(Clone, Copy, Debug, PartialEq, Eq)]
pub struct Flat {
    pub code: u32,
    pub first: u64,
    pub second: u64,
}

#[repr(C)]
#[derive(Clone, Copy, Debug, PartialEq, Eq)]
pub struct FlatFields {
    pub code: u32,
    pub first: u64,
    pub second: u64,
    pub ssrc: u32,
    pub begin: u16,
    pub end: u16,
    pub thinning: u8,
}

#[repr(C)]
#[derive(Clone, Copy, Debug, PartialEq, Eq)]
pub struct FlatStretch {
    pub code: u32,
    pub first: u64,
    pub second: u64,
    pub word: u64,
    pub place: u64,
    pub position: u64,
    pub taken: u64,
    pub listed: u64,
}

#[repr(C)]
#[derive(Clone, Copy, Debug, PartialEq, Eq)]
pub struct FlatBlock {
    pub next: u64,
    pub size: u64,
    pub length: u32,
    pub kind: u8,
    pub specific: u8,
}

/// Where a packet that comes in portions stands.
#[repr(C)]
#[derive(Clone, Copy, Debug, PartialEq, Eq)]
pub struct Known {
    pub announced: u32,
    pub block: u32,
    pub whose: u32,
    pub next: u16,
    pub inside: usize,
    pub kept: [u64; 4],
}

#[repr(C)]
#[derive(Clone, Copy, Debug, PartialEq, Eq)]
pub struct Portions {
    pub held: u64,
    pub missing: usize,
    pub rest: usize,
    pub behind: usize,
    pub known: Known,
    pub item: u8,
}

#[repr(C)]
#[derive(Clone, Copy, Debug, PartialEq, Eq)]
pub struct FlatFollowed {
    pub code: u32,
    pub first: u64,
    pub second: u64,
    pub taken: u64,
    pub events: u64,
    pub state: Portions,
}

#[link(name = "xport", kind = "static")]
extern "C" {
    fn xr_parse(r: u8, s: *const u8, n: usize) -> Flat;
    fn xr_block_at(r: u8, s: *const u8, n: usize, at: usize) -> FlatBlock;
    fn xr_fields_view(r: u8, t: u8, v: *const u8, n: usize) -> FlatFields;
    fn xr_time_view(r: u8, v: *const u8, n: usize) -> Flat;
    fn xr_pairs_view(r: u8, v: *const u8, n: usize, numbers: *mut u16, a: usize, times: *mut u32, b: usize) -> Flat;
    fn xr_entries_view(
        r: u8, v: *const u8, n: usize,
        ssrcs: *mut u32, a: usize, lasts: *mut u32, b: usize, delays: *mut u32, c: usize,
    ) -> Flat;
    fn xr_portions_start() -> Portions;
    fn xr_follow(
        state: Portions, bytes: *const u8, n: usize,
        tags: *mut u64, a: usize, numbers: *mut u16, b: usize, values: *mut u64, c: usize, sums: *mut u64, d: usize,
    ) -> FlatFollowed;
    fn xr_count(r: u8, s: *const u8, n: usize) -> Flat;
    fn xr_locate(r: u8, s: *const u8, n: usize, k: usize) -> Flat;
    fn xr_fields(r: u8, s: *const u8, n: usize, k: usize, t: u8) -> FlatFields;
    fn xr_time(r: u8, s: *const u8, n: usize, k: usize) -> Flat;
    fn xr_numbers(r: u8, s: *const u8, n: usize, k: usize, t: u8, out: *mut u16, m: usize) -> Flat;
    fn xr_numbers_view(r: u8, t: u8, v: *const u8, n: usize, out: *mut u16, m: usize) -> Flat;
    fn xr_words(r: u8, s: *const u8, n: usize, k: usize, t: u8, out: *mut u16, m: usize) -> Flat;
    fn xr_pairs(
        r: u8, s: *const u8, n: usize, k: usize,
        numbers: *mut u16, a: usize, times: *mut u32, b: usize,
    ) -> Flat;
    fn xr_entries(
        r: u8, s: *const u8, n: usize, k: usize,
        ssrcs: *mut u32, a: usize, lasts: *mut u32, b: usize, delays: *mut u32, c: usize,
    ) -> Flat;
    fn xr_chunk(kind: u8, value: u32, out: *mut u8, m: usize) -> Flat;
    fn xr_words_from_marks(marks: *const u8, n: usize, out: *mut u16, m: usize) -> Flat;
    fn xr_write_plain(list: *const u8, n: usize, out: *mut u8, m: usize) -> Flat;
    fn xr_write_careful(list: *const u8, n: usize, out: *mut u8, m: usize) -> Flat;
    fn xr_cursor(
        s: *const u8, n: usize, k: usize, t: u8, word: usize, place: usize, position: usize,
        budget: usize, out: *mut u16, m: usize,
    ) -> FlatStretch;
}

// Each call hands the library a slice that Rust holds for its whole time, which is all that the
// library asks of a caller: no exported function has a `requires`.

#[inline]
pub fn count(r: u8, s: &[u8]) -> Flat {
    unsafe { xr_count(r, s.as_ptr(), s.len()) }
}

#[inline]
pub fn locate(r: u8, s: &[u8], k: usize) -> Flat {
    unsafe { xr_locate(r, s.as_ptr(), s.len(), k) }
}

#[inline]
pub fn fields(r: u8, s: &[u8], k: usize, t: u8) -> FlatFields {
    unsafe { xr_fields(r, s.as_ptr(), s.len(), k, t) }
}

#[inline]
pub fn time(r: u8, s: &[u8], k: usize) -> Flat {
    unsafe { xr_time(r, s.as_ptr(), s.len(), k) }
}

#[inline]
pub fn numbers(r: u8, s: &[u8], k: usize, t: u8, out: &mut [u16]) -> Flat {
    unsafe { xr_numbers(r, s.as_ptr(), s.len(), k, t, out.as_mut_ptr(), out.len()) }
}

#[inline]
pub fn numbers_view(r: u8, t: u8, v: &[u8], out: &mut [u16]) -> Flat {
    unsafe { xr_numbers_view(r, t, v.as_ptr(), v.len(), out.as_mut_ptr(), out.len()) }
}

#[inline]
pub fn words(r: u8, s: &[u8], k: usize, t: u8, out: &mut [u16]) -> Flat {
    unsafe { xr_words(r, s.as_ptr(), s.len(), k, t, out.as_mut_ptr(), out.len()) }
}

#[inline]
pub fn pairs(r: u8, s: &[u8], k: usize, numbers: &mut [u16], times: &mut [u32]) -> Flat {
    unsafe {
        xr_pairs(
            r, s.as_ptr(), s.len(), k,
            numbers.as_mut_ptr(), numbers.len(), times.as_mut_ptr(), times.len(),
        )
    }
}

#[inline]
pub fn entries(
    r: u8, s: &[u8], k: usize, ssrcs: &mut [u32], lasts: &mut [u32], delays: &mut [u32],
) -> Flat {
    unsafe {
        xr_entries(
            r, s.as_ptr(), s.len(), k,
            ssrcs.as_mut_ptr(), ssrcs.len(), lasts.as_mut_ptr(), lasts.len(),
            delays.as_mut_ptr(), delays.len(),
        )
    }
}

#[inline]
pub fn chunk(kind: u8, value: u32, out: &mut [u8]) -> Flat {
    unsafe { xr_chunk(kind, value, out.as_mut_ptr(), out.len()) }
}

#[inline]
pub fn words_from_marks(marks: &[u8], out: &mut [u16]) -> Flat {
    unsafe { xr_words_from_marks(marks.as_ptr(), marks.len(), out.as_mut_ptr(), out.len()) }
}

/// At most `budget` steps from (word, place, position).
#[inline]
pub fn cursor(
    s: &[u8], k: usize, t: u8, at: (usize, usize, usize), budget: usize, out: &mut [u16],
) -> FlatStretch {
    unsafe {
        xr_cursor(
            s.as_ptr(), s.len(), k, t, at.0, at.1, at.2, budget, out.as_mut_ptr(), out.len(),
        )
    }
}

#[inline]
pub fn write_plain(list: &[u8], out: &mut [u8]) -> Flat {
    unsafe { xr_write_plain(list.as_ptr(), list.len(), out.as_mut_ptr(), out.len()) }
}

#[inline]
pub fn write_careful(list: &[u8], out: &mut [u8]) -> Flat {
    unsafe { xr_write_careful(list.as_ptr(), list.len(), out.as_mut_ptr(), out.len()) }
}

#[inline]
pub fn parse(r: u8, s: &[u8]) -> Flat {
    unsafe { xr_parse(r, s.as_ptr(), s.len()) }
}

#[inline]
pub fn block_at(r: u8, s: &[u8], at: usize) -> FlatBlock {
    unsafe { xr_block_at(r, s.as_ptr(), s.len(), at) }
}

#[inline]
pub fn fields_view(r: u8, t: u8, v: &[u8]) -> FlatFields {
    unsafe { xr_fields_view(r, t, v.as_ptr(), v.len()) }
}

#[inline]
pub fn time_view(r: u8, v: &[u8]) -> Flat {
    unsafe { xr_time_view(r, v.as_ptr(), v.len()) }
}

#[inline]
pub fn pairs_view(r: u8, v: &[u8], numbers: &mut [u16], times: &mut [u32]) -> Flat {
    unsafe {
        xr_pairs_view(r, v.as_ptr(), v.len(), numbers.as_mut_ptr(), numbers.len(), times.as_mut_ptr(), times.len())
    }
}

#[inline]
pub fn entries_view(r: u8, v: &[u8], ssrcs: &mut [u32], lasts: &mut [u32], delays: &mut [u32]) -> Flat {
    unsafe {
        xr_entries_view(
            r, v.as_ptr(), v.len(),
            ssrcs.as_mut_ptr(), ssrcs.len(), lasts.as_mut_ptr(), lasts.len(), delays.as_mut_ptr(), delays.len(),
        )
    }
}

#[inline]
pub fn portions_start() -> Portions {
    unsafe { xr_portions_start() }
}

#[inline]
pub fn follow(
    state: Portions, x: &[u8], tags: &mut [u64], numbers: &mut [u16], values: &mut [u64], sums: &mut [u64],
) -> FlatFollowed {
    unsafe {
        xr_follow(
            state, x.as_ptr(), x.len(),
            tags.as_mut_ptr(), tags.len(), numbers.as_mut_ptr(), numbers.len(), values.as_mut_ptr(), values.len(),
            sums.as_mut_ptr(), sums.len(),
        )
    }
}
