//! Made by tools/calls from the exports; not to be changed by hand.
//!
//! Every exported call by its own name without `desk_`, with the numbers and slices that it takes and the number that it gives: 0
//! for done, and otherwise the lowest refusal that applies (docs/RULES.md, "What the desk gets back"). A call that refuses nothing
//! gives its answer. The functions beside this module have enums, values and [`Refusal`](crate::Refusal)s instead of numbers.

// SAFETY, of every call below: the proved code takes every number and every byte, reads at most what it is lent for reading and
// writes at most what it is lent for writing. Each pointer goes with its own length, and what is lent for writing is the
// caller's alone while the call lasts, as `&mut` says.
#![allow(clippy::too_many_arguments)]

/// The nine numbers of a conversion, each within -16 to 16, `kr` and `kb` within 0 to 0.4375. Offsets and
/// gains are of values by the largest code of their depth. `luma_lift`, `chroma_cos` and `chroma_sin` are
/// 0, 1 and 0 where nothing is adjusted.
#[repr(C)]
#[derive(Debug, Clone, Copy, PartialEq)]
pub struct Conversion {
    pub luma_offset: f32,
    pub luma_gain: f32,
    pub chroma_offset: f32,
    pub chroma_gain: f32,
    pub kr: f32,
    pub kb: f32,
    pub luma_lift: f32,
    pub chroma_cos: f32,
    pub chroma_sin: f32,
}

/// A plane's shape as the host gives it. The numbers are wider than a shape's own, so that none can wrap
/// into the bounds; a call refuses those outside.
#[repr(C)]
#[derive(Debug, Clone, Copy, PartialEq, Eq)]
pub struct PlaneNumbers {
    /// Samples of one component in a row.
    pub width: u32,
    pub height: u32,
    /// Bits of a sample.
    pub depth: u32,
    /// Bytes from one row to the next.
    pub stride: u32,
    /// 0 planar, 1 the luma of a biplanar frame, 2 and 3 the first and the second of two components that
    /// share a plane.
    pub layout: u32,
}

/// The shape of a plane whose codes are not shifted: of a picture, or of a field, whose rows are
/// its lines. The numbers are wider than a shape's own too.
#[repr(C)]
#[derive(Debug, Clone, Copy, PartialEq, Eq)]
pub struct GridNumbers {
    /// Samples in a row.
    pub width: u32,
    pub height: u32,
    /// Bits of a sample.
    pub depth: u32,
    /// Bytes from one row to the next.
    pub stride: u32,
}

/// What is shown of three frames.
#[repr(C)]
#[derive(Debug, Clone, Copy, PartialEq, Eq)]
pub struct OutputNumbers {
    /// The field: 0 top, 1 bottom, 2 neither, which is Weave whatever the quality.
    pub field: u32,
    /// The field whose rows come from the earlier frame when film is put together again, likewise.
    pub weave: u32,
    /// The frame that serves as earlier: 0 the previous one, 1 the current one, 2 the next.
    pub earlier: u32,
    /// The frame that serves as later, likewise.
    pub later: u32,
}

/// The shapes of a frame's three planes. Where two components share a plane, both name it, and the same
/// bytes are lent twice.
#[repr(C)]
#[derive(Debug, Clone, Copy, PartialEq, Eq)]
pub struct FrameNumbers {
    pub luma: PlaneNumbers,
    pub cb: PlaneNumbers,
    pub cr: PlaneNumbers,
}

/// The three planes of a field, which has at most 2,176 lines.
#[repr(C)]
#[derive(Debug, Clone, Copy, PartialEq, Eq)]
pub struct FieldNumbers {
    pub luma: GridNumbers,
    pub cb: GridNumbers,
    pub cr: GridNumbers,
}

/// What is said of a stream's pictures. The last three are 0 or 1.
#[repr(C)]
#[derive(Debug, Clone, Copy, PartialEq, Eq)]
pub struct FormatNumbers {
    pub width: u32,
    pub height: u32,
    pub depth: u32,
    pub rate_numerator: u32,
    pub rate_denominator: u32,
    pub field_pictures: u32,
    pub progressive: u32,
    pub woven: u32,
}

/// What was read back: how many planes, the frame's size and depth, and each plane's bytes from one row
/// to the next.
#[repr(C)]
#[derive(Debug, Clone, Copy, PartialEq, Eq)]
pub struct ReadbackNumbers {
    /// 2 where the chroma components share a plane, or 3.
    pub planes: u32,
    pub width: u32,
    pub height: u32,
    pub depth: u32,
    pub luma_pitch: u32,
    pub second_pitch: u32,
    pub third_pitch: u32,
}

mod exported {
    use super::*;

    #[link(name = "desk", kind = "static")]
    unsafe extern "C" {
        pub(super) fn desk_to_rgb(
            conversion: Conversion, y: f32, cb: f32, cr: f32, red: *mut f32, green: *mut f32, blue: *mut f32,
        ) -> u8;
        pub(super) fn desk_quantise(value: f32) -> u8;
        pub(super) fn desk_luma(primaries: u8, red: *mut f32, green: *mut f32, blue: *mut f32) -> u8;
        pub(super) fn desk_comb(
            plane: *const u8, plane_len: usize, width: u32, height: u32, depth: u32, stride: u32, total: *mut u64,
        ) -> u8;
        pub(super) fn desk_comb_rgba(rgba: *const u8, rgba_len: usize, width: u32, height: u32, total: *mut u64) -> u8;
        pub(super) fn desk_first_field(structure: u8, top_field_first: u8, parity: *mut u8) -> u8;
        pub(super) fn desk_edge(
            cur: *const u8, cur_len: usize, shape: PlaneNumbers, x: i32, y: i32, slant: *mut i32,
        ) -> u8;
        pub(super) fn desk_sample(
            quality: u8, before: *const u8, before_len: usize, before_shape: PlaneNumbers, cur: *const u8, cur_len: usize,
            cur_shape: PlaneNumbers, after: *const u8, after_len: usize, after_shape: PlaneNumbers, first: u32, mate: u32,
            x: i32, y: i32, value: *mut f32,
        ) -> u8;
        pub(super) fn desk_plane(
            quality: u8, first: u8, before: *const u8, before_len: usize, before_shape: PlaneNumbers, cur: *const u8,
            cur_len: usize, cur_shape: PlaneNumbers, after: *const u8, after_len: usize, after_shape: PlaneNumbers,
            out: *mut f32, out_len: usize,
        ) -> u8;
        pub(super) fn desk_code(
            plane: *const u8, plane_len: usize, shape: PlaneNumbers, x: i32, y: i32, code: *mut u16,
        ) -> u8;
        pub(super) fn desk_at(
            plane: *const u8, plane_len: usize, shape: PlaneNumbers, x: i32, y: i32, value: *mut f32,
        ) -> u8;
    }

    #[link(name = "filmdesk", kind = "static")]
    unsafe extern "C" {
        pub(super) fn desk_busy(
            plane: *const u8, plane_len: usize, grid: GridNumbers, store: *const u8, store_len: usize, parity: u8,
            busy: *mut u64, total: *mut u64,
        ) -> u8;
        pub(super) fn desk_cadences(entries: *const u8, entries_len: usize, out: *mut u8, out_len: usize) -> u8;
        pub(super) fn desk_detector_new(state: *mut u8, state_len: usize) -> u8;
        pub(super) fn desk_detector_reset(state: *mut u8, state_len: usize) -> u8;
        pub(super) fn desk_detector_locked(state: *const u8, state_len: usize, locked: *mut u8) -> u8;
        pub(super) fn desk_detector_predict(state: *const u8, state_len: usize, ahead: u64, cadence: *mut u8) -> u8;
        pub(super) fn desk_detector_push_measured(
            state: *mut u8, state_len: usize, parity: u8, present: u8, busy: u64, total: u64, other_busy: u64,
            other_total: u64, cadence: *mut u8,
        ) -> u8;
        pub(super) fn desk_detector_push(
            state: *mut u8, state_len: usize, parity: u8, plane: *const u8, plane_len: usize, grid: GridNumbers,
            store: *mut u8, store_len: usize, cadence: *mut u8,
        ) -> u8;
    }

    #[link(name = "picturedesk", kind = "static")]
    unsafe extern "C" {
        pub(super) fn desk_picture(
            quality: u8, output: OutputNumbers, conversion: Conversion, previous: FrameNumbers, previous_luma: *const u8,
            previous_luma_len: usize, previous_cb: *const u8, previous_cb_len: usize, previous_cr: *const u8,
            previous_cr_len: usize, current: FrameNumbers, current_luma: *const u8, current_luma_len: usize,
            current_cb: *const u8, current_cb_len: usize, current_cr: *const u8, current_cr_len: usize,
            next: FrameNumbers, next_luma: *const u8, next_luma_len: usize, next_cb: *const u8, next_cb_len: usize,
            next_cr: *const u8, next_cr_len: usize, out: *mut u8, out_len: usize,
        ) -> u8;
    }

    #[link(name = "weavedesk", kind = "static")]
    unsafe extern "C" {
        pub(super) fn desk_weave(
            top: FieldNumbers, top_luma: *const u8, top_luma_len: usize, top_cb: *const u8, top_cb_len: usize,
            top_cr: *const u8, top_cr_len: usize, bottom: FieldNumbers, bottom_luma: *const u8, bottom_luma_len: usize,
            bottom_cb: *const u8, bottom_cb_len: usize, bottom_cr: *const u8, bottom_cr_len: usize, out_luma: *mut u8,
            out_luma_len: usize, out_cb: *mut u8, out_cb_len: usize, out_cr: *mut u8, out_cr_len: usize,
        ) -> u8;
        pub(super) fn desk_line_number(
            top: GridNumbers, top_bytes: u64, bottom: GridNumbers, bottom_bytes: u64, y: u32,
        ) -> u8;
        pub(super) fn desk_woven_line(
            top: *const u8, top_len: usize, top_lines: GridNumbers, bottom: *const u8, bottom_len: usize,
            bottom_lines: GridNumbers, y: u32, out: *mut u8, out_len: usize,
        ) -> u8;
        pub(super) fn desk_woven(field: FormatNumbers) -> FormatNumbers;
        pub(super) fn desk_readback_sizes(
            about: ReadbackNumbers, luma: *const u8, luma_len: usize, second: *const u8, second_len: usize,
            third: *const u8, third_len: usize, luma_bytes: *mut u64, cb_bytes: *mut u64, cr_bytes: *mut u64,
        ) -> u8;
        pub(super) fn desk_readback_copy(
            about: ReadbackNumbers, luma: *const u8, luma_len: usize, second: *const u8, second_len: usize,
            third: *const u8, third_len: usize, out_luma: *mut u8, out_luma_len: usize, out_cb: *mut u8,
            out_cb_len: usize, out_cr: *mut u8, out_cr_len: usize,
        ) -> u8;
        pub(super) fn desk_weaver_new(state: *mut u8, state_len: usize) -> u8;
        pub(super) fn desk_weaver_clear(state: *mut u8, state_len: usize) -> u8;
        pub(super) fn desk_weaver_push(
            state: *mut u8, state_len: usize, parity: u8, timed: u8, time: i64, shape: FieldNumbers, luma: *const u8,
            luma_len: usize, cb: *const u8, cb_len: usize, cr: *const u8, cr_len: usize, store: *mut u8, store_len: usize,
            out_luma: *mut u8, out_luma_len: usize, out_cb: *mut u8, out_cb_len: usize, out_cr: *mut u8,
            out_cr_len: usize, picture: *mut u8, earlier_timed: *mut u8, earlier_time: *mut i64,
        ) -> u8;
    }
}

/// Y'CbCr to red, green and blue. Gives 0; or 8, and then all that is lent is as it was.
#[inline]
pub fn to_rgb(conversion: Conversion, y: f32, cb: f32, cr: f32, red: &mut f32, green: &mut f32, blue: &mut f32) -> u8 {
    // SAFETY: above.
    unsafe {
        exported::desk_to_rgb(conversion, y, cb, cr, red, green, blue)
    }
}

/// A value as a byte, of every float; a NaN gives 0. Refuses nothing.
#[inline]
pub fn quantise(value: f32) -> u8 {
    // SAFETY: above.
    unsafe {
        exported::desk_quantise(value)
    }
}

/// The weights of red, green and blue in luma, by the code of the primaries: 0 BT.709, 1 BT.2020. Gives
/// 0; or 3, and then all that is lent is as it was.
#[inline]
pub fn luma(primaries: u8, red: &mut f32, green: &mut f32, blue: &mut f32) -> u8 {
    // SAFETY: above.
    unsafe {
        exported::desk_luma(primaries, red, green, blue)
    }
}

/// The comb of a plane. Its codes are not shifted, and one above 2^depth - 1 counts as that. The luma
/// of a biplanar frame deeper than 8 bits has its codes in the high bits, where nearly every one counts
/// so: it goes through readback first. Gives 0; or 4 or 6, and then all that is lent is as it was.
#[inline]
pub fn comb(plane: &[u8], width: u32, height: u32, depth: u32, stride: u32, total: &mut u64) -> u8 {
    // SAFETY: above.
    unsafe {
        exported::desk_comb(plane.as_ptr(), plane.len(), width, height, depth, stride, total)
    }
}

/// The comb of the green of an RGBA picture. Gives 0; or 4 or 6, and then all that is lent is as it
/// was.
#[inline]
pub fn comb_rgba(rgba: &[u8], width: u32, height: u32, total: &mut u64) -> u8 {
    // SAFETY: above.
    unsafe {
        exported::desk_comb_rgba(rgba.as_ptr(), rgba.len(), width, height, total)
    }
}

/// The field that comes first in time, 0 top or 1 bottom, of a picture whose structure is 0 frame, 1
/// top or 2 bottom and whose flag is 0 or 1. Gives 0; or 3, and then all that is lent is as it was.
#[inline]
pub fn first_field(structure: u8, top_field_first: u8, parity: &mut u8) -> u8 {
    // SAFETY: above.
    unsafe {
        exported::desk_first_field(structure, top_field_first, parity)
    }
}

/// How the edge runs at a place of a missing row, from -2 to 2. Gives 0; or 3, 4 or 6, and then all
/// that is lent is as it was.
#[inline]
pub fn edge(cur: &[u8], shape: PlaneNumbers, x: i32, y: i32, slant: &mut i32) -> u8 {
    // SAFETY: above.
    unsafe {
        exported::desk_edge(cur.as_ptr(), cur.len(), shape, x, y, slant)
    }
}

/// The value at a place, by the quality's code: 0 Weave, 1 Bob, 2 Yadif, 3 Bwdif. `first` is 0 or 1 and
/// `mate` 0, 1 or 2 for none. Gives 0; or 3, 4, 5 or 6, and then all that is lent is as it was.
#[inline]
pub fn sample(
    quality: u8, before: &[u8], before_shape: PlaneNumbers, cur: &[u8], cur_shape: PlaneNumbers, after: &[u8],
    after_shape: PlaneNumbers, first: u32, mate: u32, x: i32, y: i32, value: &mut f32,
) -> u8 {
    // SAFETY: above.
    unsafe {
        exported::desk_sample(
            quality, before.as_ptr(), before.len(), before_shape, cur.as_ptr(), cur.len(), cur_shape, after.as_ptr(),
            after.len(), after_shape, first, mate, x, y, value,
        )
    }
}

/// The samples of a whole plane, row by row, of which the rows `first`, 0 or 1, are shown. Gives 0; or
/// 3, 4, 5, 6 or 7, and then all that is lent is as it was.
#[inline]
pub fn plane(
    quality: u8, first: u8, before: &[u8], before_shape: PlaneNumbers, cur: &[u8], cur_shape: PlaneNumbers,
    after: &[u8], after_shape: PlaneNumbers, out: &mut [f32],
) -> u8 {
    // SAFETY: above.
    unsafe {
        exported::desk_plane(
            quality, first, before.as_ptr(), before.len(), before_shape, cur.as_ptr(), cur.len(), cur_shape,
            after.as_ptr(), after.len(), after_shape, out.as_mut_ptr(), out.len(),
        )
    }
}

/// The code at a place inside the plane, at most 2^depth - 1. Gives 0; or 3, 4 or 6, and then all that
/// is lent is as it was.
#[inline]
pub fn code(plane: &[u8], shape: PlaneNumbers, x: i32, y: i32, code: &mut u16) -> u8 {
    // SAFETY: above.
    unsafe {
        exported::desk_code(plane.as_ptr(), plane.len(), shape, x, y, code)
    }
}

/// The value, from 0 to 1, at coordinates from -65,536 to 65,536, each clamped to the plane. Gives 0;
/// or 3, 4 or 6, and then all that is lent is as it was.
#[inline]
pub fn at(plane: &[u8], shape: PlaneNumbers, x: i32, y: i32, value: &mut f32) -> u8 {
    // SAFETY: above.
    unsafe {
        exported::desk_at(plane.as_ptr(), plane.len(), shape, x, y, value)
    }
}

/// Busy blocks and all blocks of a field, 0 top or 1 bottom, against the same field of the frame that
/// `store` keeps as 8-bit samples, row by row. Codes are not shifted, and one above 2^depth - 1 counts
/// as that: a biplanar luma deeper than 8 bits, whose codes stand in the high bits, goes through
/// readback first. Gives 0; or 3, 4 or 6, and then all that is lent is as it was.
#[inline]
pub fn busy(plane: &[u8], grid: GridNumbers, store: &[u8], parity: u8, busy: &mut u64, total: &mut u64) -> u8 {
    // SAFETY: above.
    unsafe {
        exported::desk_busy(plane.as_ptr(), plane.len(), grid, store.as_ptr(), store.len(), parity, busy, total)
    }
}

/// The cadence of each measured entry of twelve bytes from a fresh detector: 0 None, 1 Whole, 2 Drop, 3
/// Spanning. Gives 0; or 3, 6, 7 or 9, and then all that is lent is as it was.
#[inline]
pub fn cadences(entries: &[u8], out: &mut [u8]) -> u8 {
    // SAFETY: above.
    unsafe {
        exported::desk_cadences(entries.as_ptr(), entries.len(), out.as_mut_ptr(), out.len())
    }
}

/// A fresh detector at the start of `state`. Gives 0; or 7, and then all that is lent is as it was.
#[inline]
pub fn detector_new(state: &mut [u8]) -> u8 {
    // SAFETY: above.
    unsafe {
        exported::desk_detector_new(state.as_mut_ptr(), state.len())
    }
}

/// Starts the detector again; only which field led in the last frame is remembered. Gives 0; or 6, and
/// then all that is lent is as it was.
#[inline]
pub fn detector_reset(state: &mut [u8]) -> u8 {
    // SAFETY: above.
    unsafe {
        exported::desk_detector_reset(state.as_mut_ptr(), state.len())
    }
}

/// Whether the detector is locked, 0 or 1. Gives 0; or 6, and then all that is lent is as it was.
#[inline]
pub fn detector_locked(state: &[u8], locked: &mut u8) -> u8 {
    // SAFETY: above.
    unsafe {
        exported::desk_detector_locked(state.as_ptr(), state.len(), locked)
    }
}

/// The cadence of the frame that comes after `ahead` others. Gives 0; or 6 or 10, and then all that is
/// lent is as it was.
#[inline]
pub fn detector_predict(state: &[u8], ahead: u64, cadence: &mut u8) -> u8 {
    // SAFETY: above.
    unsafe {
        exported::desk_detector_predict(state.as_ptr(), state.len(), ahead, cadence)
    }
}

/// Takes counts of a frame led by the field `parity`, or none where `present` is 0: busy and all blocks
/// of the leading field, then of the trailing. Gives 0; or 3, 6 or 9, and then all that is lent is as
/// it was.
#[inline]
pub fn detector_push_measured(
    state: &mut [u8], parity: u8, present: u8, busy: u64, total: u64, other_busy: u64, other_total: u64,
    cadence: &mut u8,
) -> u8 {
    // SAFETY: above.
    unsafe {
        exported::desk_detector_push_measured(
            state.as_mut_ptr(), state.len(), parity, present, busy, total, other_busy, other_total, cadence,
        )
    }
}

/// Takes a picture led by the field `parity`, compares it with the frame that the store keeps, and
/// keeps it there. Codes are not shifted, and one above 2^depth - 1 counts as that: a biplanar luma
/// deeper than 8 bits, whose codes stand in the high bits, goes through readback first. Gives 0; or 3,
/// 4, 6, 7 or 9, and then all that is lent is as it was.
#[inline]
pub fn detector_push(
    state: &mut [u8], parity: u8, plane: &[u8], grid: GridNumbers, store: &mut [u8], cadence: &mut u8,
) -> u8 {
    // SAFETY: above.
    unsafe {
        exported::desk_detector_push(
            state.as_mut_ptr(), state.len(), parity, plane.as_ptr(), plane.len(), grid, store.as_mut_ptr(), store.len(),
            cadence,
        )
    }
}

/// A picture of four bytes a pixel, red, green, blue and 255. The quality is 0 Weave, 1 Bob, 2 Yadif, 3
/// Bwdif. Gives 0; or 3, 4, 5, 6, 7 or 8, and then all that is lent is as it was.
#[inline]
pub fn picture(
    quality: u8, output: OutputNumbers, conversion: Conversion, previous: FrameNumbers, previous_luma: &[u8],
    previous_cb: &[u8], previous_cr: &[u8], current: FrameNumbers, current_luma: &[u8], current_cb: &[u8],
    current_cr: &[u8], next: FrameNumbers, next_luma: &[u8], next_cb: &[u8], next_cr: &[u8], out: &mut [u8],
) -> u8 {
    // SAFETY: above.
    unsafe {
        exported::desk_picture(
            quality, output, conversion, previous, previous_luma.as_ptr(), previous_luma.len(), previous_cb.as_ptr(),
            previous_cb.len(), previous_cr.as_ptr(), previous_cr.len(), current, current_luma.as_ptr(),
            current_luma.len(), current_cb.as_ptr(), current_cb.len(), current_cr.as_ptr(), current_cr.len(), next,
            next_luma.as_ptr(), next_luma.len(), next_cb.as_ptr(), next_cb.len(), next_cr.as_ptr(), next_cr.len(),
            out.as_mut_ptr(), out.len(),
        )
    }
}

/// Two fields' lines in turn, the top field's first; each woven plane is tightly packed. Gives 0; or 4,
/// 5, 6 or 7, and then all that is lent is as it was.
#[inline]
pub fn weave(
    top: FieldNumbers, top_luma: &[u8], top_cb: &[u8], top_cr: &[u8], bottom: FieldNumbers, bottom_luma: &[u8],
    bottom_cb: &[u8], bottom_cr: &[u8], out_luma: &mut [u8], out_cb: &mut [u8], out_cr: &mut [u8],
) -> u8 {
    // SAFETY: above.
    unsafe {
        exported::desk_weave(
            top, top_luma.as_ptr(), top_luma.len(), top_cb.as_ptr(), top_cb.len(), top_cr.as_ptr(), top_cr.len(), bottom,
            bottom_luma.as_ptr(), bottom_luma.len(), bottom_cb.as_ptr(), bottom_cb.len(), bottom_cr.as_ptr(),
            bottom_cr.len(), out_luma.as_mut_ptr(), out_luma.len(), out_cb.as_mut_ptr(), out_cb.len(),
            out_cr.as_mut_ptr(), out_cr.len(),
        )
    }
}

/// The number of a single woven line, from the lengths of the two planes, of fields with at most 2,176
/// lines. Gives 0; or 3, 4, 5 or 6.
#[inline]
pub fn line_number(top: GridNumbers, top_bytes: u64, bottom: GridNumbers, bottom_bytes: u64, y: u32) -> u8 {
    // SAFETY: above.
    unsafe {
        exported::desk_line_number(top, top_bytes, bottom, bottom_bytes, y)
    }
}

/// The bytes of a single woven line, copied out, of fields with at most 2,176 lines. Gives 0; or 3, 4,
/// 5, 6 or 7, and then all that is lent is as it was.
#[inline]
pub fn woven_line(
    top: &[u8], top_lines: GridNumbers, bottom: &[u8], bottom_lines: GridNumbers, y: u32, out: &mut [u8],
) -> u8 {
    // SAFETY: above.
    unsafe {
        exported::desk_woven_line(
            top.as_ptr(), top.len(), top_lines, bottom.as_ptr(), bottom.len(), bottom_lines, y, out.as_mut_ptr(),
            out.len(),
        )
    }
}

/// The format of the frames woven from fields of a format. A flag other than 0 counts as 1. Refuses
/// nothing.
#[inline]
pub fn woven(field: FormatNumbers) -> FormatNumbers {
    // SAFETY: above.
    unsafe {
        exported::desk_woven(field)
    }
}

/// How many bytes each output of `desk_readback_copy` needs for these planes. Of two planes the second
/// has both chroma components, and the third is not looked at. Gives 0; or 1, 2, 4 or 6, and then all
/// that is lent is as it was.
#[inline]
pub fn readback_sizes(
    about: ReadbackNumbers, luma: &[u8], second: &[u8], third: &[u8], luma_bytes: &mut u64, cb_bytes: &mut u64,
    cr_bytes: &mut u64,
) -> u8 {
    // SAFETY: above.
    unsafe {
        exported::desk_readback_sizes(
            about, luma.as_ptr(), luma.len(), second.as_ptr(), second.len(), third.as_ptr(), third.len(), luma_bytes,
            cb_bytes, cr_bytes,
        )
    }
}

/// A frame read back, without padding, in three planes, each at the start of its output. Of two planes
/// cb and cr are both read from the second. The planes are judged as for `desk_readback_sizes`, whether
/// it was called or not. Gives 0; or 1, 2, 4, 6 or 7, and then all that is lent is as it was.
#[inline]
pub fn readback_copy(
    about: ReadbackNumbers, luma: &[u8], second: &[u8], third: &[u8], out_luma: &mut [u8], out_cb: &mut [u8],
    out_cr: &mut [u8],
) -> u8 {
    // SAFETY: above.
    unsafe {
        exported::desk_readback_copy(
            about, luma.as_ptr(), luma.len(), second.as_ptr(), second.len(), third.as_ptr(), third.len(),
            out_luma.as_mut_ptr(), out_luma.len(), out_cb.as_mut_ptr(), out_cb.len(), out_cr.as_mut_ptr(), out_cr.len(),
        )
    }
}

/// A weaver with no field, at the start of `state`. Gives 0; or 7, and then all that is lent is as it
/// was.
#[inline]
pub fn weaver_new(state: &mut [u8]) -> u8 {
    // SAFETY: above.
    unsafe {
        exported::desk_weaver_new(state.as_mut_ptr(), state.len())
    }
}

/// Throws away the field that waits. Gives 0; or 6, and then all that is lent is as it was.
#[inline]
pub fn weaver_clear(state: &mut [u8]) -> u8 {
    // SAFETY: above.
    unsafe {
        exported::desk_weaver_clear(state.as_mut_ptr(), state.len())
    }
}

/// Takes a field of parity 0 top or 1 bottom; where `timed` is 1 it has the time `time`. `picture` gets
/// 1 where the outputs have a picture, else 0; `earlier_timed` and `earlier_time` get the earlier
/// field's time where there is a picture and it has one, else 0. `store` keeps the field that waits,
/// and comes back as it was left. Gives 0; or 3, 4, 5, 6 or 7, and then all that is lent is as it was.
#[inline]
pub fn weaver_push(
    state: &mut [u8], parity: u8, timed: u8, time: i64, shape: FieldNumbers, luma: &[u8], cb: &[u8], cr: &[u8],
    store: &mut [u8], out_luma: &mut [u8], out_cb: &mut [u8], out_cr: &mut [u8], picture: &mut u8,
    earlier_timed: &mut u8, earlier_time: &mut i64,
) -> u8 {
    // SAFETY: above.
    unsafe {
        exported::desk_weaver_push(
            state.as_mut_ptr(), state.len(), parity, timed, time, shape, luma.as_ptr(), luma.len(), cb.as_ptr(), cb.len(),
            cr.as_ptr(), cr.len(), store.as_mut_ptr(), store.len(), out_luma.as_mut_ptr(), out_luma.len(),
            out_cb.as_mut_ptr(), out_cb.len(), out_cr.as_mut_ptr(), out_cr.len(), picture, earlier_timed, earlier_time,
        )
    }
}

/// An exported call.
#[derive(Debug, Clone, Copy, PartialEq, Eq)]
pub struct Call {
    /// Its name without `desk_`.
    pub name: &'static str,
    /// The crate that exports it, and the archive that a host links.
    pub archive: &'static str,
    /// The numbers that it gives where it refuses.
    pub refusals: &'static [u8],
}

/// All of them, those of an archive in the order of their numbers in the list that its program `replay_..` reads.
pub const CALLS: [Call; 29] = [
    Call { name: "to_rgb", archive: "desk", refusals: &[8] },
    Call { name: "quantise", archive: "desk", refusals: &[] },
    Call { name: "luma", archive: "desk", refusals: &[3] },
    Call { name: "comb", archive: "desk", refusals: &[4, 6] },
    Call { name: "comb_rgba", archive: "desk", refusals: &[4, 6] },
    Call { name: "first_field", archive: "desk", refusals: &[3] },
    Call { name: "edge", archive: "desk", refusals: &[3, 4, 6] },
    Call { name: "sample", archive: "desk", refusals: &[3, 4, 5, 6] },
    Call { name: "plane", archive: "desk", refusals: &[3, 4, 5, 6, 7] },
    Call { name: "code", archive: "desk", refusals: &[3, 4, 6] },
    Call { name: "at", archive: "desk", refusals: &[3, 4, 6] },
    Call { name: "busy", archive: "filmdesk", refusals: &[3, 4, 6] },
    Call { name: "cadences", archive: "filmdesk", refusals: &[3, 6, 7, 9] },
    Call { name: "detector_new", archive: "filmdesk", refusals: &[7] },
    Call { name: "detector_reset", archive: "filmdesk", refusals: &[6] },
    Call { name: "detector_locked", archive: "filmdesk", refusals: &[6] },
    Call { name: "detector_predict", archive: "filmdesk", refusals: &[6, 10] },
    Call { name: "detector_push_measured", archive: "filmdesk", refusals: &[3, 6, 9] },
    Call { name: "detector_push", archive: "filmdesk", refusals: &[3, 4, 6, 7, 9] },
    Call { name: "picture", archive: "picturedesk", refusals: &[3, 4, 5, 6, 7, 8] },
    Call { name: "weave", archive: "weavedesk", refusals: &[4, 5, 6, 7] },
    Call { name: "line_number", archive: "weavedesk", refusals: &[3, 4, 5, 6] },
    Call { name: "woven_line", archive: "weavedesk", refusals: &[3, 4, 5, 6, 7] },
    Call { name: "woven", archive: "weavedesk", refusals: &[] },
    Call { name: "readback_sizes", archive: "weavedesk", refusals: &[1, 2, 4, 6] },
    Call { name: "readback_copy", archive: "weavedesk", refusals: &[1, 2, 4, 6, 7] },
    Call { name: "weaver_new", archive: "weavedesk", refusals: &[7] },
    Call { name: "weaver_clear", archive: "weavedesk", refusals: &[6] },
    Call { name: "weaver_push", archive: "weavedesk", refusals: &[3, 4, 5, 6, 7] },
];
