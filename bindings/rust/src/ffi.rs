//! The archive's functions (include/denkumari.h), called with slices. Everything `unsafe` is here: each call passes the pointers and lengths of
//! slices that live as long as the call, those that are written behind `&mut`, so that none overlaps another.

use crate::readback::Given;
use crate::{Banks, Choices, Nodes, Padding, Spans};

#[repr(C)]
pub struct DkLayout {
    pub refusal: u64,
    pub place: u64,
    pub second: u64,
    pub passes: u64,
    pub k: u64,
    pub length: u64,
    pub spans: u64,
    pub padding: [Padding; 16],
}

#[repr(C)]
pub struct DkProfile {
    pub refusal: u64,
    pub place: u64,
    pub second: u64,
    pub pages: [u64; 16],
}

#[repr(C)]
pub struct DkExtent {
    pub refusal: u64,
    pub lowest: u64,
    pub end: u64,
}

#[repr(C)]
pub struct DkFault {
    pub fault: u64,
    pub line: u64,
}

#[repr(C)]
pub struct DkReason {
    pub reason: u64,
    pub line: u64,
    pub first: u64,
    pub second: u64,
}

#[repr(C)]
pub struct DkCount {
    pub refusal: u64,
    pub place: u64,
    pub count: u64,
}

#[repr(C)]
pub struct DkPart {
    pub refusal: u64,
    pub start: u64,
    pub length: u64,
}

#[repr(C)]
pub struct DkOverlay {
    pub refusal: u64,
    pub image: u64,
    pub start: u64,
    pub length: u64,
}

#[repr(C)]
pub struct DkMap {
    pub refusal: u64,
    pub stopped: u64,
    pub place: u64,
    pub second: u64,
    pub node: u64,
    pub passes: u64,
    pub nodes: u64,
    pub padding: [Padding; 16],
}

/// What is lent to a map: each list has a place for every node that a layout can have.
pub struct MapLists {
    pub banks: Box<[u64; 4096]>,
    pub positions: Box<[u32; 4096]>,
    pub outputs: Box<[u64; 4096]>,
    pub sizes: Box<[u32; 4096]>,
}

impl MapLists {
    pub fn new() -> MapLists {
        MapLists { banks: Box::new([0; 4096]), positions: Box::new([0; 4096]), outputs: Box::new([0; 4096]), sizes: Box::new([0; 4096]) }
    }
}

#[rustfmt::skip]
extern "C" {
    fn dk_map(
        units: *const u16, units_len: usize, starts: *const i64, starts_len: usize, bank_sizes: *const u32, bank_sizes_len: usize,
        bank_offsets: *const u32, bank_offsets_len: usize, aligns: *const u32, aligns_len: usize, flags: *const u8, flags_len: usize,
        fill_bits: *const u8, fill_bits_len: usize, kinds: *const u8, kinds_len: usize, operands: *const u32, operands_len: usize,
        numbers: *const u32, numbers_len: usize, states: *const u8, states_len: usize, rows: u64, values: *const u8, values_len: usize,
        limit: u8, fill: u8, closed: u8, banks_of: *mut u64, positions: *mut u32, outputs: *mut u64, sizes: *mut u32,
    ) -> DkMap;
    fn dk_build(
        units: *const u16, units_len: usize, starts: *const i64, starts_len: usize, bank_sizes: *const u32, bank_sizes_len: usize,
        bank_offsets: *const u32, bank_offsets_len: usize, aligns: *const u32, aligns_len: usize, flags: *const u8, flags_len: usize,
        fill_bits: *const u8, fill_bits_len: usize, kinds: *const u8, kinds_len: usize, operands: *const u32, operands_len: usize,
        numbers: *const u32, numbers_len: usize, states: *const u8, states_len: usize, rows: u64, values: *const u8, values_len: usize,
        limit: u8, fill: u8, closed: u8,
        image: *mut u8, image_len: usize, addresses: *mut i64, addresses_len: usize, offsets: *mut u64, offsets_len: usize,
        sizes: *mut u64, sizes_len: usize,
    ) -> DkLayout;
    fn dk_build_paged(
        page: u32,
        units: *const u16, units_len: usize, starts: *const i64, starts_len: usize, bank_sizes: *const u32, bank_sizes_len: usize,
        bank_offsets: *const u32, bank_offsets_len: usize, aligns: *const u32, aligns_len: usize, flags: *const u8, flags_len: usize,
        fill_bits: *const u8, fill_bits_len: usize, kinds: *const u8, kinds_len: usize, operands: *const u32, operands_len: usize,
        numbers: *const u32, numbers_len: usize, states: *const u8, states_len: usize, rows: u64, values: *const u8, values_len: usize,
        limit: u8, fill: u8, closed: u8,
        image: *mut u8, image_len: usize, addresses: *mut i64, addresses_len: usize, offsets: *mut u64, offsets_len: usize,
        sizes: *mut u64, sizes_len: usize,
    ) -> DkLayout;
    fn dk_profile(
        page: u32,
        units: *const u16, units_len: usize, starts: *const i64, starts_len: usize, bank_sizes: *const u32, bank_sizes_len: usize,
        bank_offsets: *const u32, bank_offsets_len: usize, aligns: *const u32, aligns_len: usize, flags: *const u8, flags_len: usize,
        fill_bits: *const u8, fill_bits_len: usize, kinds: *const u8, kinds_len: usize, operands: *const u32, operands_len: usize,
        numbers: *const u32, numbers_len: usize, states: *const u8, states_len: usize, rows: u64, values: *const u8, values_len: usize,
        fill: u8,
    ) -> DkProfile;
    fn dk_form_paged(
        file: *const u8, file_len: usize, fill: u8, page: u32, image: *mut u8, image_len: usize, addresses: *mut i64, addresses_len: usize,
        offsets: *mut u64, offsets_len: usize, sizes: *mut u64, sizes_len: usize,
    ) -> DkLayout;
    fn dk_write_hex(
        image: *const u8, image_len: usize, offsets: *const u64, offsets_len: usize, sizes: *const u64, sizes_len: usize,
        load: u32, text: *mut u8, text_len: usize,
    ) -> DkCount;
    fn dk_write_srec(
        image: *const u8, image_len: usize, offsets: *const u64, offsets_len: usize, sizes: *const u64, sizes_len: usize,
        load: u32, width: u8, text: *mut u8, text_len: usize,
    ) -> DkCount;
    fn dk_read_records(
        format: u8, text: *const u8, text_len: usize, load: u32, bytes: *mut u8, bytes_len: usize,
        offsets: *mut u64, offsets_len: usize, sizes: *mut u64, sizes_len: usize, scratch: *mut u8, scratch_len: usize,
    ) -> DkCount;
    fn dk_to_form2(file: *const u8, file_len: usize, out: *mut u8, out_len: usize) -> DkCount;
    fn dk_to_form1(file: *const u8, file_len: usize, out: *mut u8, out_len: usize) -> DkCount;
    fn dk_record_extent(format: u8, text: *const u8, text_len: usize, scratch: *mut u8, scratch_len: usize) -> DkExtent;
    fn dk_record_fault(format: u8, text: *const u8, text_len: usize, load: u32, scratch: *mut u8, scratch_len: usize) -> DkFault;
    fn dk_record_reason(format: u8, text: *const u8, text_len: usize, load: u32, scratch: *mut u8, scratch_len: usize) -> DkReason;
    fn dk_form(
        file: *const u8, file_len: usize, fill: u8, image: *mut u8, image_len: usize, addresses: *mut i64, addresses_len: usize,
        offsets: *mut u64, offsets_len: usize, sizes: *mut u64, sizes_len: usize,
    ) -> DkLayout;
    fn dk_blocks(
        offsets: *const u64, offsets_len: usize, sizes: *const u64, sizes_len: usize,
        block_offsets: *mut u64, block_offsets_len: usize, block_sizes: *mut u64, block_sizes_len: usize,
    ) -> DkCount;
    fn dk_hex(bytes: *const u8, bytes_len: usize, bits: u64, hex: *mut u8, hex_len: usize) -> DkCount;
    fn dk_part(image: *const u8, image_len: usize, offset: u64, size: u64) -> DkPart;
    fn dk_overlay_range(
        overlay: *const u8, overlay_len: usize, released: *const u8, released_len: usize,
        offsets: *const u64, offsets_len: usize, sizes: *const u64, sizes_len: usize, first: u64, count: u64,
    ) -> DkOverlay;
    fn dk_overlay_runs(
        overlay: *const u8, overlay_len: usize, released: *const u8, released_len: usize,
        offsets: *const u64, offsets_len: usize, sizes: *const u64, sizes_len: usize,
        firsts: *mut u64, firsts_len: usize, counts: *mut u64, counts_len: usize,
    ) -> DkCount;
    fn dk_verify(
        image: *const u8, image_len: usize, offsets: *const u64, offsets_len: usize, sizes: *const u64, sizes_len: usize,
        bytes: *const u8, bytes_len: usize, given_offsets: *const u64, given_offsets_len: usize, given_sizes: *const u64, given_sizes_len: usize,
        firsts: *mut u64, firsts_len: usize, counts: *mut u64, counts_len: usize, kinds: *mut u8, kinds_len: usize,
    ) -> DkCount;
}

#[rustfmt::skip]
pub fn build(b: &Banks<'_>, n: &Nodes<'_>, c: Choices, image: &mut [u8], s: Spans<'_>) -> DkLayout {
    let (fill, closed) = (c.fill as u8, c.closed as u8);
    // SAFETY: see the module
    unsafe {
        match c.page {
            None => dk_build(
                b.units.as_ptr(), b.units.len(), b.starts.as_ptr(), b.starts.len(), b.sizes.as_ptr(), b.sizes.len(),
                b.offsets.as_ptr(), b.offsets.len(), b.aligns.as_ptr(), b.aligns.len(), b.flags.as_ptr(), b.flags.len(),
                b.fill_bits.as_ptr(), b.fill_bits.len(),
                n.kinds.as_ptr(), n.kinds.len(), n.operands.as_ptr(), n.operands.len(), n.numbers.as_ptr(), n.numbers.len(),
                n.states.as_ptr(), n.states.len(), n.rows, n.values.as_ptr(), n.values.len(),
                n.limit, fill, closed,
                image.as_mut_ptr(), image.len(), s.addresses.as_mut_ptr(), s.addresses.len(), s.offsets.as_mut_ptr(), s.offsets.len(),
                s.sizes.as_mut_ptr(), s.sizes.len(),
            ),
            Some(page) => dk_build_paged(
                page, b.units.as_ptr(), b.units.len(), b.starts.as_ptr(), b.starts.len(), b.sizes.as_ptr(), b.sizes.len(),
                b.offsets.as_ptr(), b.offsets.len(), b.aligns.as_ptr(), b.aligns.len(), b.flags.as_ptr(), b.flags.len(),
                b.fill_bits.as_ptr(), b.fill_bits.len(),
                n.kinds.as_ptr(), n.kinds.len(), n.operands.as_ptr(), n.operands.len(), n.numbers.as_ptr(), n.numbers.len(),
                n.states.as_ptr(), n.states.len(), n.rows, n.values.as_ptr(), n.values.len(),
                n.limit, fill, closed,
                image.as_mut_ptr(), image.len(), s.addresses.as_mut_ptr(), s.addresses.len(), s.offsets.as_mut_ptr(), s.offsets.len(),
                s.sizes.as_mut_ptr(), s.sizes.len(),
            ),
        }
    }
}

#[rustfmt::skip]
pub fn profile(b: &Banks<'_>, n: &Nodes<'_>, fill: u8, page: u32) -> DkProfile {
    // SAFETY: see the module
    unsafe {
        dk_profile(
            page, b.units.as_ptr(), b.units.len(), b.starts.as_ptr(), b.starts.len(), b.sizes.as_ptr(), b.sizes.len(),
                b.offsets.as_ptr(), b.offsets.len(), b.aligns.as_ptr(), b.aligns.len(), b.flags.as_ptr(), b.flags.len(),
                b.fill_bits.as_ptr(), b.fill_bits.len(),
                n.kinds.as_ptr(), n.kinds.len(), n.operands.as_ptr(), n.operands.len(), n.numbers.as_ptr(), n.numbers.len(),
                n.states.as_ptr(), n.states.len(), n.rows, n.values.as_ptr(), n.values.len(),
            fill,
        )
    }
}

#[rustfmt::skip]
pub fn form(file: &[u8], fill: u8, page: Option<u32>, image: &mut [u8], s: Spans<'_>) -> DkLayout {
    // SAFETY: see the module
    unsafe {
        match page {
            None => dk_form(
                file.as_ptr(), file.len(), fill,
                image.as_mut_ptr(), image.len(), s.addresses.as_mut_ptr(), s.addresses.len(), s.offsets.as_mut_ptr(), s.offsets.len(),
                s.sizes.as_mut_ptr(), s.sizes.len(),
            ),
            Some(page) => dk_form_paged(
                file.as_ptr(), file.len(), fill, page,
                image.as_mut_ptr(), image.len(), s.addresses.as_mut_ptr(), s.addresses.len(), s.offsets.as_mut_ptr(), s.offsets.len(),
                s.sizes.as_mut_ptr(), s.sizes.len(),
            ),
        }
    }
}

#[rustfmt::skip]
pub fn write_hex(image: &[u8], offsets: &[u64], sizes: &[u64], load: u32, text: &mut [u8]) -> DkCount {
    // SAFETY: see the module
    unsafe {
        dk_write_hex(
            image.as_ptr(), image.len(), offsets.as_ptr(), offsets.len(), sizes.as_ptr(), sizes.len(), load, text.as_mut_ptr(), text.len(),
        )
    }
}

#[rustfmt::skip]
pub fn write_srec(image: &[u8], offsets: &[u64], sizes: &[u64], load: u32, width: u8, text: &mut [u8]) -> DkCount {
    // SAFETY: see the module
    unsafe {
        dk_write_srec(
            image.as_ptr(), image.len(), offsets.as_ptr(), offsets.len(), sizes.as_ptr(), sizes.len(), load, width, text.as_mut_ptr(), text.len(),
        )
    }
}

#[rustfmt::skip]
pub fn read_records(
    format: u8, text: &[u8], load: u32, bytes: &mut [u8], offsets: &mut [u64], sizes: &mut [u64], scratch: &mut [u8],
) -> DkCount {
    // SAFETY: see the module
    unsafe {
        dk_read_records(
            format, text.as_ptr(), text.len(), load, bytes.as_mut_ptr(), bytes.len(),
            offsets.as_mut_ptr(), offsets.len(), sizes.as_mut_ptr(), sizes.len(), scratch.as_mut_ptr(), scratch.len(),
        )
    }
}

pub fn to_form2(file: &[u8], out: &mut [u8]) -> DkCount {
    // SAFETY: see the module
    unsafe { dk_to_form2(file.as_ptr(), file.len(), out.as_mut_ptr(), out.len()) }
}

pub fn to_form1(file: &[u8], out: &mut [u8]) -> DkCount {
    // SAFETY: see the module
    unsafe { dk_to_form1(file.as_ptr(), file.len(), out.as_mut_ptr(), out.len()) }
}

pub fn record_extent(format: u8, text: &[u8], scratch: &mut [u8]) -> DkExtent {
    // SAFETY: see the module
    unsafe { dk_record_extent(format, text.as_ptr(), text.len(), scratch.as_mut_ptr(), scratch.len()) }
}

pub fn record_fault(format: u8, text: &[u8], load: u32, scratch: &mut [u8]) -> DkFault {
    // SAFETY: see the module
    unsafe { dk_record_fault(format, text.as_ptr(), text.len(), load, scratch.as_mut_ptr(), scratch.len()) }
}

#[rustfmt::skip]
pub fn map(b: &Banks<'_>, n: &Nodes<'_>, c: Choices, lists: &mut MapLists) -> DkMap {
    // SAFETY: see the module; the four lists have the 4,096 elements that the call asks for
    unsafe {
        dk_map(
            b.units.as_ptr(), b.units.len(), b.starts.as_ptr(), b.starts.len(), b.sizes.as_ptr(), b.sizes.len(),
            b.offsets.as_ptr(), b.offsets.len(), b.aligns.as_ptr(), b.aligns.len(), b.flags.as_ptr(), b.flags.len(),
            b.fill_bits.as_ptr(), b.fill_bits.len(),
            n.kinds.as_ptr(), n.kinds.len(), n.operands.as_ptr(), n.operands.len(), n.numbers.as_ptr(), n.numbers.len(),
            n.states.as_ptr(), n.states.len(), n.rows, n.values.as_ptr(), n.values.len(),
            n.limit, c.fill as u8, c.closed as u8,
            lists.banks.as_mut_ptr(), lists.positions.as_mut_ptr(), lists.outputs.as_mut_ptr(), lists.sizes.as_mut_ptr(),
        )
    }
}

pub fn record_reason(format: u8, text: &[u8], load: u32, scratch: &mut [u8]) -> DkReason {
    // SAFETY: see the module
    unsafe { dk_record_reason(format, text.as_ptr(), text.len(), load, scratch.as_mut_ptr(), scratch.len()) }
}

#[rustfmt::skip]
pub fn blocks(offsets: &[u64], sizes: &[u64], starts: &mut [u64], lengths: &mut [u64]) -> DkCount {
    // SAFETY: see the module
    unsafe {
        dk_blocks(
            offsets.as_ptr(), offsets.len(), sizes.as_ptr(), sizes.len(),
            starts.as_mut_ptr(), starts.len(), lengths.as_mut_ptr(), lengths.len(),
        )
    }
}

pub fn hex(bytes: &[u8], bits: u64, digits: &mut [u8]) -> DkCount {
    // SAFETY: see the module
    unsafe { dk_hex(bytes.as_ptr(), bytes.len(), bits, digits.as_mut_ptr(), digits.len()) }
}

pub fn part(image: &[u8], offset: u64, size: u64) -> DkPart {
    // SAFETY: see the module
    unsafe { dk_part(image.as_ptr(), image.len(), offset, size) }
}

#[repr(C)]
pub struct DkOffer {
    pub refusal: u64,
    pub place: u64,
    pub second: u64,
    pub count: u64,
    pub marks: u64,
}

extern "C" {
    fn dk_offer(positions: *mut u64, sizes: *mut u64, count: u64, marks: *mut u64, mark_count: u64, position: u64, size: u64) -> DkOffer;
}

pub fn offer(
    positions: &mut [u64; 512],
    sizes: &mut [u64; 512],
    count: u64,
    marks: &mut [u64; 512],
    mark_count: u64,
    position: u64,
    size: u64,
) -> DkOffer {
    // SAFETY: see the module; the arrays have the 512 elements that the function may touch
    unsafe { dk_offer(positions.as_mut_ptr(), sizes.as_mut_ptr(), count, marks.as_mut_ptr(), mark_count, position, size) }
}

#[repr(C)]
pub struct DkOffered {
    pub refusal: u64,
    pub place: u64,
    pub second: u64,
    pub count: u64,
    pub marks: u64,
    pub offer: u64,
}

extern "C" {
    fn dk_offers(
        positions: *mut u64,
        sizes: *mut u64,
        count: u64,
        marks: *mut u64,
        mark_count: u64,
        offer_positions: *const u64,
        offer_positions_len: usize,
        offer_sizes: *const u64,
        offer_sizes_len: usize,
    ) -> DkOffered;
}

pub fn offers(
    positions: &mut [u64; 512],
    sizes: &mut [u64; 512],
    count: u64,
    marks: &mut [u64; 512],
    mark_count: u64,
    offer_positions: &[u64],
    offer_sizes: &[u64],
) -> DkOffered {
    // SAFETY: see the module; the arrays have the 512 elements that the function may touch
    unsafe {
        dk_offers(
            positions.as_mut_ptr(),
            sizes.as_mut_ptr(),
            count,
            marks.as_mut_ptr(),
            mark_count,
            offer_positions.as_ptr(),
            offer_positions.len(),
            offer_sizes.as_ptr(),
            offer_sizes.len(),
        )
    }
}

#[rustfmt::skip]
pub fn overlay_range(overlay: &[u8], released: &[u8], offsets: &[u64], sizes: &[u64], first: u64, count: u64) -> DkOverlay {
    // SAFETY: see the module
    unsafe {
        dk_overlay_range(
            overlay.as_ptr(), overlay.len(), released.as_ptr(), released.len(), offsets.as_ptr(), offsets.len(), sizes.as_ptr(), sizes.len(),
            first, count,
        )
    }
}

#[rustfmt::skip]
pub fn overlay_runs(
    overlay: &[u8], released: &[u8], offsets: &[u64], sizes: &[u64], firsts: &mut [u64], counts: &mut [u64],
) -> DkCount {
    // SAFETY: see the module
    unsafe {
        dk_overlay_runs(
            overlay.as_ptr(), overlay.len(), released.as_ptr(), released.len(), offsets.as_ptr(), offsets.len(), sizes.as_ptr(), sizes.len(),
            firsts.as_mut_ptr(), firsts.len(), counts.as_mut_ptr(), counts.len(),
        )
    }
}

#[rustfmt::skip]
pub fn verify(image: Given<'_>, bytes: Given<'_>, firsts: &mut [u64], counts: &mut [u64], kinds: &mut [u8]) -> DkCount {
    // SAFETY: see the module
    unsafe {
        dk_verify(
            image.bytes.as_ptr(), image.bytes.len(), image.offsets.as_ptr(), image.offsets.len(), image.sizes.as_ptr(), image.sizes.len(),
            bytes.bytes.as_ptr(), bytes.bytes.len(), bytes.offsets.as_ptr(), bytes.offsets.len(), bytes.sizes.as_ptr(), bytes.sizes.len(),
            firsts.as_mut_ptr(), firsts.len(), counts.as_mut_ptr(), counts.len(), kinds.as_mut_ptr(), kinds.len(),
        )
    }
}
