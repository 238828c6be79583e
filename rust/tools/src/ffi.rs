//! The functions of libtoolsapi.a and libtraceapi.a (include/uf2_tools.h), and of libpartapi.a (include/uf2_parts.h). A slice is a pointer and then a length.

/// A length as the library takes it (`uf2_len`): 64 bits on every machine.
pub type Len = u64;

/// The length of a slice.
pub const fn len(bytes: &[u8]) -> Len {
    bytes.len() as Len
}

extern "C" {
    pub fn uf2_make_check(image_len: Len, start: u32, output_len: Len) -> u32;

    pub fn uf2_make(
        image: *const u8,
        image_len: Len,
        family: u32,
        start: u32,
        output: *mut u8,
        output_len: Len,
    ) -> u32;

    pub fn uf2_make_regions(
        image: *const u8,
        image_len: Len,
        family: u32,
        start: u32,
        output: *mut u8,
        output_len: Len,
    ) -> u32;

    pub fn uf2_make_block(
        address: u32,
        number: u32,
        total: u32,
        family: u32,
        page: *const u8,
        page_len: Len,
        block: *mut u8,
        block_len: Len,
    );

    pub fn uhex_join(
        v1: *const u8,
        v1_len: Len,
        v2: *const u8,
        v2_len: Len,
        output: *mut u8,
        output_len: Len,
    ) -> u64;

    pub fn uf2_md5(bytes: *const u8, bytes_len: Len, digest: *mut u8, digest_len: Len);

    pub fn uf2_replay(
        settings: *const u8,
        settings_len: Len,
        trace: *const u8,
        trace_len: Len,
        flash: *mut u8,
        flash_len: Len,
        seen: *mut u8,
        seen_len: Len,
        sectors: *mut u8,
        sectors_len: Len,
        main: *mut u8,
        main_len: Len,
        xip: *mut u8,
        xip_len: Len,
        transfer: *mut u8,
        transfer_len: Len,
        index: *mut u8,
        index_len: Len,
    ) -> u32;

    pub fn uf2_figures(
        report: *mut u8,
        report_len: Len,
        settings: *const u8,
        settings_len: Len,
        trace: *const u8,
        trace_len: Len,
        flash: *mut u8,
        flash_len: Len,
        seen: *mut u8,
        seen_len: Len,
        sectors: *mut u8,
        sectors_len: Len,
        main: *mut u8,
        main_len: Len,
        xip: *mut u8,
        xip_len: Len,
        index: *mut u8,
        index_len: Len,
    ) -> u32;

    pub fn uf2_part_one(
        report: *const u8,
        report_len: Len,
        stop: u32,
        part: *mut u8,
        part_len: Len,
    ) -> u32;

    pub fn uf2_part_merge(part: *mut u8, part_len: Len, later: *const u8, later_len: Len) -> u32;
}
