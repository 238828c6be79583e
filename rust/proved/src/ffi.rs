//! The functions of the static libraries (include/uf2_receiver.h, include/uf2_stands.h). A slice is a pointer and then a length.

/// A length as the library takes it (`uf2_len`): 64 bits on every machine.
pub type Len = u64;

/// The length of a slice.
pub const fn len(bytes: &[u8]) -> Len {
    bytes.len() as Len
}

extern "C" {
    pub fn uf2_new(transfer: *mut u8, transfer_len: Len);

    pub fn uf2_ask(
        settings: *const u8,
        settings_len: Len,
        flash_len: Len,
        family: u32,
        place: *mut u8,
        place_len: Len,
    ) -> u32;

    pub fn uf2_look(
        settings: *const u8,
        settings_len: Len,
        transfer: *const u8,
        transfer_len: Len,
        arrival: *const u8,
        arrival_len: Len,
        flash: *const u8,
        flash_len: Len,
        seen: *const u8,
        seen_len: Len,
        sectors: *const u8,
        sectors_len: Len,
        main: *const u8,
        main_len: Len,
        xip: *const u8,
        xip_len: Len,
    ) -> u32;

    pub fn uf2_stands(
        settings: *const u8,
        settings_len: Len,
        arrival: *const u8,
        arrival_len: Len,
        flash: *const u8,
        flash_len: Len,
        main: *const u8,
        main_len: Len,
        xip: *const u8,
        xip_len: Len,
    ) -> u32;

    pub fn uf2_take(
        settings: *const u8,
        settings_len: Len,
        transfer: *mut u8,
        transfer_len: Len,
        arrival: *const u8,
        arrival_len: Len,
        flash: *mut u8,
        flash_len: Len,
        seen: *mut u8,
        seen_len: Len,
        sectors: *mut u8,
        sectors_len: Len,
        main: *mut u8,
        main_len: Len,
        xip: *mut u8,
        xip_len: Len,
    ) -> u32;

    pub fn uf2_accept(
        settings: *const u8,
        settings_len: Len,
        transfer: *mut u8,
        transfer_len: Len,
        arrival: *const u8,
        arrival_len: Len,
        flash: *const u8,
        flash_len: Len,
        seen: *mut u8,
        seen_len: Len,
        sectors: *mut u8,
        sectors_len: Len,
        main: *mut u8,
        main_len: Len,
        xip: *mut u8,
        xip_len: Len,
        plan: *mut u8,
        plan_len: Len,
    ) -> u32;

    pub fn uf2_take_all(
        settings: *const u8,
        settings_len: Len,
        transfer: *mut u8,
        transfer_len: Len,
        arrivals: *const u8,
        arrivals_len: Len,
        results: *mut u8,
        results_len: Len,
        flash: *mut u8,
        flash_len: Len,
        seen: *mut u8,
        seen_len: Len,
        sectors: *mut u8,
        sectors_len: Len,
        main: *mut u8,
        main_len: Len,
        xip: *mut u8,
        xip_len: Len,
    ) -> Len;

    pub fn uhex_new(own: u16, reader: *mut u8, reader_len: Len);

    pub fn uhex_line(
        reader: *mut u8,
        reader_len: Len,
        line: *const u8,
        line_len: Len,
        image: *mut u8,
        image_len: Len,
    ) -> u32;
}
