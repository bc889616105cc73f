//! The functions of the static library, as `include/ptl.h` declares them. A slice is two
//! parameters, a pointer and a length.

/// A stretch of lent bytes: `struct ptl_bytes`.
#[repr(C)]
pub struct Bytes {
    pub at: *const u8,
    pub len: usize,
}

extern "C" {
    pub fn ptl_version() -> u32;

    pub fn ptl_set_up(
        actor: u8,
        name: *const u8,
        name_len: usize,
        state: *mut u8,
        state_len: usize,
    ) -> u8;

    pub fn ptl_own_add(
        state: *mut u8,
        state_len: usize,
        store: *mut u8,
        store_len: usize,
        label: *const u8,
        label_len: usize,
        context: *const u8,
        context_len: usize,
        out: *mut u8,
        out_len: usize,
        written: *mut usize,
    ) -> u8;

    pub fn ptl_own_remove(
        state: *mut u8,
        state_len: usize,
        store: *const u8,
        store_len: usize,
        context: *const u8,
        context_len: usize,
        out: *mut u8,
        out_len: usize,
        written: *mut usize,
    ) -> u8;

    pub fn ptl_take_in(
        state: *mut u8,
        state_len: usize,
        store: *mut u8,
        store_len: usize,
        message: *const u8,
        message_len: usize,
    ) -> u8;

    pub fn ptl_list(
        state: *const u8,
        state_len: usize,
        store: *const u8,
        store_len: usize,
        out: *mut u8,
        out_len: usize,
        written: *mut usize,
        labels: *mut usize,
    ) -> u8;

    pub fn ptl_page(
        state: *const u8,
        state_len: usize,
        store: *const u8,
        store_len: usize,
        start: *const u8,
        start_len: usize,
        out: *mut u8,
        out_len: usize,
        written: *mut usize,
        labels: *mut usize,
        more: *mut bool,
    ) -> u8;

    pub fn ptl_merge(
        first: *const u8,
        first_len: usize,
        first_store: *const u8,
        first_store_len: usize,
        second: *const u8,
        second_len: usize,
        second_store: *const u8,
        second_store_len: usize,
        out: *mut u8,
        out_len: usize,
        written: *mut usize,
        labels: *mut usize,
    ) -> u8;

    pub fn ptl_lookup(
        state: *const u8,
        state_len: usize,
        store: *const u8,
        store_len: usize,
        label: *const u8,
        label_len: usize,
        found: *mut Bytes,
        listed: *mut bool,
    ) -> u8;

    pub fn ptl_compact(state: *mut u8, state_len: usize, store: *mut u8, store_len: usize) -> u8;

    pub fn ptl_write_image(
        state: *const u8,
        state_len: usize,
        store: *const u8,
        store_len: usize,
        out: *mut u8,
        out_len: usize,
        written: *mut usize,
    ) -> u8;

    pub fn ptl_load_image(
        actor: u8,
        image: *const u8,
        image_len: usize,
        state: *mut u8,
        state_len: usize,
        store: *mut u8,
        store_len: usize,
    ) -> u8;

    pub fn ptl_write_key(
        kind: u8,
        name: *const u8,
        name_len: usize,
        label: *const u8,
        label_len: usize,
        actor: u8,
        counter: u64,
        out: *mut u8,
        out_len: usize,
        written: *mut usize,
    ) -> u8;

    pub fn ptl_read_key(
        bytes: *const u8,
        bytes_len: usize,
        kind: *mut u8,
        name_at: *mut usize,
        name_len: *mut usize,
        label_at: *mut usize,
        label_len: *mut usize,
        actor: *mut u8,
        counter: *mut u64,
    ) -> u8;

    pub fn ptl_read_message(
        bytes: *const u8,
        bytes_len: usize,
        kind: *mut u8,
        name_at: *mut usize,
        name_len: *mut usize,
        label_at: *mut usize,
        label_len: *mut usize,
        actor: *mut u8,
        counter: *mut u64,
        context_at: *mut usize,
        context_len: *mut usize,
    ) -> u8;
}
