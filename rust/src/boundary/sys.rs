//! Holds the symbols of the static library.

extern "C" {
    pub fn mekorvat_read_frame(
        frame: *const u8,
        frame_length: usize,
        place: &mut usize,
        page_number: &mut u32,
        n: &mut u8,
        l: &mut u8,
        seed: &mut u32,
        offset: &mut usize,
    ) -> u8;

    pub fn mekorvat_lay(
        frame: *const u8,
        frame_length: usize,
        page_number: u32,
        n: u8,
        l: u8,
        arrival: usize,
        list: *mut u8,
        list_length: usize,
        place: &mut usize,
    ) -> u8;

    pub fn mekorvat_read_list(
        n: u8,
        l: u8,
        list: *const u8,
        list_length: usize,
        page: *mut u8,
        page_length: usize,
        uses: *mut u8,
        uses_length: usize,
        roles: *mut u8,
        roles_length: usize,
        scratch: *mut u8,
        scratch_length: usize,
        rank: &mut usize,
        place: &mut usize,
        agreement: &mut usize,
    ) -> u8;

    pub fn mekorvat_read_both(
        n: u8,
        l: u8,
        list: *const u8,
        list_length: usize,
        page: *mut u8,
        page_length: usize,
        uses: *mut u8,
        uses_length: usize,
        roles: *mut u8,
        roles_length: usize,
        list2: *mut u8,
        list2_length: usize,
        page2: *mut u8,
        page2_length: usize,
        uses2: *mut u8,
        uses2_length: usize,
        roles2: *mut u8,
        roles2_length: usize,
        scratch: *mut u8,
        scratch_length: usize,
        numbers: &mut [u64; 8],
    ) -> u8;

    pub fn mekorvat_open(store: *mut u8, store_length: usize, page_number: u32, n: u8, l: u8)
        -> u8;

    pub fn mekorvat_offer(
        store: *mut u8,
        store_length: usize,
        frame: *const u8,
        frame_length: usize,
        place: &mut usize,
    ) -> u8;

    pub fn mekorvat_ask(
        store: *const u8,
        store_length: usize,
        page: *mut u8,
        page_length: usize,
        uses: *mut u8,
        uses_length: usize,
        roles: *mut u8,
        roles_length: usize,
        scratch: *mut u8,
        scratch_length: usize,
        rank: &mut usize,
        place: &mut usize,
        agreement: &mut usize,
        rows: &mut usize,
    ) -> u8;
}
