//! The C boundary one to one: the seven functions of the static library, on numbers and slices.
//!
//! Each gives the number of document 01 or 02. The numbers behind `&mut` belong to the answer and
//! are always set, also by a refusal; "writes nothing" speaks of the lent buffers. The functions at
//! the root of the crate say the same in types.
//!
//! All unsafe code of the crate is here. What makes each call sound: a slice crosses as its
//! pointer and its length, and a number to set as its pointer, so each names memory that is lent
//! for the whole call; the library reads and writes within these lengths only, which is proved for
//! every input, and keeps no pointer; and since a `&mut` is the only way to what it lends, no two
//! buffers overlap.

#![allow(unsafe_code)]

mod sys;

/// Reads a frame; the payload is the L bytes of the frame from the offset.
pub fn read_frame(
    frame: &[u8],
    place: &mut usize,
    page_number: &mut u32,
    n: &mut u8,
    l: &mut u8,
    seed: &mut u32,
    offset: &mut usize,
) -> u8 {
    // SAFETY: as the module says; the frame is only read.
    unsafe {
        sys::mekorvat_read_frame(
            frame.as_ptr(),
            frame.len(),
            place,
            page_number,
            n,
            l,
            seed,
            offset,
        )
    }
}

/// Lays a frame into a list at the arrival number.
pub fn lay(
    frame: &[u8],
    page_number: u32,
    n: u8,
    l: u8,
    arrival: usize,
    list: &mut [u8],
    place: &mut usize,
) -> u8 {
    // SAFETY: as the module says; the frame is only read.
    unsafe {
        sys::mekorvat_lay(
            frame.as_ptr(),
            frame.len(),
            page_number,
            n,
            l,
            arrival,
            list.as_mut_ptr(),
            list.len(),
            place,
        )
    }
}

/// Reads a list; each use is two bytes, big-endian, so the room for uses is 2m bytes for m rows.
// One to one with the boundary, which has a parameter for each thing lent.
#[allow(clippy::too_many_arguments)]
pub fn read_list(
    n: u8,
    l: u8,
    list: &[u8],
    page: &mut [u8],
    uses: &mut [u8],
    roles: &mut [u8],
    scratch: &mut [u8],
    rank: &mut usize,
    place: &mut usize,
    agreement: &mut usize,
) -> u8 {
    // SAFETY: as the module says; the list is only read.
    unsafe {
        sys::mekorvat_read_list(
            n,
            l,
            list.as_ptr(),
            list.len(),
            page.as_mut_ptr(),
            page.len(),
            uses.as_mut_ptr(),
            uses.len(),
            roles.as_mut_ptr(),
            roles.len(),
            scratch.as_mut_ptr(),
            scratch.len(),
            rank,
            place,
            agreement,
        )
    }
}

/// Reads a list, and the rows of it that do not agree with the page that it gives.
///
/// `numbers` is rank, place and agreement of the first reading, then number, rank, place and
/// agreement of the second, then the rows of the second list.
// One to one with the boundary, which has a parameter for each thing lent.
#[allow(clippy::too_many_arguments)]
pub fn read_both(
    n: u8,
    l: u8,
    list: &[u8],
    page: &mut [u8],
    uses: &mut [u8],
    roles: &mut [u8],
    list2: &mut [u8],
    page2: &mut [u8],
    uses2: &mut [u8],
    roles2: &mut [u8],
    scratch: &mut [u8],
    numbers: &mut [u64; 8],
) -> u8 {
    // SAFETY: as the module says; the list is only read.
    unsafe {
        sys::mekorvat_read_both(
            n,
            l,
            list.as_ptr(),
            list.len(),
            page.as_mut_ptr(),
            page.len(),
            uses.as_mut_ptr(),
            uses.len(),
            roles.as_mut_ptr(),
            roles.len(),
            list2.as_mut_ptr(),
            list2.len(),
            page2.as_mut_ptr(),
            page2.len(),
            uses2.as_mut_ptr(),
            uses2.len(),
            roles2.as_mut_ptr(),
            roles2.len(),
            scratch.as_mut_ptr(),
            scratch.len(),
            numbers,
        )
    }
}

/// Opens a store for a page; it then has no rows, whatever its bytes were.
pub fn open(store: &mut [u8], page_number: u32, n: u8, l: u8) -> u8 {
    // SAFETY: as the module says.
    unsafe { sys::mekorvat_open(store.as_mut_ptr(), store.len(), page_number, n, l) }
}

/// Offers a frame to a store, which takes its row in or stays as it is.
pub fn offer(store: &mut [u8], frame: &[u8], place: &mut usize) -> u8 {
    // SAFETY: as the module says; the frame is only read.
    unsafe {
        sys::mekorvat_offer(
            store.as_mut_ptr(),
            store.len(),
            frame.as_ptr(),
            frame.len(),
            place,
        )
    }
}

/// Asks a store for what a reading of its rows gives, and how many they are.
// One to one with the boundary, which has a parameter for each thing lent.
#[allow(clippy::too_many_arguments)]
pub fn ask(
    store: &[u8],
    page: &mut [u8],
    uses: &mut [u8],
    roles: &mut [u8],
    scratch: &mut [u8],
    rank: &mut usize,
    place: &mut usize,
    agreement: &mut usize,
    rows: &mut usize,
) -> u8 {
    // SAFETY: as the module says; the store is only read.
    unsafe {
        sys::mekorvat_ask(
            store.as_ptr(),
            store.len(),
            page.as_mut_ptr(),
            page.len(),
            uses.as_mut_ptr(),
            uses.len(),
            roles.as_mut_ptr(),
            roles.len(),
            scratch.as_mut_ptr(),
            scratch.len(),
            rank,
            place,
            agreement,
            rows,
        )
    }
}
