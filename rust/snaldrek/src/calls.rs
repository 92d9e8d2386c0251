//! The calls of `include/snaldrek.h` over slices, each answer as its code:
//! the number in the low 8 bits, the place in the next 8, the row in the upper
//! 16, 0 for yes.
//!
//! The only module with `unsafe` in it. Nothing checks the declarations below
//! against the library but the tests, so they stand as the header has them.
#![allow(unsafe_code)]

mod header {
    extern "C" {
        pub fn snaldrek_version() -> u32;
        pub fn snaldrek_open(
            ledger: *mut u8,
            ledger_len: usize,
            roll: *mut u8,
            roll_len: usize,
        ) -> u32;
        pub fn snaldrek_judge(
            file: *const u8,
            file_len: usize,
            ledger: *mut u8,
            ledger_len: usize,
            table: *mut u8,
            table_len: usize,
            roll: *const u8,
            roll_len: usize,
        ) -> u32;
        pub fn snaldrek_close(
            ledger: *mut u8,
            ledger_len: usize,
            table: *const u8,
            table_len: usize,
            roll: *mut u8,
            roll_len: usize,
        ) -> u32;
        pub fn snaldrek_root(
            ledger: *const u8,
            ledger_len: usize,
            root: *mut u8,
            root_len: usize,
        ) -> u32;
        pub fn snaldrek_hash(
            bytes: *const u8,
            bytes_len: usize,
            digest: *mut u8,
            digest_len: usize,
        ) -> u32;
        pub fn snaldrek_write_case(
            draft: *const u8,
            draft_len: usize,
            buffer: *mut u8,
            buffer_len: usize,
        ) -> u32;
        pub fn snaldrek_seal(
            body: *const u8,
            body_len: usize,
            gain: f64,
            offset: f64,
            pull: *mut f64,
        ) -> u32;
        pub fn snaldrek_bag(
            bag: *const u8,
            bag_len: usize,
            gain: f64,
            offset: f64,
            ledger: *mut u8,
            ledger_len: usize,
            table: *mut u8,
            table_len: usize,
            roll: *const u8,
            roll_len: usize,
            report: *mut u8,
            report_len: usize,
        ) -> u32;
        pub fn snaldrek_tally(tally: *mut u8, tally_len: usize, answer: u32) -> u32;
        pub fn snaldrek_day(
            list: *mut u8,
            list_len: usize,
            row: usize,
            seal: u32,
            answer: u32,
        ) -> u32;
    }
}

// Why every call below is sound: the library reads and writes within the
// lengths that it is given, keeps no pointer, and has no state. A slice gives
// a pointer that is not null and as many bytes as its length says, and the
// compiler sees to it that a `&mut` slice overlaps no other.

/// `snaldrek_version`: a byte for each of the three numbers.
pub fn version() -> u32 {
    // SAFETY: it takes nothing and only returns a number.
    unsafe { header::snaldrek_version() }
}

/// `snaldrek_open`.
pub fn open(ledger: &mut [u8], roll: &mut [u8]) -> u32 {
    // SAFETY: both pointers come with the length of the slice they are of.
    unsafe {
        header::snaldrek_open(
            ledger.as_mut_ptr(),
            ledger.len(),
            roll.as_mut_ptr(),
            roll.len(),
        )
    }
}

/// `snaldrek_judge`.
pub fn judge(file: &[u8], ledger: &mut [u8], table: &mut [u8], roll: &[u8]) -> u32 {
    // SAFETY: each pointer comes with the length of the slice it is of; the
    // two that are written to are of `&mut` slices.
    unsafe {
        header::snaldrek_judge(
            file.as_ptr(),
            file.len(),
            ledger.as_mut_ptr(),
            ledger.len(),
            table.as_mut_ptr(),
            table.len(),
            roll.as_ptr(),
            roll.len(),
        )
    }
}

/// `snaldrek_close`.
pub fn close(ledger: &mut [u8], table: &[u8], roll: &mut [u8]) -> u32 {
    // SAFETY: each pointer comes with the length of the slice it is of; the
    // two that are written to are of `&mut` slices.
    unsafe {
        header::snaldrek_close(
            ledger.as_mut_ptr(),
            ledger.len(),
            table.as_ptr(),
            table.len(),
            roll.as_mut_ptr(),
            roll.len(),
        )
    }
}

/// `snaldrek_root`.
pub fn root(ledger: &[u8], root: &mut [u8]) -> u32 {
    // SAFETY: both pointers come with the length of the slice they are of; the
    // one that is written to is of a `&mut` slice.
    unsafe { header::snaldrek_root(ledger.as_ptr(), ledger.len(), root.as_mut_ptr(), root.len()) }
}

/// `snaldrek_hash`: the SHA-256 of any bytes.
pub fn hash(bytes: &[u8], digest: &mut [u8]) -> u32 {
    // SAFETY: both pointers come with the length of the slice they are of; the
    // one that is written to is of a `&mut` slice.
    unsafe {
        header::snaldrek_hash(
            bytes.as_ptr(),
            bytes.len(),
            digest.as_mut_ptr(),
            digest.len(),
        )
    }
}

/// `snaldrek_write_case`: a draft lies as a case file does, and what is worked
/// out is not read in it. [`Draft`](crate::Draft) has its fields by name.
pub fn write_case(draft: &[u8], buffer: &mut [u8]) -> u32 {
    // SAFETY: both pointers come with the length of the slice they are of; the
    // one that is written to is of a `&mut` slice.
    unsafe {
        header::snaldrek_write_case(
            draft.as_ptr(),
            draft.len(),
            buffer.as_mut_ptr(),
            buffer.len(),
        )
    }
}

/// `snaldrek_seal`.
pub fn seal(body: &[u8], gain: f64, offset: f64, pull: &mut f64) -> u32 {
    // SAFETY: the body's pointer comes with its length, and a `&mut f64` is a
    // pointer to one number that may be written.
    unsafe { header::snaldrek_seal(body.as_ptr(), body.len(), gain, offset, pull) }
}

/// `snaldrek_bag`.
pub fn bag(
    bag: &[u8],
    [gain, offset]: [f64; 2],
    ledger: &mut [u8],
    table: &mut [u8],
    roll: &[u8],
    report: &mut [u8],
) -> u32 {
    // SAFETY: each pointer comes with the length of the slice it is of; the
    // three that are written to are of `&mut` slices.
    unsafe {
        header::snaldrek_bag(
            bag.as_ptr(),
            bag.len(),
            gain,
            offset,
            ledger.as_mut_ptr(),
            ledger.len(),
            table.as_mut_ptr(),
            table.len(),
            roll.as_ptr(),
            roll.len(),
            report.as_mut_ptr(),
            report.len(),
        )
    }
}

/// `snaldrek_tally`.
pub fn tally(tally: &mut [u8], answer: u32) -> u32 {
    // SAFETY: the pointer comes with the length of the `&mut` slice it is of.
    unsafe { header::snaldrek_tally(tally.as_mut_ptr(), tally.len(), answer) }
}

/// `snaldrek_day`.
pub fn day(list: &mut [u8], row: usize, seal: u32, answer: u32) -> u32 {
    // SAFETY: the pointer comes with the length of the `&mut` slice it is of.
    unsafe { header::snaldrek_day(list.as_mut_ptr(), list.len(), row, seal, answer) }
}
