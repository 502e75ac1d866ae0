//! The C boundary (`include/lorvisk.h`), with slices in place of pointers and lengths. All unsafe code stands here.

mod c {
    extern "C" {
        pub fn lorvisk_judge_file(file: *const u8, file_length: usize) -> u64;

        pub fn lorvisk_run_file(
            file: *const u8,
            file_length: usize,
            global: *mut u8,
            global_length: usize,
            shared: *mut u8,
            shared_length: usize,
            loads: *mut u8,
            loads_length: usize,
        ) -> u64;

        pub fn lorvisk_write_sheet(word: u64, out: *mut u8, out_length: usize) -> bool;

        pub fn lorvisk_read_sheet(sheet: *const u8, sheet_length: usize) -> u64;
    }
}

pub fn judge_file(file: &[u8]) -> u64 {
    // SAFETY: a slice is valid for its length while it is borrowed, and only read.
    unsafe { c::lorvisk_judge_file(file.as_ptr(), file.len()) }
}

pub fn run_file(file: &[u8], global: &mut [u8], shared: &mut [u8], loads: &mut [u8]) -> u64 {
    // SAFETY: slices are valid for their lengths, and those borrowed as `&mut` overlap no other.
    unsafe {
        c::lorvisk_run_file(
            file.as_ptr(),
            file.len(),
            global.as_mut_ptr(),
            global.len(),
            shared.as_mut_ptr(),
            shared.len(),
            loads.as_mut_ptr(),
            loads.len(),
        )
    }
}

pub fn write_sheet(word: u64, out: &mut [u8]) -> bool {
    // SAFETY: a slice borrowed as `&mut` is valid for its length, to be written too.
    unsafe { c::lorvisk_write_sheet(word, out.as_mut_ptr(), out.len()) }
}

pub fn read_sheet(sheet: &[u8]) -> u64 {
    // SAFETY: as for `judge_file`.
    unsafe { c::lorvisk_read_sheet(sheet.as_ptr(), sheet.len()) }
}
