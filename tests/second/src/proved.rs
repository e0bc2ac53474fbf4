//! The proved code, called through its C faces. A slice goes as its pointer and its length.
use crate::task::Record;

extern "C" {
    fn burrbeech_take_field(bytes: *const u8, len: usize, at: usize, width: usize) -> u64;
    fn burrbeech_put_field(bytes: *mut u8, len: usize, at: usize, width: usize, value: u32) -> bool;
    fn burrbeech_check_word(bytes: *const u8, len: usize) -> u16;
    fn burrbeech_sealed(bytes: *const u8, len: usize) -> bool;
    fn burrbeech_seal(bytes: *mut u8, len: usize) -> bool;
    fn burrbeech_check_sheet(sheet: *const u8, sheet_len: usize, times: *mut u8, times_len: usize) -> u32;
    fn burrbeech_read_list(sheet: *const u8, sheet_len: usize, list: *mut Record, list_len: usize) -> u64;
    fn burrbeech_write_list(version: u32, policy: u32, list: *const Record, list_len: usize, sheet: *mut u8, sheet_len: usize) -> u64;
    pub fn burrbeech_convert(version: u32, sheet: *const u8, sheet_len: usize, out: *mut u8, out_len: usize) -> u64;
    fn burrbeech_analyse_list(policy: u32, list: *const Record, list_len: usize, times: *mut u32, times_len: usize) -> u64;
    fn burrbeech_analyse_sheet(sheet: *const u8, sheet_len: usize, times: *mut u32, times_len: usize) -> u64;
    fn burrbeech_report(sheet: *const u8, sheet_len: usize, text: *mut u8, text_len: usize) -> u64;
    pub fn burrbeech_play(sheet: *const u8, sheet_len: usize, script: *const u8, script_len: usize) -> u64;
    pub fn burrbeech_trace(
        sheet: *const u8,
        sheet_len: usize,
        script: *const u8,
        script_len: usize,
        ticks: *mut u8,
        ticks_len: usize,
    ) -> u64;
    pub fn burrbeech_worst_run(sheet: *const u8, sheet_len: usize, script: *mut u8, script_len: usize) -> u64;
}

pub fn take(bytes: &[u8], at: usize, width: usize) -> Option<u32> {
    u32::try_from(unsafe { burrbeech_take_field(bytes.as_ptr(), bytes.len(), at, width) }).ok()
}

pub fn put(bytes: &mut [u8], at: usize, width: usize, value: u32) -> bool {
    unsafe { burrbeech_put_field(bytes.as_mut_ptr(), bytes.len(), at, width, value) }
}

pub fn check_word(bytes: &[u8]) -> u16 {
    unsafe { burrbeech_check_word(bytes.as_ptr(), bytes.len()) }
}

pub fn is_sealed(bytes: &[u8]) -> bool {
    unsafe { burrbeech_sealed(bytes.as_ptr(), bytes.len()) }
}

pub fn seal(bytes: &mut [u8]) -> bool {
    unsafe { burrbeech_seal(bytes.as_mut_ptr(), bytes.len()) }
}

pub fn check_sheet(sheet: &[u8], times: &mut [u8]) -> u32 {
    unsafe { burrbeech_check_sheet(sheet.as_ptr(), sheet.len(), times.as_mut_ptr(), times.len()) }
}

pub fn read_list(sheet: &[u8], list: &mut [Record]) -> u64 {
    unsafe { burrbeech_read_list(sheet.as_ptr(), sheet.len(), list.as_mut_ptr(), list.len()) }
}

pub fn write_list(version: u32, policy: u32, list: &[Record], sheet: &mut [u8]) -> u64 {
    unsafe { burrbeech_write_list(version, policy, list.as_ptr(), list.len(), sheet.as_mut_ptr(), sheet.len()) }
}

pub fn convert(version: u32, sheet: &[u8], out: &mut [u8]) -> u64 {
    unsafe { burrbeech_convert(version, sheet.as_ptr(), sheet.len(), out.as_mut_ptr(), out.len()) }
}

pub fn analyse_list(policy: u32, list: &[Record], times: &mut [u32]) -> u64 {
    unsafe { burrbeech_analyse_list(policy, list.as_ptr(), list.len(), times.as_mut_ptr(), times.len()) }
}

pub fn analyse_sheet(sheet: &[u8], times: &mut [u32]) -> u64 {
    unsafe { burrbeech_analyse_sheet(sheet.as_ptr(), sheet.len(), times.as_mut_ptr(), times.len()) }
}

pub fn report(sheet: &[u8], text: &mut [u8]) -> u64 {
    unsafe { burrbeech_report(sheet.as_ptr(), sheet.len(), text.as_mut_ptr(), text.len()) }
}

pub fn play(sheet: &[u8], script: &[u8]) -> u64 {
    unsafe { burrbeech_play(sheet.as_ptr(), sheet.len(), script.as_ptr(), script.len()) }
}

pub fn trace(sheet: &[u8], script: &[u8], ticks: &mut [u8]) -> u64 {
    unsafe { burrbeech_trace(sheet.as_ptr(), sheet.len(), script.as_ptr(), script.len(), ticks.as_mut_ptr(), ticks.len()) }
}

pub fn worst_run(sheet: &[u8], script: &mut [u8]) -> u64 {
    unsafe { burrbeech_worst_run(sheet.as_ptr(), sheet.len(), script.as_mut_ptr(), script.len()) }
}
