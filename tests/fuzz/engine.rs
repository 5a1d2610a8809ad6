//! The engine's calls, as include/cusphewa.h has them.

use model::writing::List;

extern "C" {
    fn cusphewa_report(
        session: *const u8,
        session_len: usize,
        report: *mut u8,
        report_len: usize,
    ) -> usize;
    fn cusphewa_answer(session: *const u8, session_len: usize) -> u64;
    fn cusphewa_shown(session: *const u8, session_len: usize) -> u64;
    fn cusphewa_write(
        nodes: usize,
        sheets: usize,
        owners: *const u8,
        owners_len: usize,
        steps: *const u32,
        steps_len: usize,
        session: *mut u8,
        session_len: usize,
    ) -> u64;
    fn cusphewa_read(
        session: *const u8,
        session_len: usize,
        steps: *mut u32,
        steps_len: usize,
    ) -> u64;
    fn cusphewa_owners(session: *const u8, session_len: usize) -> u64;
    fn cusphewa_answers(
        session: *const u8,
        session_len: usize,
        answers: *mut u64,
        answers_len: usize,
    ) -> u64;
    fn cusphewa_state(
        session: *const u8,
        session_len: usize,
        room: *mut u8,
        room_len: usize,
    ) -> u64;
}

// In each call a pointer and its length are those of one live slice.

pub fn report(session: &[u8], buffer: &mut [u8]) -> usize {
    unsafe { cusphewa_report(session.as_ptr(), session.len(), buffer.as_mut_ptr(), buffer.len()) }
}

pub fn answer(session: &[u8]) -> u64 {
    unsafe { cusphewa_answer(session.as_ptr(), session.len()) }
}

pub fn shown(session: &[u8]) -> u64 {
    unsafe { cusphewa_shown(session.as_ptr(), session.len()) }
}

pub fn write(list: &List, buffer: &mut [u8]) -> u64 {
    let (owners, words) = (&list.owners, &list.words);
    unsafe {
        cusphewa_write(
            list.nodes,
            list.sheets,
            owners.as_ptr(),
            owners.len(),
            words.as_ptr(),
            words.len(),
            buffer.as_mut_ptr(),
            buffer.len(),
        )
    }
}

pub fn read(session: &[u8], words: &mut [u32]) -> u64 {
    unsafe { cusphewa_read(session.as_ptr(), session.len(), words.as_mut_ptr(), words.len()) }
}

pub fn owners(session: &[u8]) -> u64 {
    unsafe { cusphewa_owners(session.as_ptr(), session.len()) }
}

pub fn answers(session: &[u8], list: &mut [u64]) -> u64 {
    unsafe { cusphewa_answers(session.as_ptr(), session.len(), list.as_mut_ptr(), list.len()) }
}

pub fn state(session: &[u8], room: &mut [u8]) -> u64 {
    unsafe { cusphewa_state(session.as_ptr(), session.len(), room.as_mut_ptr(), room.len()) }
}
