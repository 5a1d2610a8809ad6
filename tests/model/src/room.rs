//! The room lent to a call that writes a text or a list: what comes back, and what stands in the room then.

use crate::session::coded;
use crate::writing::Refusal;

/// Puts what there is to be written at the room's front, and gives the answer with its length. Nothing is
/// written where the session earns refusal 1, which is tested first, or where the room is too short.
pub fn put<T: Copy>(whole: Option<&[T]>, room: &mut [T]) -> u64 {
    let Some(whole) = whole else { return Refusal { number: 1, place: 0 }.coded() };
    let length = whole.len();
    if length > room.len() {
        return Refusal { number: 15, place: length }.coded();
    }
    room[..length].copy_from_slice(whole);
    coded(8, length as u64, 0)
}
