//! What one of many small questions showed.

/// The number that came back, 0 where none did, and how the answer differs
/// from the simple reader's, where it does.
pub struct Tried {
    pub number: u8,
    pub difference: Option<String>,
}
