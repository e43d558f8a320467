//! The stream of records that the program `trials` reads.

/// The longest name and the longest sheet that a record can hold.
pub const MOST_NAME: usize = u8::MAX as usize;
pub const MOST_SHEET: usize = u16::MAX as usize;

/// Adds a record: two bytes with the sheet's length, low byte first, one with the name's, the name, the sheet.
pub fn add(stream: &mut Vec<u8>, name: &str, sheet: &[u8]) {
    assert!(name.len() <= MOST_NAME && sheet.len() <= MOST_SHEET);
    stream.extend_from_slice(&(sheet.len() as u16).to_le_bytes());
    stream.push(name.len() as u8);
    stream.extend_from_slice(name.as_bytes());
    stream.extend_from_slice(sheet);
}

#[cfg(test)]
mod tests {
    use super::*;

    #[test]
    fn a_record_has_its_lengths_in_front() {
        let mut stream = Vec::new();
        add(&mut stream, "ab", &[7; 258]);
        assert_eq!(stream[..5], [2, 1, 2, b'a', b'b']);
        assert_eq!(stream[5..], [7; 258]);
    }
}
