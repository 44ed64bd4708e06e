//! Sheets for the tests.

/// F3's sheet, as document 01 prints it.
pub const F3: [u8; 30] = [
    3, 0, 1, 0, 2, 0, 0, 0, 1, 0, 0, 0, 0, 0, 0, 0, 2, 0, 1, 0, 1, 0, 0, 0, 1, 0, 2, 0, 0, 0,
];

/// The named sheet with the records of a plain one.
pub fn named(plain: &[u8], labels: &[&str]) -> Vec<u8> {
    let mut sheet = plain[..6].to_vec();
    sheet[1] += 128;
    for label in labels {
        sheet.extend_from_slice(label.as_bytes());
        sheet.resize(sheet.len() + 16 - label.len(), 0);
    }
    sheet.extend_from_slice(&plain[6..]);
    sheet
}
