//! Pictures as text.

/// "prints display rows in hex, two upper-case digits a byte": one blank between
/// bytes, each row ended by a newline.
pub fn hex_rows(buffer: &[u8], width: u32) -> String {
    let mut text = String::new();
    for row in buffer.chunks(width as usize) {
        let digits: Vec<String> = row.iter().map(|byte| format!("{byte:02X}")).collect();
        text.push_str(&digits.join(" "));
        text.push('\n');
    }
    text
}
