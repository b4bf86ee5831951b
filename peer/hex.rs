//! Bytes in lowercase hexadecimal, two digits each.

#[allow(dead_code)]
pub fn encode(bytes: &[u8]) -> String {
    bytes.iter().map(|byte| format!("{byte:02x}")).collect()
}

/// Gives nothing if the text is not a whole number of bytes.
#[allow(dead_code)]
pub fn decode(text: &str) -> Option<Vec<u8>> {
    let mut digits = text.chars();
    let mut bytes = Vec::new();
    while let Some(high) = digits.next() {
        let high = high.to_digit(16)?;
        let low = digits.next()?.to_digit(16)?;
        bytes.push((high * 16 + low) as u8);
    }
    Some(bytes)
}
