//! Bytes to be read.

/// Two digits for each byte.
pub fn digits(bytes: &[u8]) -> String {
    bytes.iter().map(|byte| format!("{byte:02x}")).collect()
}

/// How many bytes these are and, where they are not too many, which.
pub fn told(bytes: &[u8]) -> String {
    if bytes.len() > 2_000 {
        return format!("{} bytes", bytes.len());
    }
    format!("{} bytes, {}", bytes.len(), digits(bytes))
}
