// Little-endian numbers, bytes in two parts, and writing a lent output.

// The number that these bytes are, at most eight of them.
pub fn little_endian(bytes: &[u8]) -> u64 {
    bytes.iter().rev().fold(0, |value, &byte| value << 8 | u64::from(byte))
}

// The first so many bytes and the rest; nothing where there are fewer. (The library has this from Rust 1.80 on.)
pub fn front_and_rest(bytes: &[u8], length: usize) -> Option<(&[u8], &[u8])> {
    (length <= bytes.len()).then(|| bytes.split_at(length))
}

// Puts the values at the front of a lent output and zeros behind them.
pub fn put<T: Copy + Default>(values: &[T], output: &mut [T]) {
    output[..values.len()].copy_from_slice(values);
    output[values.len()..].fill(T::default());
}
