//! Bytes that tests spell as docs/FORMATS.md of the repository says.

/// Numbers, each as that many bytes, the highest byte first.
pub fn spelled(numbers: &[(usize, u64)]) -> Vec<u8> {
    let of = |it: &(usize, u64)| it.1.to_be_bytes()[8 - it.0..].to_vec();
    numbers.iter().flat_map(of).collect()
}
