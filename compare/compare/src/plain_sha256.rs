//! The digest of plain_sha256.c.

extern "C" {
    fn plain_sha256(message: *const u8, length: usize, digest: *mut u8);
}

pub fn sha256(message: &[u8]) -> [u8; 32] {
    let mut digest = [0; 32];
    // The C function reads `length` bytes and writes 32.
    unsafe { plain_sha256(message.as_ptr(), message.len(), digest.as_mut_ptr()) };
    digest
}

#[cfg(test)]
mod tests {
    #[test]
    fn the_same_digests_as_the_independent_implementation() {
        for length in [0, 1, 3, 55, 56, 63, 64, 65, 119, 120, 128, 1_000] {
            let message: Vec<u8> = (0..length).map(|at| at as u8).collect();
            assert_eq!(super::sha256(&message), independent::sha256::sha256(&message), "{length}");
        }
    }
}
