//! The samples of examples/, which examples/make.py formed and signed.

mod common;

use common::hex;
use independent::signature_mode::check;
use independent::Verdict;

const SIGNED: &[u8] = include_bytes!("../../../examples/signed.data");
const ALTERED: &[u8] = include_bytes!("../../../examples/altered.data");
const DIGEST: &str = include_str!("../../../examples/signed.sha256");
const UID: &[u8] = b"1.2.840.10008.1.2.1";

#[test]
fn the_signed_one_is_same_and_the_altered_one_differs() {
    for (data, verdict) in [(SIGNED, Verdict::Same), (ALTERED, Verdict::Differs)] {
        let checked = check(data, UID, None, &hex(DIGEST), data.len());
        assert_eq!((checked.answer.number, checked.verdict), (0, verdict));
    }
}

#[test]
fn they_differ_in_one_letter_of_the_name() {
    assert_eq!(SIGNED.len(), ALTERED.len());
    let others: Vec<_> = (0..SIGNED.len()).filter(|&at| SIGNED[at] != ALTERED[at]).collect();
    let name = SIGNED.windows(14).position(|bytes| bytes == b"Sample^Patient").unwrap();
    assert_eq!((others, ALTERED[name + 1]), (vec![name + 1], b'i'));
}
