//! The functions of include/eddyplume.h, in its order; tests/header.rs holds their types
//! to it.

use answer::Answer;

functions! {
    /// The stream of `list` in `data`, written to the start of `out`.
    pub fn list_stream = eddyplume_list_stream(
        list: &[u8], data: &[u8], out: &mut [u8], answer: &mut Answer
    );

    /// The answer of `list_stream` with room enough.
    pub fn list_measure = eddyplume_list_measure(
        list: &[u8], data: &[u8], answer: &mut Answer
    );

    /// Whether the stream of `list` in `data` has the digest `expected`; `verdict` is the
    /// code of a `Verdict`.
    pub fn list_check = eddyplume_list_check(
        list: &[u8], data: &[u8], expected: &[u8], work: &mut [u8],
        answer: &mut Answer, verdict: &mut [u8; 1]
    );

    /// The stream of a signature in `data`, written to the start of `out`; `uid` is the
    /// data set's transfer syntax, `number` is as in RULES 8.1: "signatures are counted
    /// from 0. Where no number is given, 0 is taken."
    pub fn signature_stream = eddyplume_signature_stream(
        uid: &[u8], number: Option<u64>, data: &[u8], out: &mut [u8], answer: &mut Answer
    );

    /// The answer of `signature_stream` with room enough.
    pub fn signature_measure = eddyplume_signature_measure(
        uid: &[u8], number: Option<u64>, data: &[u8], answer: &mut Answer
    );

    /// Whether the stream of a signature in `data` has the digest `expected`.
    pub fn signature_check = eddyplume_signature_check(
        uid: &[u8], number: Option<u64>, data: &[u8], expected: &[u8], work: &mut [u8],
        answer: &mut Answer, verdict: &mut [u8; 1]
    );

    /// The value of the top-level `tag` in `data`; the tag is RULES 2.5's "number group
    /// times 65,536 plus element". `part` is present (0 or 1), start and length of the
    /// value in `data`.
    pub fn lookup = eddyplume_lookup(
        data: &[u8], tag: u32, answer: &mut Answer, part: &mut [u64; 3]
    );

    /// The digest of `message`.
    pub fn sha256 = eddyplume_sha256(
        message: &[u8], digest: &mut [u8; 32], answer: &mut Answer
    );

    /// The running digest of no bytes; `counts` is how many bytes wait, and how many were
    /// fed in all.
    pub fn digest_start = eddyplume_digest_start(
        words: &mut [u32; 8], waiting: &mut [u8; 64], counts: &mut [u64; 2]
    );

    /// Makes the next running digest; a refusal leaves it as it is.
    pub fn digest_feed = eddyplume_digest_feed(
        words: &mut [u32; 8], waiting: &mut [u8; 64], counts: &mut [u64; 2], bytes: &[u8],
        answer: &mut Answer
    );

    /// The digest of all that was fed.
    pub fn digest_finish = eddyplume_digest_finish(
        words: &[u32; 8], waiting: &[u8; 64], counts: &[u64; 2], digest: &mut [u8; 32],
        answer: &mut Answer
    );
}
