//! Examples of docs/RULES.md and a published digest through the wrapper.

use eddyplume::{
    digest_feed, digest_finish, digest_start, list_check, list_measure, list_stream, lookup,
    sha256, signature_check, signature_measure, signature_stream, written, Answer, Verdict,
};

const A: &[u8] = &[0x08, 0x00, 0x60, 0x00, 0x43, 0x53, 0x02, 0x00, 0x43, 0x54];
const B: &[u8] = &[0x10, 0x00, 0x10, 0x00, 0x50, 0x4E, 0x02, 0x00, 0x4C, 0x69];
const LIST: &[u8] = &[0x08, 0x00, 0x60, 0x00];

/// SHA-256 of "abc" (FIPS 180-4).
const DIGEST_OF_ABC: [u8; 32] = [
    0xba, 0x78, 0x16, 0xbf, 0x8f, 0x01, 0xcf, 0xea, 0x41, 0x41, 0x40, 0xde, 0x5d, 0xae, 0x22, 0x23,
    0xb0, 0x03, 0x61, 0xa3, 0x96, 0x17, 0x7a, 0x9c, 0xb4, 0x10, 0xff, 0x61, 0xf2, 0x00, 0x15, 0xad,
];

fn measured(list: &[u8], data: &[u8]) -> Answer {
    written(|answer| list_measure(list, data, answer))
}

fn streamed(list: &[u8], data: &[u8], out: &mut [u8]) -> Answer {
    written(|answer| list_stream(list, data, out, answer))
}

#[test]
fn list_mode() {
    let data = [A, B].concat();
    let mut out = [0xEE; 12];
    assert_eq!(streamed(LIST, &data, &mut out), Answer::accepted(10));
    assert_eq!((&out[..10], &out[10..]), (A, &[0xEE, 0xEE][..]));
    assert_eq!(streamed(&[0x08, 0x00, 0x61, 0x00], &data, &mut out), Answer::refused_at(13, 0));
    assert_eq!(streamed(LIST, &[B, A].concat(), &mut out), Answer::refused_at(4, 10));
    assert_eq!(streamed(LIST, &data, &mut out[..9]), Answer::refused(16));
    assert_eq!(measured(LIST, &data), Answer::accepted(10));
    assert_eq!(measured(LIST, &[B, A].concat()), Answer::refused_at(4, 10));
    assert_eq!(streamed(&[], &[], &mut []), Answer::refused(10));

    let (mut digest, _) = written(|(digest, answer)| sha256(A, digest, answer));
    let mut check = |digest: &[u8]| {
        written(|(answer, verdict)| list_check(LIST, &data, digest, &mut out, answer, verdict))
    };
    assert_eq!(check(&digest), (Answer::accepted(10), [Verdict::Same as u8]));
    digest[0] ^= 1;
    assert_eq!(check(&digest), (Answer::accepted(10), [Verdict::Differs as u8]));
    assert_eq!(check(&digest[1..]), (Answer::refused(9), [Verdict::Neither as u8]));
}

#[test]
fn signature_mode_without_a_signature() {
    let answer = written(|answer| signature_stream(b"1.2", None, A, &mut [], answer));
    assert_eq!(answer, Answer::refused(18));
    let answer = written(|answer| signature_measure(b"1.2", None, A, answer));
    assert_eq!(answer, Answer::refused(18));
    let checked = written(|(answer, verdict)| {
        signature_check(b"1.2", Some(u64::MAX), A, &[0; 32], &mut [], answer, verdict)
    });
    assert_eq!(checked, (Answer::refused(18), [Verdict::Neither as u8]));
}

#[test]
fn the_value_of_a_tag() {
    let look = |data: &[u8], tag| written(|(answer, part)| lookup(data, tag, answer, part));
    assert_eq!(look(A, 0x0008_0060), (Answer::accepted(0), [1, 8, 2]));
    assert_eq!(look(A, 0x0008_0061), (Answer::accepted(0), [0, 10, 0]));
    assert_eq!(look(&A[..9], 0x0008_0060), (Answer::refused_at(2, 0), [0, 9, 0]));
}

#[test]
fn digests() {
    let digest = written(|(digest, answer)| sha256(b"abc", digest, answer));
    assert_eq!(digest, (DIGEST_OF_ABC, Answer::accepted(0)));

    let (mut words, mut waiting, mut counts) = ([0; 8], [0; 64], [0; 2]);
    digest_start(&mut words, &mut waiting, &mut counts);
    for bytes in ["a", "bc"] {
        let answer = written(|answer| {
            digest_feed(&mut words, &mut waiting, &mut counts, bytes.as_bytes(), answer)
        });
        assert_eq!(answer, Answer::accepted(0));
    }
    assert_eq!(counts, [3, 3]);
    let finish = |counts: &[u64; 2]| {
        written(|(digest, answer)| digest_finish(&words, &waiting, counts, digest, answer))
    };
    assert_eq!(finish(&counts), (DIGEST_OF_ABC, Answer::accepted(0)));
    assert_eq!(finish(&[4, 3]), ([0; 32], Answer::refused(25)));

    let (words_before, waiting_before) = (words, waiting);
    let mut impossible = [4, 3];
    let answer =
        written(|answer| digest_feed(&mut words, &mut waiting, &mut impossible, b"d", answer));
    assert_eq!(answer, Answer::refused(25));
    assert_eq!((words, waiting, impossible), (words_before, waiting_before, [4, 3]));
}
