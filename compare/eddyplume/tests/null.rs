//! A null pointer with length 0 is an empty buffer, in every function.
use eddyplume::*;
use std::ptr::{null, null_mut};

#[test]
fn null_pointers_are_empty_buffers() {
    let (mut answer, mut verdict, mut part) = (Answer::refused(99), [9], [9; 3]);
    let mut digest = [0; 32];
    unsafe {
        eddyplume_list_stream(null(), 0, null(), 0, null_mut(), 0, &mut answer);
        assert_eq!(answer, Answer::refused(10));
        answer = Answer::refused(99);
        eddyplume_list_measure(null(), 0, null(), 0, &mut answer);
        assert_eq!(answer, Answer::refused(10));
        eddyplume_list_check(null(), 0, null(), 0, null(), 0, null_mut(), 0, &mut answer, &mut verdict);
        assert_eq!((answer, verdict), (Answer::refused(10), [0]));
        eddyplume_signature_stream(null(), 0, false, 0, null(), 0, null_mut(), 0, &mut answer);
        assert_eq!(answer, Answer::refused(18));
        answer = Answer::refused(99);
        eddyplume_signature_measure(null(), 0, true, 7, null(), 0, &mut answer);
        assert_eq!(answer, Answer::refused(18));
        eddyplume_signature_check(null(), 0, true, 7, null(), 0, null(), 0, null_mut(), 0, &mut answer, &mut verdict);
        assert_eq!((answer, verdict), (Answer::refused(18), [0]));
        eddyplume_lookup(null(), 0, 0x0008_0060, &mut answer, &mut part);
        assert_eq!((answer, part), (Answer::accepted(0), [0; 3]));
        eddyplume_sha256(null(), 0, &mut digest, &mut answer);
        assert_eq!((answer, &digest[..4]), (Answer::accepted(0), &[0xe3, 0xb0, 0xc4, 0x42][..]));
    }
    let (mut words, mut waiting, mut counts) = ([0; 8], [0; 64], [0; 2]);
    digest = [0; 32];
    unsafe {
        eddyplume_digest_start(&mut words, &mut waiting, &mut counts);
        eddyplume_digest_feed(&mut words, &mut waiting, &mut counts, null(), 0, &mut answer);
        eddyplume_digest_finish(&words, &waiting, &counts, &mut digest, &mut answer);
    }
    assert_eq!((answer, &digest[..4]), (Answer::accepted(0), &[0xe3, 0xb0, 0xc4, 0x42][..]));
}
