//! Published SHA-256 vectors (FIPS 180-4 examples), the constants, and the
//! running digest's number 25.

mod common;
use common::hex;
use independent::sha256::*;

fn is(message: &[u8], digest: &str) {
    assert_eq!(sha256(message).to_vec(), hex(digest));
}

#[test]
fn published_vectors() {
    is(b"", "e3b0c44298fc1c149afbf4c8996fb92427ae41e4649b934ca495991b7852b855");
    is(b"abc", "ba7816bf8f01cfea414140de5dae2223b00361a396177a9cb410ff61f20015ad");
    is(
        b"abcdbcdecdefdefgefghfghighijhijkijkljklmklmnlmnomnopnopq",
        "248d6a61d20638b8e5c026930c3e6039a33ce45964ff2167f6ecedd419db06c1",
    );
    is(
        b"abcdefghbcdefghicdefghijdefghijkefghijklfghijklmghijklmnhijklmnoijklmnopjklmnopqklmnopqrlmnopqrsmnopqrstnopqrstu",
        "cf5b16a778af8380036ce59e7b0492370b249b11e8f07a51afac45037afee9d1",
    );
    is(
        &vec![b'a'; 1_000_000],
        "cdc76e5c9914fb9281a1c7e284d73e67f1809a48a497200e046d39ccc7112cd0",
    );
}

/// FIPS 180-4, 4.2.2 and 5.3.3: the first 32 bits of the fractional parts of
/// the cube (square) roots of the first primes.
#[test]
fn constants_by_their_definition() {
    fn root(power: u32, of: u128) -> u128 {
        let (mut low, mut high) = (0u128, 1u128 << 42);
        while high - low > 1 {
            let middle = (low + high) / 2;
            match middle.checked_pow(power) {
                Some(value) if value <= of => low = middle,
                _ => high = middle,
            }
        }
        low
    }
    let primes: Vec<u128> = (2..312).filter(|n| (2..*n).all(|d| n % d != 0)).collect();
    assert_eq!(primes.len(), 64);
    for (constant, prime) in ROUND_CONSTANTS.iter().zip(&primes) {
        assert_eq!(*constant, root(3, prime << 96) as u32);
    }
    for (word, prime) in START_WORDS.iter().zip(&primes) {
        assert_eq!(*word, root(2, prime << 64) as u32);
    }
}

#[test]
fn any_cutting_gives_the_same_digest() {
    let message: Vec<u8> = (0..300u32).map(|i| (i * 7) as u8).collect();
    for length in 0..message.len() {
        let message = &message[..length];
        for cut in [0, 1, 55, 56, 63, 64, 65, 128] {
            let cut = cut.min(length);
            let first = RunningDigest::start().feed(&message[..cut]);
            let second = first.next.feed(&message[cut..]);
            assert!(first.next.possible() && second.next.possible());
            assert_eq!(second.next.total, length as u64);
            assert_eq!(second.next.finish().digest, sha256(message));
        }
    }
}

#[test]
fn number_25() {
    let start = RunningDigest::start();
    let refused = |running: RunningDigest| {
        let fed = running.feed(b"x");
        assert_eq!((fed.answer.number, fed.next), (25, running));
        assert_eq!(running.feed(b"").answer.number, 25);
        let finished = running.finish();
        assert_eq!((finished.answer.number, finished.digest), (25, [0; 32]));
    };
    refused(RunningDigest { count: 1, ..start });
    refused(RunningDigest { total: 1, ..start });
    refused(RunningDigest { count: 64, total: 64, ..start });
    refused(RunningDigest { count: 1000, ..start });
    let mut dirty = start;
    dirty.waiting[63] = 1;
    refused(dirty);
    let mut waiting = RunningDigest { count: 63, total: 63, ..start };
    waiting.waiting[62] = 1;
    assert_eq!(waiting.feed(b"x").answer.number, 0);
    waiting.waiting[63] = 1;
    refused(waiting);
    refused(RunningDigest { total: 1 << 61, ..start });
    refused(RunningDigest { total: u64::MAX - 63, ..start });

    // 10.3: "The words may be any eight"
    assert_eq!(RunningDigest { words: [9; 8], ..start }.feed(b"x").answer.number, 0);

    // 2^61 - 1 bytes serve, one more does not
    let near = RunningDigest { total: (1 << 61) - 64, ..start };
    let full = near.feed(&[5; 63]);
    assert_eq!((full.answer.number, full.next.total), (0, MOST_TOTAL));
    assert_eq!(full.next.finish().answer.number, 0);
    let over = near.feed(&[5; 64]);
    assert_eq!((over.answer.number, over.next), (25, near));
    assert_eq!(full.next.feed(b"").answer.number, 0);
    assert_eq!(full.next.feed(b"x").answer.number, 25);
}
