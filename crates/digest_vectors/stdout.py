#!/usr/bin/env python3
"""Writes the file `stdout`, what this program has to print, without running it.

The published vectors and the messages in parts: Python's hashlib (OpenSSL), held to the published values. The running digests of
arbitrary words, which hashlib does not take: the few lines below, written from FIPS 180-4 and held to hashlib on every message.
Answers are number, position and length, as the definition has them for each case."""
import hashlib
import math
import pathlib

LIMIT = 2**61 - 1
PRIMES = [p for p in range(2, 312) if all(p % d for d in range(2, p))]


def root_bits(p, cube):
    n = p << (96 if cube else 64)
    r = math.isqrt(n)
    if cube:
        r = round(n ** (1 / 3))
        while r**3 > n:
            r -= 1
        while (r + 1) ** 3 <= n:
            r += 1
    return r % 2**32


K = [root_bits(p, True) for p in PRIMES]
START = [root_bits(p, False) for p in PRIMES[:8]]


def rotr(x, n):
    return (x >> n | x << (32 - n)) % 2**32


def block(words, b):
    w = [int.from_bytes(b[4 * i : 4 * i + 4], "big") for i in range(16)]
    for t in range(16, 64):
        x, y = w[t - 2], w[t - 15]
        s1, s0 = rotr(x, 17) ^ rotr(x, 19) ^ x >> 10, rotr(y, 7) ^ rotr(y, 18) ^ y >> 3
        w.append((s1 + w[t - 7] + s0 + w[t - 16]) % 2**32)
    a, b_, c, d, e, f, g, h = words
    for t in range(64):
        t1 = h + (rotr(e, 6) ^ rotr(e, 11) ^ rotr(e, 25)) + (e & f ^ (e ^ 2**32 - 1) & g) + K[t] + w[t]
        t2 = (rotr(a, 2) ^ rotr(a, 13) ^ rotr(a, 22)) + (a & b_ ^ a & c ^ b_ & c)
        a, b_, c, d, e, f, g, h = (t1 + t2) % 2**32, a, b_, c, (d + t1) % 2**32, e, f, g
    return [(x + y) % 2**32 for x, y in zip(words, (a, b_, c, d, e, f, g, h))]


def take_blocks(words, m):
    while len(m) >= 64:
        words, m = block(words, m[:64]), m[64:]
    return words, m


def possible(s):
    words, waiting, count, total = s
    return count == total % 64 and not any(waiting[count:])


def feed(s, m):
    words, waiting, count, total = s
    if not possible(s) or total + len(m) > LIMIT:
        return 25, s
    words, rest = take_blocks(words, waiting[:count] + m)
    return 0, (words, rest + bytes(64 - len(rest)), len(rest), total + len(m))


def finish(s):
    words, waiting, count, total = s
    if not possible(s) or total > LIMIT:
        return 25, bytes(32)
    end = waiting[:count] + b"\x80"
    end += bytes(-(len(end) + 8) % 64) + (8 * total).to_bytes(8, "big")
    words, rest = take_blocks(words, end)
    assert rest == b""
    return 0, b"".join(w.to_bytes(4, "big") for w in words)


out = []

# as NIST publishes them
PUBLISHED = {
    ("empty", 0): "e3b0c44298fc1c149afbf4c8996fb92427ae41e4649b934ca495991b7852b855",
    ("abc", 3): "ba7816bf8f01cfea414140de5dae2223b00361a396177a9cb410ff61f20015ad",
    ("448-bits", 56): "248d6a61d20638b8e5c026930c3e6039a33ce45964ff2167f6ecedd419db06c1",
    ("896-bits", 112): "cf5b16a778af8380036ce59e7b0492370b249b11e8f07a51afac45037afee9d1",
    ("million", 1000000): "cdc76e5c9914fb9281a1c7e284d73e67f1809a48a497200e046d39ccc7112cd0",
}

A = b"a"
MESSAGES = [
    ("empty", b""),
    ("abc", b"abc"),
    ("448-bits", b"abcdbcdecdefdefgefghfghighijhijkijkljklmklmnlmnomnopnopq"),
    (
        "896-bits",
        b"abcdefghbcdefghicdefghijdefghijkefghijklfghijklmghijklmn"
        b"hijklmnoijklmnopjklmnopqklmnopqrlmnopqrsmnopqrstnopqrstu",
    ),
]
MESSAGES += [("letters", A * n) for n in (1, 54, 55, 56, 57, 63, 64, 65, 119, 120, 127, 128, 129)]
MESSAGES += [("million", A * 1000000)]
for name, m in MESSAGES:
    digest = hashlib.sha256(m)
    assert finish(feed((START, bytes(64), 0, 0), m)[1]) == (0, digest.digest())
    assert PUBLISHED.get((name, len(m)), digest.hexdigest()) == digest.hexdigest()
    for part in (0, 1, 7, 55, 56, 63, 64, 65, 1000):
        out.append(f"{name} {len(m)} {part} 0 0 0 {digest.hexdigest()}")


def state(count, after, total):
    waiting = A * count + (bytes([after]) if count < 64 else b"")
    return ([1, 2, 3, 4, 5, 6, 7, 2**32 - 1], waiting + bytes(64 - len(waiting)), count, total)


CASES = [
    ("possible", (3, 0, 3), 5),
    ("possible-after-blocks", (63, 0, 191), 200),
    ("count-above-total", (1, 0, 0), 1),
    ("count-below-total", (2, 0, 3), 1),
    ("count-of-a-block", (64, 0, 64), 1),
    ("byte-past-the-waiting", (3, 1, 3), 1),
    ("total-at-the-limit", (63, 0, LIMIT), 0),
    ("total-at-the-limit-and-one-more", (63, 0, LIMIT), 1),
    ("total-past-the-limit", (0, 0, LIMIT + 1), 0),
    ("largest-total", (63, 0, 2**64 - 1), 1),
    ("feeding-to-the-limit", (62, 0, LIMIT - 1), 1),
    ("feeding-past-the-limit", (62, 0, LIMIT - 1), 2),
]
for name, args, n in CASES:
    s = state(*args)
    number, digest = finish(s)
    out.append(f"{name} finish {number} 0 0 kept {digest.hex()}")
    number, t = feed(s, b"b" * n)
    out.append(f"{name} feed {n} {number} 0 0 {'kept' if s == t else 'changed'} {t[2]} {finish(t)[1].hex()}")

pathlib.Path(__file__).with_name("stdout").write_text("\n".join(out) + "\n")
