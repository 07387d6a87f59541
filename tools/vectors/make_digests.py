#!/usr/bin/env python3
"""Prints crates/vectors/data/digests.txt, by Python's hashlib.

    python3 tools/vectors/make_digests.py > crates/vectors/data/digests.txt

    digest KIND LEAD LEFT RIGHT HEX     a lead byte and two parts of LEFT and RIGHT bytes; byte 0 of the joined message is
                                        LEAD, byte i from 1 on is (31*i + 7*n + 3) % 251, where n = LEFT + RIGHT
    message KIND MESSAGE HEX            a whole message in hex, without a lead byte; '-' is the empty one
KIND is 1 for SHA-256 and 2 for SHA3-256.
"""
import hashlib

HASHES = {1: hashlib.sha256, 2: hashlib.sha3_256}

TWO_BLOCKS_448 = b"abcdbcdecdefdefgefghfghighijhijkijkljklmklmnlmnomnopnopq"
TWO_BLOCKS_896 = (b"abcdefghbcdefghicdefghijdefghijkefghijklfghijklmghijklmn"
                  b"hijklmnoijklmnopjklmnopqklmnopqrlmnopqrsmnopqrstnopqrstu")

# Messages that are usual for these standards, with the digests that are printed for them.
PUBLISHED = [
    ("SHA-256, the empty message", 1, b"", "e3b0c44298fc1c149afbf4c8996fb92427ae41e4649b934ca495991b7852b855"),
    ("SHA-256, 'abc': one block", 1, b"abc", "ba7816bf8f01cfea414140de5dae2223b00361a396177a9cb410ff61f20015ad"),
    ("SHA-256, the message of 448 bits: two blocks", 1, TWO_BLOCKS_448,
     "248d6a61d20638b8e5c026930c3e6039a33ce45964ff2167f6ecedd419db06c1"),
    ("SHA-256, the message of 896 bits: two blocks", 1, TWO_BLOCKS_896,
     "cf5b16a778af8380036ce59e7b0492370b249b11e8f07a51afac45037afee9d1"),
    ("SHA3-256, the empty message", 2, b"", "a7ffc6f8bf1ed76651c14756a061d662f580ff4de43b49fa82d80a4b80f8434a"),
    ("SHA3-256, 'abc': one block", 2, b"abc", "3a985da74fe225b2045c172d6bd390bd855f086e3e9d525b46bfe24511431532"),
    ("SHA3-256, the message of 448 bits: one block", 2, TWO_BLOCKS_448,
     "41c0dba2a9d6240849100376a8235e2c82e1b9998a999e21db32dd97496d3376"),
    ("SHA3-256, the message of 896 bits: one block", 2, TWO_BLOCKS_896,
     "916f6061fe879741ca6469b43971dfdb28b1a32dc36cb3254e812be27aad1d18"),
    ("SHA3-256, the message of 1600 bits, 200 bytes 0xa3: two blocks", 2, b"\xa3" * 200,
     "79f38adec5c20307a98ef76e8324afbfd46cfd81b22e3973c65fa1bd9de31787"),
]

LEADS = (0, 1, 2, 127, 128, 255)


def cuts(n):
    """Three lengths of the left part, varying with n, and fewer where they fall together."""
    usual = [cut for cut in (31, 32, 63, 64, 135) if cut < n]
    chosen = [n // 2, (0, n)[n % 2]]
    chosen.append(usual[n % len(usual)] if usual else n)
    return sorted(set(chosen))


def digest_line(kind, lead, left, right):
    n = left + right
    message = bytes([lead]) + bytes((31 * i + 7 * n + 3) % 251 for i in range(1, n + 1))
    print("digest", kind, lead, left, right, HASHES[kind](message).hexdigest())


def main():
    print("# digest KIND LEAD LEFT RIGHT HEX, and message KIND MESSAGE HEX. README.md says what these mean and how they were made.")
    for name, kind, message, published in PUBLISHED:
        made = HASHES[kind](message).hexdigest()
        assert made == published, name
        print("#", name)
        print("message", kind, message.hex() or "-", made)
    for kind in (1, 2):
        print("# kind", kind, "parts of 0 to 300 bytes together")
        for n in range(301):
            for i, left in enumerate(cuts(n)):
                digest_line(kind, LEADS[(n + i) % len(LEADS)], left, n - left)
        print("# kind", kind, "near the limit of 4,096 bytes")
        for n in (4031, 4032, 4063, 4064, 4079, 4080, 4094, 4095, 4096):
            for i, left in enumerate((0, 1, 31, 32, 63, 64, 135, 136, n // 2, n - 1, n)):
                digest_line(kind, LEADS[(n + i) % len(LEADS)], left, n - left)


if __name__ == "__main__":
    main()
