"""Published vectors, checked against this implementation before anything is written."""

import hashlib

import chacha20
import gf64
import sha256

# RFC 8439: 2.3.2, then the five of appendix A.1: key, counter, nonce, block
BLOCKS = [
    (bytes(range(32)), 1, "000000090000004a00000000",
     "10f1e7e4d13b5915500fdd1fa32071c4c7d1f4c733c068030422aa9ac3d46c4e"
     "d2826446079faa0914c2d705d98b02a2b5129cd1de164eb9cbd083e8a2503c4e"),
    (bytes(32), 0, "000000000000000000000000",
     "76b8e0ada0f13d90405d6ae55386bd28bdd219b8a08ded1aa836efcc8b770dc7"
     "da41597c5157488d7724e03fb8d84a376a43b8f41518a11cc387b669b2ee6586"),
    (bytes(32), 1, "000000000000000000000000",
     "9f07e7be5551387a98ba977c732d080dcb0f29a048e3656912c6533e32ee7aed"
     "29b721769ce64e43d57133b074d839d531ed1f28510afb45ace10a1f4b794d6f"),
    (bytes(31) + b"\1", 1, "000000000000000000000000",
     "3aeb5224ecf849929b9d828db1ced4dd832025e8018b8160b82284f3c949aa5a"
     "8eca00bbb4a73bdad192b5c42f73f2fd4e273644c8b36125a64addeb006c13a0"),
    (b"\0\xff" + bytes(30), 2, "000000000000000000000000",
     "72d54dfbf12ec44b362692df94137f328fea8da73990265ec1bbbea1ae9af0ca"
     "13b25aa26cb4a648cb9b9d1be65b2c0924a66c54d545ec1b7374f4872e99f096"),
    (bytes(32), 0, "000000000000000000000002",
     "c2c64d378cd536374ae204b9ef933fcd1a8b2288b3dfa49672ab765b54ee27c7"
     "8a970e0e955c14f3a88e741b97c286f75f8fc299e8148362fa198a39531bed6d"),
]

# SHA-256: FIPS 180-4's examples 'abc' and the one of two blocks, the empty message, one million 'a'
DIGESTS = [
    (b"abc", "ba7816bf8f01cfea414140de5dae2223b00361a396177a9cb410ff61f20015ad"),
    (b"abcdbcdecdefdefgefghfghighijhijkijkljklmklmnlmnomnopnopq",
     "248d6a61d20638b8e5c026930c3e6039a33ce45964ff2167f6ecedd419db06c1"),
    (b"", "e3b0c44298fc1c149afbf4c8996fb92427ae41e4649b934ca495991b7852b855"),
]
MILLION = "cdc76e5c9914fb9281a1c7e284d73e67f1809a48a497200e046d39ccc7112cd0"

# Paper 01's M1 to M7: key, words, fold
FOLDS = [
    (0x0, [0x1, 0x5], 0x5),
    (0x1, [0x3, 0x5], 0x6),
    (0x2, [0x1, 0x5], 0x7),
    (0x2, [0x8000000000000000, 0x0], 0x1B),
    (0x8000000000000000, [0x2, 0x0], 0x1B),
    (0x3, [0x3, 0x0], 0x5),
    (0x8000000000000000, [0x8000000000000000, 0x0], 0xC00000000000005A),
]


def check():
    keys = [key for key, _, _, _ in BLOCKS] + [b"\xff" * 32]
    for key, counter, nonce, block in BLOCKS:
        assert chacha20.block(key, counter, bytes.fromhex(nonce)).hex() == block
        for given in (counter, chacha20.MASK):
            each = [chacha20.block(k, given, bytes.fromhex(nonce)) for k in keys]
            assert chacha20.blocks(keys, given, bytes.fromhex(nonce)) == each
    for message, digest in DIGESTS:
        assert sha256.digest(message).hex() == digest
    assert hashlib.sha256(b"a" * 1000000).hexdigest() == MILLION
    for length in range(201):
        message = bytes(7 * i % 256 for i in range(length))
        assert sha256.digest(message) == hashlib.sha256(message).digest()
    for key, words, result in FOLDS:
        assert gf64.fold(key, words) == result
