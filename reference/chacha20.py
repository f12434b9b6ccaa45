"""The ChaCha20 block function, from RFC 8439 section 2, and the nonces of paper 01 and of paper 02, note 3."""

MASK = 0xFFFFFFFF


def rotate_left(x, n):
    return ((x << n) & MASK) | (x >> (32 - n))


def quarter_round(state, a, b, c, d):
    for first, second in ((16, 12), (8, 7)):
        state[a] = (state[a] + state[b]) & MASK
        state[d] = rotate_left(state[d] ^ state[a], first)
        state[c] = (state[c] + state[d]) & MASK
        state[b] = rotate_left(state[b] ^ state[c], second)


def words(data):
    return [int.from_bytes(data[i:i + 4], "little") for i in range(0, len(data), 4)]


def block(key, counter, nonce):
    assert len(key) == 32 and len(nonce) == 12
    start = words(b"expand 32-byte k") + words(key) + [counter] + words(nonce)
    state = list(start)
    for _ in range(10):
        for i in range(4):
            quarter_round(state, i, 4 + i, 8 + i, 12 + i)
        for i in range(4):
            quarter_round(state, i, 4 + (i + 1) % 4, 8 + (i + 2) % 4, 12 + (i + 3) % 4)
    return b"".join(((x + y) & MASK).to_bytes(4, "little") for x, y in zip(state, start))


def blocks(keys, counter, nonce):
    """The blocks of many keys at once: word w of each key in a number with 64 bits a key, so that sums and shifts stay apart."""
    if not keys:
        return []
    ones = int.from_bytes((1).to_bytes(8, "little") * len(keys), "little")
    mask = ones * MASK
    start = [x * ones for x in words(b"expand 32-byte k")]
    start += [int.from_bytes(b"".join(k[at:at + 4] + bytes(4) for k in keys), "little") for at in range(0, 32, 4)]
    start += [x * ones for x in [counter] + words(nonce)]
    state = list(start)

    def quarter(a, b, c, d):
        for first, second in ((16, 12), (8, 7)):
            state[a] = state[a] + state[b] & mask
            x = state[d] ^ state[a]
            state[d] = (x << first | x >> 32 - first) & mask
            state[c] = state[c] + state[d] & mask
            x = state[b] ^ state[c]
            state[b] = (x << second | x >> 32 - second) & mask

    for _ in range(10):
        for i in range(4):
            quarter(i, 4 + i, 8 + i, 12 + i)
        for i in range(4):
            quarter(i, 4 + (i + 1) % 4, 8 + (i + 2) % 4, 12 + (i + 3) % 4)
    out = [(x + y & mask).to_bytes(8 * len(keys), "little") for x, y in zip(state, start)]
    return [b"".join(word[at:at + 4] for word in out) for at in range(0, 8 * len(keys), 8)]


def nonce(use, batch):
    """Paper 01, 'Trees and streams'. Its last 4 bytes, zero there, hold the upper half of the batch number: paper 02, note 3."""
    lower, upper = batch & MASK, batch >> 32
    return b"".join(x.to_bytes(4, "little") for x in (use, lower, upper))
