"""SHA-256, from FIPS 180-4 section 6.2. The constants are computed from their definition in 4.2.2 and 5.3.3."""

MASK = 0xFFFFFFFF


def primes(count):
    found = []
    n = 2
    while len(found) < count:
        if all(n % p for p in found):
            found.append(n)
        n += 1
    return found


def root_bits(p, k):
    """The first 32 bits of the fractional part of the k-th root of p."""
    target = p << (32 * k)
    low, high = 0, 1 << 40
    while low + 1 < high:
        middle = (low + high) // 2
        if middle ** k <= target:
            low = middle
        else:
            high = middle
    return low & MASK


K = [root_bits(p, 3) for p in primes(64)]
INITIAL = [root_bits(p, 2) for p in primes(8)]


def rotr(x, n):
    return (x >> n) | ((x << (32 - n)) & MASK)


def compress(value, chunk):
    w = [int.from_bytes(chunk[4 * t:4 * t + 4], "big") for t in range(16)]
    for t in range(16, 64):
        s0 = rotr(w[t - 15], 7) ^ rotr(w[t - 15], 18) ^ (w[t - 15] >> 3)
        s1 = rotr(w[t - 2], 17) ^ rotr(w[t - 2], 19) ^ (w[t - 2] >> 10)
        w.append((s1 + w[t - 7] + s0 + w[t - 16]) & MASK)
    a, b, c, d, e, f, g, h = value
    for t in range(64):
        big1 = rotr(e, 6) ^ rotr(e, 11) ^ rotr(e, 25)
        big0 = rotr(a, 2) ^ rotr(a, 13) ^ rotr(a, 22)
        t1 = h + big1 + ((e & f) ^ (~e & g)) + K[t] + w[t]
        t2 = big0 + ((a & b) ^ (a & c) ^ (b & c))
        a, b, c, d, e, f, g, h = (t1 + t2) & MASK, a, b, c, (d + t1) & MASK, e, f, g
    return [(x + y) & MASK for x, y in zip(value, (a, b, c, d, e, f, g, h))]


def digest(message):
    padded = message + b"\x80"
    padded += bytes((56 - len(padded)) % 64) + (8 * len(message)).to_bytes(8, "big")
    value = INITIAL
    for at in range(0, len(padded), 64):
        value = compress(value, padded[at:at + 64])
    return b"".join(x.to_bytes(4, "big") for x in value)
