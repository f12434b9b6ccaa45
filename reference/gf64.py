"""Words of 64 bits as polynomials over two elements, and the fold: paper 01, 'Folding and pads'."""

MODULUS = (1 << 64) | 0b11011


def product(a, b):
    """The product without carries, then its remainder by the modulus, from the highest power down."""
    whole = 0
    for i in range(64):
        if b >> i & 1:
            whole ^= a << i
    for i in range(126, 63, -1):
        if whole >> i & 1:
            whole ^= MODULUS << (i - 64)
    return whole


def fold(key, words):
    value = 0
    for word in words:
        value = product(value, key) ^ word
    return value


def words(data):
    return [int.from_bytes(data[i:i + 8], "little") for i in range(0, len(data), 8)]


def foldprint(data):
    """The whole output of the program foldprint: paper 01, 'Edges'."""
    if len(data) % 8 or not 16 <= len(data) <= 136:
        return "refused\n"
    key, *rest = words(data)
    return "%016x\n" % fold(key, rest)
