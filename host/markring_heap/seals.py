"""The seal of what processes save: XXH3 of 64 bits with a seed, from its public specification."""
from __future__ import annotations

from operator import mul
from struct import unpack, unpack_from

MASK = (1 << 64) - 1
SECRET = bytes.fromhex(
    "b8fe6c3923a44bbe7c01812cf721ad1cded46de9839097db7240a4a4b7b3671f"
    "cb79e64eccc0e578825ad07dccff7221b8084674f743248ee03590e6813a264c"
    "3c2852bb91c300cb88d0658b1b532ea371644897a20df94e3819ef46a9deacd8"
    "a8fa763fe39c343ff9dcbbc7c70b4f1d8a51e04bcdb45931c89f7ec9d9787364"
    "eac5ac8334d3ebc3c581a0fffa1363eb170ddd51b7f0da49d316552629d4689e"
    "2b16be587d47a1fc8ff8b8d17ad031ce45cb3a8f95160428afd7fbcabb4b407e"
)
PRIME = 0x9E3779B185EBCA87
# The eight sums of long data, at first.
SUMS = (
    0xC2B2AE3D, PRIME, 0xC2B2AE3D27D4EB4F, 0x165667B19E3779F9,
    0x85EBCA77C2B2AE63, 0x85EBCA77, 0x27D4EB2F165667C5, 0x9E3779B1,
)  # fmt: skip
STRIPE, BLOCK, SHORTEST = 64, 1024, 17


def seal_of(data: memoryview, seed: int = 0) -> int:
    """The seal of at least 17 bytes. (Nothing shorter has one.)"""
    if len(data) > 240:
        return _of_many(data, seed)
    if len(data) < SHORTEST:
        raise ValueError("too short for a seal")
    total = len(data) * PRIME
    if len(data) > 128:
        total = _mixed(total + sum(_pair(data, 16 * it, 16 * it, seed) for it in range(8)))
        total += sum(_pair(data, 16 * it, 16 * it - 125, seed) for it in range(8, len(data) // 16))
        return _mixed(total + _pair(data, len(data) - 16, 119, seed))
    for it in range((len(data) - 1) // 32 + 1):
        total += _pair(data, 16 * it, 32 * it, seed)
        total += _pair(data, len(data) - 16 * (it + 1), 32 * it + 16, seed)
    return _mixed(total)


def _folded(one: int, other: int) -> int:
    product = one * other
    return (product ^ product >> 64) & MASK


def _mixed(total: int) -> int:
    total &= MASK
    total = (total ^ total >> 37) * 0x165667919E3779F9 & MASK
    return total ^ total >> 32


def _pair(data: memoryview, at: int, key: int, seed: int) -> int:
    """Two words of the data, mixed with two of the secret."""
    one, other = unpack_from("<2Q", data, at)
    first, second = unpack_from("<2Q", SECRET, key)
    return _folded(one ^ (first + seed & MASK), other ^ (second - seed & MASK))


def _of_many(data: memoryview, seed: int) -> int:
    """The seal of more than 240 bytes: stripes go into eight sums, which are mixed after each block."""
    words = unpack("<24Q", SECRET)
    secret = b"".join(
        (word + (-seed if it % 2 else seed) & MASK).to_bytes(8, "little") for it, word in enumerate(words)
    )
    key = b"".join(secret[at : at + STRIPE] for at in range(0, BLOCK // STRIPE * 8, 8))
    last = unpack_from("<8Q", secret, len(secret) - STRIPE)
    sums = list(SUMS)
    end = (len(data) - 1) // BLOCK * BLOCK
    for at in range(0, end, BLOCK):
        _add(sums, data[at : at + BLOCK], key)
        sums = [((it ^ it >> 47) ^ word) * SUMS[7] & MASK for it, word in zip(sums, last)]
    rest = (len(data) - 1 - end) // STRIPE * STRIPE
    _add(sums, data[end : end + rest], key[:rest])
    _add(sums, data[len(data) - STRIPE :], secret[121 : 121 + STRIPE])
    words = unpack_from("<8Q", secret, 11)
    folded = (_folded(sums[it] ^ words[it], sums[it + 1] ^ words[it + 1]) for it in range(0, 8, 2))
    return _mixed(len(data) * PRIME + sum(folded))


def _add(sums: list[int], stripes: memoryview, key: bytes) -> None:
    """Adds whole stripes to the sums; the key has as many bytes."""
    mixed = int.from_bytes(stripes, "little") ^ int.from_bytes(key, "little")
    halves = unpack(f"<{len(key) // 4}I", mixed.to_bytes(len(key), "little"))
    products = list(map(mul, halves[::2], halves[1::2]))
    words = unpack(f"<{len(key) // 8}Q", stripes)
    for lane in range(8):
        sums[lane] = (sums[lane] + sum(products[lane::8]) + sum(words[lane ^ 1 :: 8])) & MASK
