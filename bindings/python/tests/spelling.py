"""Bytes that tests spell as docs/FORMATS.md of the repository says."""


def spelled(*numbers: tuple[int, int]) -> bytes:
    """Numbers, each as that many bytes, the highest byte first. One below 0 is in two's complement."""
    return b"".join((number % (1 << 8 * length)).to_bytes(length, "big") for length, number in numbers)
