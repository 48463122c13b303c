"""Addresses, masks, and ranges as the fewest prefixes."""

import functools

ALL_ONES = 2**32 - 1


def is_number(word):
    """Whether a word is decimal digits alone."""
    return word.isascii() and word.isdigit()


@functools.lru_cache(maxsize=1 << 16)
def address_of(word):
    """The number of a dotted address, or None."""
    parts = word.split(".")
    if len(parts) != 4 or not all(is_number(part) and len(part) <= 3 and int(part) < 256 for part in parts):
        return None
    return sum(int(part) << shift for part, shift in zip(parts, (24, 16, 8, 0)))


def dotted(address):
    """An address as four numbers with dots."""
    return ".".join(str(address >> shift & 255) for shift in (24, 16, 8, 0))


def mask_of(length):
    """The mask of a prefix length, as a number."""
    return ALL_ONES << (32 - length) & ALL_ONES


@functools.lru_cache(maxsize=1 << 10)
def length_of(mask):
    """The prefix length of a mask, or None where its ones don't stand in front of its zeros."""
    length = bin(mask).count("1")
    return length if mask_of(length) == mask else None


def holds(prefix, length, address):
    """Whether a prefix holds an address."""
    return address & mask_of(length) == prefix


def natural_length(address):
    """The length of a network by its class (RFC 791): A, B or C; None for the classes without networks."""
    first = address >> 24
    return 8 if first < 128 else 16 if first < 192 else 24 if first < 224 else None


def fewest_prefixes(low, high):
    """The fewest prefixes that hold exactly the addresses from the one to the other, in order."""
    found = []
    while low <= high:
        # The largest block that begins here and doesn't go beyond the end.
        size = low & -low if low else 2**32
        while size > high - low + 1:
            size >>= 1
        found.append((low, 33 - size.bit_length()))
        low += size
    return found


def endpoint_words(prefix, length):
    """A prefix as an access list writes it."""
    if length == 0:
        return ["any"]
    if length == 32:
        return ["host", dotted(prefix)]
    return [dotted(prefix), dotted(ALL_ONES ^ mask_of(length))]
