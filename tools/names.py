"""Names of addresses by an image's symbols, as `slotB+8`, and the addresses that such names mean.

The tools that show or take addresses do so by this. It is outside of what is proved.
"""
import bisect
import re

import formats

BASES, WIDTHS = (0x10000000, 0x20000000, 0x40000000), (4, 8, 8)  # of code, volatile and persistent words
MOST = 8  # names of a list
NUMBER = "a number from 0 to 2^64 - 1 is due, decimal or 0x and hexadecimal digits"
PLACE = re.compile(r"([A-Za-z_][A-Za-z0-9_]*)(?:\+(0x[0-9A-Fa-f]+|[0-9]+))?")


def number_of(word):
    """The number that decimal digits write, or hexadecimal ones behind 0x, if it has 64 bits at most; else None."""
    if re.fullmatch("0x0*[0-9A-Fa-f]{1,16}", word):
        return int(word, 16)
    return formats.number_of(word.encode()) if word.isascii() else None


class Names:
    """The names of an image's places. Without an image there are none."""

    def __init__(self, image=None):
        symbols = image.symbols if image else ()
        self.addresses = [BASES[region] + WIDTHS[region] * place for region, place, _ in symbols]
        self.ends = [BASES[region] + WIDTHS[region] * len(image[1 + region]) for region, _, _ in symbols]
        self.names = [name.decode("ascii") for _, _, name in symbols]

    def name_of(self, address):
        """The greatest symbol of its section at or below an address, and how many bytes are between; or None. Behind the section's
        last word an address has a name only where a symbol stands."""
        at = bisect.bisect_right(self.addresses, address) - 1
        behind = address - self.addresses[at] if at >= 0 else None
        if behind is None or (behind and address >= self.ends[at]):
            return None
        return self.names[at] + (f"+{behind}" if behind else "")

    def short(self, address):
        """Its name, or the address where it has none."""
        return self.name_of(address) or f"0x{address:x}"

    def whole(self, address):
        """Its name with the address behind it, or the address alone."""
        name = self.name_of(address)
        return f"{name} (0x{address:x})" if name else f"0x{address:x}"

    def listed(self, addresses):
        """The first of these addresses with their names, and dots where there are more."""
        return ", ".join([*map(self.whole, addresses[:MOST]), *[".."] * (len(addresses) > MOST)])

    def address_of(self, text):
        """The address that is written as a number, a name, or a name and a number of bytes behind it; or None."""
        found = PLACE.fullmatch(text)
        if not found or found[1] not in self.names:
            return number_of(text)
        behind = number_of(found[2] or "0")
        return None if behind is None else self.addresses[self.names.index(found[1])] + behind


def changed_words(image, given):
    """The persistent words of an image, where some are others: each text is PLACE=WORD. A ValueError tells the first that isn't."""
    words, named = list(image.persistent), Names(image)
    for text in given:
        place, sign, word = text.partition("=")
        if not sign:
            raise ValueError(f"{text}: PLACE=WORD is due")
        address, number = named.address_of(place), number_of(word)
        if address is None or address % 8 or not 0 <= (address - BASES[2]) // 8 < len(words):
            raise ValueError(f"{text}: {place} is no persistent word of the image")
        if number is None:
            raise ValueError(f"{text}: {NUMBER}")
        words[(address - BASES[2]) // 8] = number
    return words
