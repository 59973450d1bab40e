#!/usr/bin/env python3
"""Derives damage.script and damage.expected from the rules for a card's metadata, without the program.

Every byte of the three metadata blocks of a small card is changed, one at a time, to each of a few values, the card
is checked, and the byte is put back. Run it again only when the rules change; the gate compares with what is stored.
"""

BLOCKS = 8          # of the device: five data blocks
DATA = BLOCKS - 3
SLOTS = 7           # the default
VALUES = [88, 48, 49, 57, 32, 0, 255, 4]

IDENTIFIER = 1_999_999_999
SERIAL = 999_999_999
# the least and the greatest number in each field of block 0
GENERATION = [(0, IDENTIFIER)] * 4 + [(0, SERIAL), (0, 1), (0, 1), (4, 16), (DATA, DATA)]


def field(number):
    return str(number).rjust(12).encode()


def read(columns):
    """The number that the columns are the field of, or None."""
    text = columns.lstrip(b" ")
    if not text or any(c not in b"0123456789" for c in text):
        return None
    number = int(text)
    return number if field(number) == columns else None


def padded(fields):
    return bytearray(b"".join(fields).ljust(512, b" "))


def new_card():
    generation = [0, 0, 0, 0, 0, 0, 0, SLOTS, DATA]
    return [padded([field(n) for n in generation]), padded([field(0)] * 16), bytearray(512)]


def first_other_than_space(block, start):
    for byte in range(start, 512):
        if block[byte] != 32:
            return byte
    return None


def wrong_generation(block):
    for i, (least, most) in enumerate(GENERATION):
        number = read(bytes(block[12 * i:12 * i + 12]))
        if number is None or not least <= number <= most:
            return 12 * i
    return first_other_than_space(block, 12 * len(GENERATION))


def wrong_activity(block, slots):
    extents = (DATA + 63) // 64
    seen = set()
    for i in range(16):
        number = read(bytes(block[12 * i:12 * i + 12]))
        if number is None or number > extents or (number and (i >= slots or number in seen)):
            return 12 * i
        seen.add(number)
    return first_other_than_space(block, 12 * 16)


def wrong_bitmap(block):
    for byte in range(512):
        for bit in range(8):
            if block[byte] >> bit & 1 and 8 * byte + bit >= DATA:
                return byte
    return None


def check(card):
    byte = wrong_generation(card[0])
    if byte is not None:
        return f"refused 5 Meta node 0 block 0 byte {byte}"
    slots = read(bytes(card[0][84:96]))
    byte = wrong_activity(card[1], slots)
    if byte is not None:
        return f"refused 5 Meta node 0 block 1 byte {byte}"
    byte = wrong_bitmap(card[2])
    if byte is not None:
        return f"refused 5 Meta node 0 block 2 byte {byte}"
    return "ok"


def main():
    script = ["# Every byte of a small card's metadata, damaged one at a time: derived from the rules by derive_damage.py."]
    expected = []

    def line(command, answer):
        script.append(command)
        expected.append(f"{command} -> {answer}")

    line(f"new flat {BLOCKS} 0 image {BLOCKS} 0 slot", "ok")
    card = new_card()
    line("check 0", check(card))
    for block in range(3):
        for byte in range(512):
            was = card[block][byte]
            value = VALUES[(byte + 3 * block) % len(VALUES)]
            if value == was:
                value = VALUES[(byte + 3 * block + 1) % len(VALUES)]
            card[block][byte] = value
            line(f"poke 0 {block} {byte} {value}", "ok")
            line("check 0", check(card))
            card[block][byte] = was
            line(f"poke 0 {block} {byte} {was}", "ok")
    line("check 0", check(card))
    expected.append("status 0")
    with open("damage.script", "w") as out:
        out.write("\n".join(script) + "\n")
    with open("damage.expected", "w") as out:
        out.write("\n".join(expected) + "\n")


main()
