#!/usr/bin/env python3
"""The plain slow program beside the definition of a skip file's text: prints length and fnv32 of the files that tests name."""


def fnv32(text):
    value = 2166136261
    for byte in text:
        value = (value ^ byte) * 16777619 % 2**32
    return value


def levels_of(count):
    levels = 0
    while 4**levels < count:
        levels += 1
    return levels


def skip_text(generation, pairs):
    levels = levels_of(len(pairs))
    linked = [[j for j in range(1, levels) if i % 4**j == 0] for i in range(len(pairs))]
    places = [32]
    for (key, value), powers in zip(pairs, linked):
        places.append(places[-1] + 8 * len(powers) + 6 + len(key) + len(value) + 4)
    places[-1] = 0
    text = b"TKPSKIP\n" + bytes([1, 4, levels, 0]) + len(pairs).to_bytes(8, "big") + generation.to_bytes(8, "big")
    text += fnv32(text).to_bytes(4, "big")
    for i, (key, value) in enumerate(pairs):
        place = len(text)
        body = b"".join((places[i + 4**j] if i + 4**j < len(pairs) else 0).to_bytes(8, "big") for j in linked[i])
        body += len(key).to_bytes(2, "big") + len(value).to_bytes(4, "big") + key + value
        text += body + fnv32(body + place.to_bytes(8, "big")).to_bytes(4, "big")
    return text


if __name__ == "__main__":
    for count in (0, 1, 4, 5, 16, 17):
        text = skip_text(7, [(bytes([97 + i]), b"v" * (i % 3)) for i in range(count)])
        print(count, len(text), hex(fnv32(text)))
    print(skip_text(7, [(b"a", b"1")]).hex())
