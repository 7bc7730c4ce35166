"""Pictures of 256 colours as PNG, which take a quarter of the bytes; and such pictures one after the other, as APNG."""
import struct
import zlib
from collections import Counter
from typing import Any, Dict, Iterator, List, NamedTuple, Sequence, Tuple

from .png import chunk

SIGNATURE = b"\x89PNG\r\n\x1a\n"
MOST = 256
Colour = Tuple[int, ...]


class Picture(NamedTuple):
    width: int
    height: int
    pixels: bytes  # red, green and blue, row by row


def chunks(data: bytes) -> Iterator[Tuple[bytes, bytes]]:
    at = len(SIGNATURE)
    while at < len(data):
        (size,) = struct.unpack_from(">I", data, at)
        yield data[at + 4 : at + 8], data[at + 8 : at + 8 + size]
        at += size + 12


def opened(data: bytes) -> Picture:
    """The picture in a PNG of 8 bits a channel, with or without alpha, as a browser writes it."""
    parts = list(chunks(data))
    width, height, _, kind = struct.unpack_from(">IIBB", parts[0][1])
    step = 4 if kind == 6 else 3
    plain = zlib.decompress(b"".join(part for name, part in parts if name == b"IDAT"))
    rows, above, size = [], bytes(step * width), step * width + 1
    for at in range(0, size * height, size):
        above = unfiltered(plain[at], plain[at + 1 : at + size], above, step)
        rows.append(above)
    pixels = bytearray(3 * width * height)
    whole = b"".join(rows)
    for channel in range(3):
        pixels[channel::3] = whole[channel::step]
    return Picture(width, height, bytes(pixels))


def unfiltered(kind: int, row: bytes, above: bytes, step: int) -> bytes:
    """A row of bytes, by those to the left and above."""
    if kind == 0:
        return row
    found = bytearray(step) + bytearray(row)  # a pixel of zeros stands before the first
    before = bytes(step) + above
    for at in range(step, len(found)):
        left, up, corner = found[at - step], before[at], before[at - step]
        guess = (left, up, (left + up) >> 1, nearest(left, up, corner))[kind - 1]
        found[at] = found[at] + guess & 255
    return bytes(found[step:])


def nearest(left: int, up: int, corner: int) -> int:
    guess = left + up - corner
    return min((left, up, corner), key=lambda one: abs(guess - one))


def coarse(pixels: bytes) -> List[int]:
    """Each pixel's colour in 18 bits."""
    return [
        red >> 2 << 12 | green >> 2 << 6 | blue >> 2
        for red, green, blue in zip(pixels[::3], pixels[1::3], pixels[2::3])
    ]


def parts_of(code: int) -> Colour:
    return code >> 12, code >> 6 & 63, code & 63


Box = List[Tuple[Colour, int]]  # colours, and how often each of them is


def spread_of(box: Box) -> Tuple[int, int]:
    """How far apart the colours are along the channel in which they are so most, and that channel."""
    return max((max(c[k] for c, _ in box) - min(c[k] for c, _ in box), k) for k in range(3))


def halves(box: Box) -> Tuple[Box, Box]:
    """The colours on both sides of the middle pixel."""
    _, channel = spread_of(box)
    ordered, before, half = sorted(box, key=lambda one: one[0][channel]), 0, sum(times for _, times in box) / 2
    for at, (_, times) in enumerate(ordered[:-1], 1):
        before += times
        if before >= half:
            break
    return ordered[:at], ordered[at:]


def palette(counts: "Counter[int]") -> Tuple[List[bytes], Dict[int, int]]:
    """Colours that stand for all, by cutting the box of most pixels times its spread in two; and which one each has."""
    boxes: List[Any] = [(0, [(parts_of(code), times) for code, times in counts.items()])]
    while len(boxes) < MOST:
        at = max(range(len(boxes)), key=lambda k: weight(boxes[k][1]))
        if len(boxes[at][1]) < 2:
            break
        boxes[at : at + 1] = [(0, half) for half in halves(boxes[at][1])]
    colours = [mean(box) for _, box in boxes]
    return colours, {c[0] << 12 | c[1] << 6 | c[2]: number for number, (_, box) in enumerate(boxes) for c, _ in box}


def weight(box: Box) -> float:
    return 0 if len(box) < 2 else spread_of(box)[0] ** 2 * sum(times for _, times in box) ** 0.5


def mean(box: Box) -> bytes:
    many = sum(times for _, times in box)
    return bytes(round(4.047 * sum(c[k] * times for c, times in box) / many) for k in range(3))


def reduced(pictures: Sequence[Picture], seconds: float = 0) -> bytes:
    """A PNG of a picture, or an APNG of pictures of one size, each for some seconds."""
    codes = [coarse(picture.pixels) for picture in pictures]
    colours, number = palette(Counter(code for some in codes for code in some))
    wide, high = pictures[0].width, pictures[0].height
    data = [zlib.compress(rows_of(bytes(map(number.__getitem__, some)), wide), 9) for some in codes]
    head = [chunk(b"IHDR", struct.pack(">IIBBBBB", wide, high, 8, 3, 0, 0, 0))]
    if len(data) > 1:
        head.append(chunk(b"acTL", struct.pack(">II", len(data), 0)))
    head.append(chunk(b"PLTE", b"".join(colours)))
    return SIGNATURE + b"".join([*head, *frames(data, wide, high, seconds), chunk(b"IEND", b"")])


def rows_of(numbers: bytes, wide: int) -> bytes:
    return b"".join(b"\0" + numbers[at : at + wide] for at in range(0, len(numbers), wide))


def frames(data: List[bytes], wide: int, high: int, seconds: float) -> Iterator[bytes]:
    """The pictures; the first one is what a program shows that knows no APNG."""
    count = 0
    for number, packed in enumerate(data):
        if len(data) > 1:
            yield chunk(b"fcTL", struct.pack(">IIIIIHHBB", count, wide, high, 0, 0, round(1000 * seconds), 1000, 0, 0))
            count += 1
        if number == 0:
            yield chunk(b"IDAT", packed)
        else:
            yield chunk(b"fdAT", struct.pack(">I", count) + packed)
            count += 1
