"""OpenCV's functions in y4mserve's place: a 4:2:0 stream from standard input to standard output, by operations as y4mserve is given.

Its images may differ at edges and by rounding. At the end it tells on its error stream how many seconds it took, without its start.
"""

import sys
import time

import cv2
import numpy


def number_of(words):
    return [int(word) for word in words.split(",")]


def done(planes, operation):
    """The planes of an image: Y, Cb and Cr."""
    name, _, words = operation.partition(":")
    luma, *chroma = planes
    if name == "invert":
        return [cv2.bitwise_not(plane) for plane in planes]
    if name == "thresh":
        return [cv2.threshold(luma, int(words) - 1, 255, cv2.THRESH_BINARY)[1]] + [numpy.full_like(plane, 128) for plane in chroma]
    if name == "clamp":
        low, high = number_of(words)
        return [cv2.max(cv2.min(luma, high), low)] + chroma
    if name in ("hflip", "vflip"):
        return [cv2.flip(plane, 1 if name == "hflip" else 0) for plane in planes]
    if name == "crop":
        x, y, width, height = number_of(words)
        return [numpy.ascontiguousarray(plane[y // part:(y + height) // part, x // part:(x + width) // part])
                for plane, part in zip(planes, (1, 2, 2))]
    side = 2 * int(words) + 1
    return [cv2.blur(plane, (side, side)) for plane in planes]


def main():
    stream, sink, operations = open(0, "rb", buffering=1024), open(1, "wb"), sys.argv[1].split("+")
    started = time.perf_counter()
    header = stream.readline()
    width, height = (int(next(word for word in header.split() if word[:1] == tag)[1:]) for tag in (b"W", b"H"))
    luma, data = width * height, bytearray(width * height * 3 // 2)
    sink.write(header)
    while stream.readline():
        stream.readinto(data)
        samples = numpy.frombuffer(data, numpy.uint8)
        planes = [samples[:luma].reshape(height, width)]
        planes += [samples[at:at + luma // 4].reshape(height // 2, width // 2) for at in (luma, luma + luma // 4)]
        for operation in operations:
            planes = done(planes, operation)
        sink.write(b"FRAME\n")
        for plane in planes:
            sink.write(plane)
    sink.flush()
    print(time.perf_counter() - started, file=sys.stderr)


main()
