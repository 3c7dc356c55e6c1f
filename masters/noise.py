"""noise.py SEED BYTES FRAMES: so many bytes of noise, none of them 0xAA, with so many good frames in it, to standard output; the
same frames as calls of the console to standard error."""
import random
import sys

seed, length, frames = (int(word) for word in sys.argv[1:])
chance = random.Random(seed)


def crc(data):
    remainder = 0xFFFF
    for byte in data:
        remainder ^= byte
        for _ in range(8):
            remainder = remainder >> 1 ^ (0xA001 if remainder & 1 else 0)
    return remainder.to_bytes(2, "little")


def frame():
    first, end = chance.choice([(0, 56), (100, 118), (300, 400)])
    at = chance.randrange(first, end)
    body = bytes([0xAA, 0x03, at >> 8, at & 255, 0, chance.randint(1, end - at)])
    return body + crc(body)


def noise(count):
    return bytes(byte for byte in chance.randbytes(2 * count) if byte != 0xAA)[:count]


cuts = sorted(chance.randint(0, length) for _ in range(frames))
for cut, before in zip(cuts, [0] + cuts):
    request = frame()
    sys.stdout.buffer.write(noise(cut - before) + request)
    sys.stderr.write("frame 259 " + request.hex(" ").upper() + "\n")
sys.stdout.buffer.write(noise(length - cuts[-1]))
