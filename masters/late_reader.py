"""A master that does not read: late_reader.py PORT BYTES TIMES HEX writes a request so many times, one each 2 ms, without a look at the
replies, as far as the line takes them; a second later it reads, and writes the rest, until so many BYTES have come, 60 s at most, and
prints them. Of 0 BYTES it prints a line and reads none, until the line is gone."""
import os
import select
import sys
import time
import tty

port = os.open(sys.argv[1], os.O_RDWR | os.O_NOCTTY | os.O_NONBLOCK)
tty.setraw(port)
expected, request = int(sys.argv[2]), bytes.fromhex(sys.argv[4])
rest, reply = request * int(sys.argv[3]), b""
while rest and select.select([], [port], [], 1)[1]:
    rest = rest[os.write(port, rest[: len(request)]) :]
    time.sleep(0.002)
time.sleep(1)
if expected == 0:
    print("nothing is read", flush=True)
    line = select.poll()
    line.register(port, 0)
    line.poll(60000)
deadline = time.monotonic() + 60
while len(reply) < expected and time.monotonic() < deadline:
    readable, writable, _ = select.select([port], [port] if rest else [], [], 1)
    reply += os.read(port, 4096) if readable else b""
    rest = rest[os.write(port, rest[:512]) :] if writable else rest
os.close(port)
sys.stdout.buffer.write(reply)
