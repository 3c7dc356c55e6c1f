"""What a line brings that no master sends: raw_line.py PORT BYTES HEX.. writes each word's bytes 50 ms after the one before, waits for so
many BYTES of a reply, 20 s at most, and prints them and all that comes within half a second more, in hex."""
import os
import select
import sys
import time
import tty

port = os.open(sys.argv[1], os.O_RDWR | os.O_NOCTTY)
tty.setraw(port)
for word in sys.argv[3:]:
    os.write(port, bytes.fromhex(word))
    time.sleep(0.05)
reply, deadline = b"", time.monotonic() + 20
while select.select([port], [], [], 0.5)[0] or (len(reply) < int(sys.argv[2]) and time.monotonic() < deadline):
    reply += os.read(port, 4096) if select.select([port], [], [], 0)[0] else b""
os.close(port)
print(reply.hex(" ").upper())
