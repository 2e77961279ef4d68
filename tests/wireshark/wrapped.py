"""Wraps a PCF message from standard input as a client's MQPUT, and prints the segment as a hex dump for text2pcap.

The dissector looks at a message's body only inside a segment of MQ's protocol, and takes it for PCF only if the message
descriptor's Format says so: wrapped.py [FORMAT], MQADMIN if it is not given.
"""

import struct
import sys

ENCODING, LATIN_1, DATAGRAM, NO_EXPIRY, MQPUT, WHOLE = 273, 819, 8, -1, 0x86, 0x30


def words(*values):
    return struct.pack(f">{len(values)}i", *values)


def descriptor(message_format):
    """A message descriptor, version 1, of 324 bytes."""
    return (b"MD  " + words(1, 0, DATAGRAM, NO_EXPIRY, 0, ENCODING, LATIN_1) + message_format.ljust(8).encode("ascii")
            + words(0, 0) + bytes(24 + 24) + words(0) + bytes(48 + 48 + 12 + 32 + 32) + words(0) + bytes(28 + 8 + 8 + 4))


def put_options():
    """Put-message options, version 1, of 128 bytes."""
    return b"PMO " + words(1, 0, NO_EXPIRY, 0, 0, 0, 0) + bytes(48 + 48)


def segment(message, message_format):
    """A transmission segment header, the call's header, descriptor, options, the message's length and the message."""
    body = descriptor(message_format) + put_options() + words(len(message)) + message
    length = 28 + 16 + len(body)
    header = (b"TSH " + words(length) + bytes([1, MQPUT, WHOLE, 0]) + bytes(8) + words(ENCODING)
              + struct.pack(">HH", LATIN_1, 0))
    return header + words(length, 0, 0, 2) + body


def main():
    message_format = sys.argv[1] if len(sys.argv) > 1 else "MQADMIN"
    data = segment(sys.stdin.buffer.read(), message_format)
    for place in range(0, len(data), 16):
        print(f"{place:06x}", data[place:place + 16].hex(" "))


main()
