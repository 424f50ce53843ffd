# SPDX-License-Identifier: Apache-2.0
"""The header with which each connection to a server with --proxy begins: HAProxy's PROXY protocol, version 2. HAProxy writes
it for gates. The commands on the server's machine write it themselves.
"""
import argparse
import re

# How a header begins; its version 2 with the commands LOCAL and PROXY; and the families of no address and of TCP over IPv4.
SIGNATURE = bytes.fromhex("0d0a0d0a000d0a515549540a")
LOCAL, PROXY = 0x20, 0x21
NO_ADDRESS, IPV4 = 0x00, 0x11
# The TLVs of TLS and, in it, of a certificate's common name. The client's bits say that it used TLS, and presented a
# certificate on this connection.
SSL, COMMON_NAME = 0x20, 0x22
PRESENTED = 0x03
# How many bytes a certificate's name has at most.
LONGEST = 64
# A connection of this machine without a certificate.
WITHOUT = SIGNATURE + bytes([LOCAL, NO_ADDRESS, 0, 0])


def tlv(kind: int, value: bytes) -> bytes:
    """A type, the length of a value, and the value."""
    return bytes([kind]) + len(value).to_bytes(2, "big") + value


def header(name: str | None) -> bytes:
    """The header of a connection with a certificate of this name, or with none."""
    if name is None:
        return WITHOUT
    shown = tlv(SSL, bytes([PRESENTED]) + bytes(4) + tlv(COMMON_NAME, name.encode()))
    # From 127.0.0.1 to 127.0.0.1, without ports: the server skips the addresses.
    body = bytes([127, 0, 0, 1, 127, 0, 0, 1, 0, 0, 0, 0]) + shown
    return SIGNATURE + bytes([PROXY, IPV4]) + len(body).to_bytes(2, "big") + body


def certificate(text: str) -> str:
    """A certificate's name on the command line."""
    if not 1 <= len(text.encode()) <= LONGEST or re.search(r"[\x00-\x1f\x7f-\x9f]", text):
        raise argparse.ArgumentTypeError(f"'{text}' is no certificate's name: write 1 to {LONGEST} bytes")
    return text
