# SPDX-License-Identifier: Apache-2.0
"""Connections through TLS, for the scripts that connect to a server: the option --tls, and a socket that it makes.

The server's certificate has to be of the authority CA, and of the host that is connected to; the gate shows its own.
"""
import argparse
import socket
import ssl
from collections.abc import Callable
from typing import TypeVar

from bovtrila.wire import Wrong

Result = TypeVar("Result")
# How many bytes are taken from the network at a time.
PIECE = 16_384


class Tls:
    """What --tls CA CERT KEY names."""

    def __init__(self, authority: str, certificate: str, key: str) -> None:
        try:
            self.context = ssl.create_default_context(cafile=authority)
        except (OSError, ssl.SSLError) as error:
            raise Wrong(f"{authority}: {error}; name the file of the authority's certificate") from None
        self.context.minimum_version = ssl.TLSVersion.TLSv1_2
        try:
            self.context.load_cert_chain(certificate, key)
        except (OSError, ssl.SSLError) as error:
            raise Wrong(f"{certificate}, {key}: {error}; name the gate's certificate and its key") from None

    def over(self, plain: socket.socket, host: str) -> "Secured":
        """The socket of a session over a plain one, once both sides know each other."""
        return Secured(plain, self.context, host)


def add_option(parser: argparse.ArgumentParser) -> None:
    parser.add_argument("--tls", metavar=("CA", "CERT", "KEY"), nargs=3,
                        help="connect through TLS: the authority's certificate, the gate's certificate and its key")


def tls_of(asked: argparse.Namespace) -> Tls | None:
    """What --tls names, or None where it isn't among the words."""
    return Tls(*asked.tls) if asked.tls else None


class Secured:
    """A socket whose bytes go through TLS. Its half may be ended as that of a plain one: what comes is still read."""

    def __init__(self, plain: socket.socket, context: ssl.SSLContext, host: str) -> None:
        self.plain, self.held = plain, b""
        self.came, self.goes = ssl.MemoryBIO(), ssl.MemoryBIO()
        self.session = context.wrap_bio(self.came, self.goes, server_hostname=host)
        try:
            self.carry(self.session.do_handshake)
        except BaseException:
            plain.close()
            raise

    def carry(self, step: Callable[..., Result], *words: int | bytes) -> Result | bytes:
        """Takes a step of TLS, and passes bytes on for as long as it waits for more."""
        while True:
            try:
                result = step(*words)
                self.flush()
                return result
            except ssl.SSLWantReadError:
                self.flush()
                data = self.plain.recv(PIECE)
                if data:
                    self.came.write(data)
                else:
                    self.came.write_eof()
            except ssl.SSLZeroReturnError:
                return b""
            except ssl.SSLEOFError:
                raise ConnectionResetError("the connection ended without a word of TLS") from None
            except ssl.SSLCertVerificationError as error:
                raise Wrong(f"the server's certificate: {error.verify_message}; nothing was sent") from None
            except ssl.SSLError as error:
                raise Wrong(f"TLS: {error.reason}; is the certificate of the server's authority, valid and not "
                            "revoked?") from None

    def flush(self) -> None:
        data = self.goes.read()
        if data:
            self.plain.sendall(data)

    def sendall(self, data: bytes) -> None:
        self.carry(self.session.write, data)

    def recv(self, size: int) -> bytes:
        if self.held:
            data, self.held = self.held[:size], self.held[size:]
            return data
        return self.carry(self.session.read, size)

    def settimeout(self, seconds: float) -> None:
        """Lets each read wait at most so long from now on."""
        self.plain.settimeout(seconds)

    def shutdown(self, _: int) -> None:
        """Ends this half. What has come by then is read first: behind its own end TLS takes up no step with it."""
        try:
            while data := self.session.read(PIECE):
                self.held += data
        except ssl.SSLError:
            pass
        try:
            self.session.unwrap()
        except ssl.SSLError:
            pass
        self.flush()

    def close(self) -> None:
        self.plain.close()
