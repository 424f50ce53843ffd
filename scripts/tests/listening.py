"""A door of a test's own: a socket that listens, and a thread that takes its connections until the door is shut."""
import contextlib
import socket
import threading
from collections.abc import Callable

from bovtrila import wire


class Door:
    """Listens at an address, a free port of the loopback where none is named, and gives each connection to a function
    on a thread of its own. `text` is the address that it really has.

    A socket that is closed while a thread is about to accept on it leaves that thread with the number of a closed
    descriptor. The next socket that listens may get that number, and the thread takes the first connection of another
    test's server. So a door is shut in three steps: no more connections, the thread's end, and only then the socket's."""

    def __init__(self, serve: Callable[[socket.socket], object], where: wire.Address = ("127.0.0.1", 0)) -> None:
        self.serve = serve
        self.listening, self.text = wire.listener(where)
        self.port = self.listening.getsockname()[1]
        self.taking = threading.Thread(target=self.take, daemon=True)
        self.taking.start()

    def take(self) -> None:
        while True:
            try:
                connection, _ = self.listening.accept()
            except OSError:
                return
            threading.Thread(target=self.serve, args=(connection,), daemon=True).start()

    def shut(self) -> None:
        """Takes no connection any more. A second time it does nothing."""
        with contextlib.suppress(OSError):
            self.listening.shutdown(socket.SHUT_RDWR)
        self.taking.join()
        self.listening.close()

    def __enter__(self) -> "Door":
        return self

    def __exit__(self, *_: object) -> None:
        self.shut()
