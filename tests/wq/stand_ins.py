"""Servers that stand in for wqd, and answer as a test wants them to."""

import contextlib
import socket
import socketserver
import threading
from typing import BinaryIO, Callable, Type


class Answer(socketserver.StreamRequestHandler):
    """How a client is answered, whose connection may end at any time."""

    def answer(self, lines: BinaryIO, replies: BinaryIO) -> None:
        raise NotImplementedError

    def handle(self) -> None:
        with contextlib.suppress(OSError):
            self.answer(self.rfile, self.wfile)

    def finish(self) -> None:
        with contextlib.suppress(OSError):
            super().finish()


def answering(each: Callable[[bytes], bytes]) -> Type[Answer]:
    """Each line is answered by itself."""

    class Lines(Answer):
        def answer(self, lines: BinaryIO, replies: BinaryIO) -> None:
            for line in lines:
                replies.write(each(line) + b"\n")

    return Lines


class Holding:
    """A socket between clients and a server. From the first request on that has a word in it, no reply comes back."""

    def __init__(self, sockname: str, server: str, word: bytes) -> None:
        self.word = word
        self.is_reached = threading.Event()
        holding = self

        class Between(socketserver.BaseRequestHandler):
            def handle(self) -> None:
                with socket.socket(socket.AF_UNIX) as other, contextlib.suppress(OSError):
                    other.connect(server)
                    holding.relay(self.request, other)

        self.sockname = sockname
        stand_in(sockname, Between)

    def relay(self, client: socket.socket, server: socket.socket) -> None:
        back = threading.Thread(target=self.relay_back, args=(server, client), daemon=True)
        back.start()
        for piece in iter(lambda: client.recv(65_536), b""):
            if self.word in piece:
                self.is_reached.set()
            server.sendall(piece)
        server.shutdown(socket.SHUT_WR)
        back.join()

    def relay_back(self, server: socket.socket, client: socket.socket) -> None:
        with contextlib.suppress(OSError):
            for piece in iter(lambda: server.recv(65_536), b""):
                if not self.is_reached.is_set():
                    client.sendall(piece)


def stand_in(sockname: str, answer: Type[socketserver.BaseRequestHandler]) -> None:
    """Serves clients at a socket as long as this process goes on."""
    server = socketserver.ThreadingUnixStreamServer(sockname, answer)
    server.daemon_threads = True
    threading.Thread(target=server.serve_forever, daemon=True).start()
