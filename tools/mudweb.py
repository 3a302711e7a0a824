"""WebSockets by hand, for tools/browser and tools/crowd: a client's handshake and frames.

Only the system's Python is needed.
"""

import base64
import hashlib
import os
import select
import socket
import struct
import time

from mudclient import Client, Failed

TEXT, BINARY, CLOSE, PING, PONG = 1, 2, 8, 9, 10
GUID = b"258EAFA5-E914-47DA-95CA-C5AB0DC85B11"


def handshake(host, path, key):
    """What a client sends first."""
    return ("GET %s HTTP/1.1\r\nHost: %s\r\nUpgrade: websocket\r\nConnection: Upgrade\r\n"
            "Sec-WebSocket-Key: %s\r\nSec-WebSocket-Version: 13\r\n\r\n" % (path, host, key)).encode()


def is_accepted(head, key):
    """Whether a server's answer is the one to this key."""
    wanted = base64.b64encode(hashlib.sha1(key.encode() + GUID).digest())
    return head.startswith(b"HTTP/1.1 101 ") and b"sec-websocket-accept: " + wanted.lower() in head.lower()


def frame(kind, payload, is_last=True):
    """A client's frame: its payload is masked."""
    mask = os.urandom(4)
    size = len(payload)
    if size < 126:
        head = struct.pack("!BB", kind | (128 if is_last else 0), 128 | size)
    elif size < 65536:
        head = struct.pack("!BBH", kind | (128 if is_last else 0), 128 | 126, size)
    else:
        head = struct.pack("!BBQ", kind | (128 if is_last else 0), 128 | 127, size)
    long_mask = (mask * (size // 4 + 1))[:size]
    masked = (int.from_bytes(payload, "big") ^ int.from_bytes(long_mask, "big")).to_bytes(size, "big")
    return head + mask + masked


class Frames:
    """What came of a server, as frames."""

    def __init__(self):
        self.bytes = bytearray()

    def next(self):
        """The next whole frame: its kind, its payload and whether it is the last of a message; None if there is none yet."""
        data = self.bytes
        if len(data) < 2:
            return None
        size, at = data[1] & 127, 2
        if size == 126:
            if len(data) < 4:
                return None
            size, at = struct.unpack("!H", data[2:4])[0], 4
        elif size == 127:
            if len(data) < 10:
                return None
            size, at = struct.unpack("!Q", data[2:10])[0], 10
        if data[1] & 128:
            raise Failed("a server's frame is masked")
        if len(data) < at + size:
            return None
        found = (data[0] & 15, bytes(data[at:at + size]), bool(data[0] & 128))
        del data[:at + size]
        return found


def telnet_bytes(text):
    """The bytes that telnet has where a message has this text: newlines, and the marks that hide and show."""
    return (text.encode().replace(b"\n", b"\r\n").replace(b"\x02", bytes([255, 251, 1]))
            .replace(b"\x03", bytes([255, 252, 1])))


class WebClient(Client):
    """A player in a browser: as one of telnet, whose bytes are kept as telnet would have them. `messages` has each text."""

    def __init__(self, port, patience=60, path="/"):
        super().__init__(port, patience)
        self.frames, self.messages, self.part = Frames(), [], b""
        self.close_code = None
        key = base64.b64encode(os.urandom(16)).decode()
        self.socket.sendall(handshake("127.0.0.1:%d" % port, path, key))
        head = b""
        end = time.monotonic() + patience
        while b"\r\n\r\n" not in head:
            if not select.select([self.socket], [], [], max(0, end - time.monotonic()))[0]:
                raise Failed("no answer to the handshake")
            piece = self.socket.recv(65536)
            if not piece:
                raise Failed("the handshake is refused: %r" % head)
            head += piece
        head, rest = head.split(b"\r\n\r\n", 1)
        if not is_accepted(head + b"\r\n", key):
            raise Failed("a wrong answer to the handshake: %r" % head)
        self.frames.bytes += rest
        self.look()

    def send(self, line):
        self.socket.sendall(frame(TEXT, line.encode()))

    def keep(self, piece):
        self.frames.bytes += piece
        self.look()

    def look(self):
        """Takes in the frames that came."""
        while True:
            found = self.frames.next()
            if found is None:
                return
            self.take_in(*found)

    def take_in(self, kind, payload, is_last):
        if kind in (0, TEXT):
            self.part += payload
            if is_last:
                text = self.part.decode()          # fails where a code point was torn
                self.part = b""
                self.messages.append(text)
                self.bytes += telnet_bytes(text)
        elif kind == PING:
            self.socket.sendall(frame(PONG, payload))
        elif kind == CLOSE:
            self.close_code = struct.unpack("!H", payload[:2])[0] if len(payload) > 1 else 1005
            try:
                self.socket.sendall(frame(CLOSE, payload[:2]))
            except OSError:
                pass
