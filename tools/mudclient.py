"""What tools/play and tools/load share: a server of its own, clients, records.

Everything is on 127.0.0.1 and bounded in time. Only the system's Python is needed.
"""

import os
import re
import select
import shutil
import socket
import subprocess
import sys
import tempfile
import time

HERE = os.path.dirname(os.path.abspath(__file__))
GAME = os.path.join(os.path.dirname(HERE), "examples", "harbour")
HIDE = bytes([255, 251, 1])  # the server says that it will echo: clients hide what is typed
SHOW = bytes([255, 252, 1])


class Failed(Exception):
    """Something that was expected did not come."""


def free_ports(count):
    """So many ports of the loopback that nobody has now."""
    held = [socket.socket() for _ in range(count)]
    try:
        for one in held:
            one.bind(("127.0.0.1", 0))
        return [one.getsockname()[1] for one in held]
    finally:
        for one in held:
            one.close()


class Server:
    """`mud serve` over a copy of the harbour, in a folder of its own, or over a folder that is there."""

    def __init__(self, program, lib=None, record=True, patience=120, more=()):
        self.program = os.path.abspath(program)
        self.folder = tempfile.mkdtemp(prefix="mud-served-")
        self.lib = lib or shutil.copytree(GAME, os.path.join(self.folder, "lib"))
        self.port, self.control = free_ports(2)
        self.record = os.path.join(self.folder, "record.mud") if record else None
        self.said = open(os.path.join(self.folder, "stderr"), "wb")
        self.log = open(os.path.join(self.folder, "stdout"), "wb")
        words = [self.program, "serve", "--lib", self.lib, "--port", str(self.port),
                 "--control", str(self.control)]
        if record:
            words += ["--record", self.record]
        words += more
        self.process = subprocess.Popen(words, cwd=self.folder, stdin=subprocess.DEVNULL,
                                        stdout=self.log, stderr=self.said)
        self.wait_until_it_listens(patience)

    def stderr(self):
        with open(os.path.join(self.folder, "stderr"), "rb") as said:
            return said.read().decode("utf-8", "replace")

    def wait_until_it_listens(self, patience):
        end = time.monotonic() + patience
        while time.monotonic() < end:
            if self.process.poll() is not None:
                raise Failed("the server ended with status %d: %s" % (self.process.returncode, self.stderr()))
            if "listening" in self.stderr():
                return
            time.sleep(0.05)
        self.kill()
        raise Failed("the server does not say that it listens")

    def order(self, line, patience=60):
        """A line to the control port, and its answer. While the operator before is not
        gone yet for the server, it closes the connection: then it is tried again."""
        end = time.monotonic() + patience
        while time.monotonic() < end:
            answer = self.asked(line, patience)
            if answer.endswith("\n") or line == "stop":
                return answer
            time.sleep(0.1)
        raise Failed("the control port does not answer `%s`" % line)

    def asked(self, line, patience):
        try:
            with socket.create_connection(("127.0.0.1", self.control), timeout=patience) as one:
                one.sendall(line.encode() + b"\n")
                answer = b""
                while not answer.endswith(b"\n"):
                    piece = one.recv(4096)
                    if not piece:
                        break
                    answer += piece
                return answer.decode()
        except ConnectionError:
            return ""

    def stop(self, patience=300):
        """Ends the game by the control port; answers the exit status."""
        end = time.monotonic() + patience
        while time.monotonic() < end:
            self.order("stop")
            try:
                return self.process.wait(2)
            except subprocess.TimeoutExpired:
                pass
        raise Failed("the server does not end after `stop`")

    def kill(self):
        """Ends the process at once; for this one alone."""
        if self.process.poll() is None:
            self.process.kill()
            self.process.wait()

    def memory(self):
        """The most memory that the process has had, in KiB, while it lives."""
        with open("/proc/%d/status" % self.process.pid) as lines:
            for line in lines:
                if line.startswith("VmHWM:"):
                    return int(line.split()[1])
        return 0

    def processor_seconds(self):
        with open("/proc/%d/stat" % self.process.pid) as line:
            fields = line.read().rsplit(")", 1)[1].split()
        return (int(fields[11]) + int(fields[12])) / os.sysconf("SC_CLK_TCK")

    def replayed(self, patience=3600):
        """The record, and the transcript of its replay. A game that did not end well may
        leave a record without `end`, which is put behind it here."""
        with open(self.record, "rb") as script:
            record = script.read()
        if not record.endswith(b"\nend\n"):
            record += b"end\n"
        done = subprocess.run([self.program, "replay"], input=record, stdout=subprocess.PIPE,
                              stderr=subprocess.PIPE, timeout=patience, cwd=self.folder)
        if done.returncode:
            raise Failed("the replay of the record ends with status %d: %s"
                         % (done.returncode, done.stderr.decode("utf-8", "replace")))
        return record, done.stdout

    def clean(self):
        self.kill()
        self.said.close()
        self.log.close()
        shutil.rmtree(self.folder)


def items(script):
    """The items of a script, as lists of words, the bytes that they count last."""
    at = 0
    while at < len(script):
        end = script.index(b"\n", at)
        words = script[at:end].decode().split(" ")
        at = end + 1
        if words[0] in ("file", "line", "reload", "to", "log"):
            count = int(words[-1])
            words.append(script[at:at + count])
            at += count + 1
        yield words


def wire_bytes(transcript):
    """What each connection was sent, by its number: the bytes as a wire has them."""
    sent = {}
    for words in items(transcript):
        if words[0] == "to":
            piece = words[3].replace(b"\n", b"\r\n")
        elif words[0] == "hide":
            piece = HIDE
        elif words[0] == "show":
            piece = SHOW
        else:
            continue
        sent.setdefault(int(words[1]), []).append(piece)
    return {number: b"".join(pieces) for number, pieces in sent.items()}


def closed_by_the_game(transcript):
    return {int(words[1]) for words in items(transcript) if words[0] == "close"}


def connections(record):
    """The numbers of a record's connections, in the order in which they came."""
    return [int(words[1]) for words in items(record) if words[0] == "connect"]


class Client:
    """A player who waits for texts, as `expect` does, and keeps every byte."""

    def __init__(self, port, patience=60):
        self.socket = socket.create_connection(("127.0.0.1", port), timeout=patience)
        self.patience = patience
        self.bytes = b""
        self.seen = 0          # what was waited for already ends here
        self.is_over = False

    def send(self, line):
        self.socket.sendall(line.encode() + b"\r\n")

    def take(self, seconds):
        """Takes what comes within some time; whether something came."""
        if self.is_over or not select.select([self.socket], [], [], seconds)[0]:
            return False
        try:
            piece = self.socket.recv(65536)
        except ConnectionError:
            piece = b""
        if not piece:
            self.is_over = True
        self.keep(piece)
        return bool(piece)

    def keep(self, piece):
        """Keeps what came."""
        self.bytes += piece

    def wait_for(self, text):
        """Waits until a text comes behind the one that was waited for last."""
        wanted = text if isinstance(text, bytes) else text.encode()
        end = time.monotonic() + self.patience
        while True:
            at = self.bytes.find(wanted, self.seen)
            if at >= 0:
                self.seen = at + len(wanted)
                return
            left = end - time.monotonic()
            if left <= 0 or self.is_over:
                raise Failed("did not come: %r; what came last: %r" % (text, self.bytes[-300:]))
            self.take(min(left, 1))

    def ask(self, line, text):
        self.send(line)
        self.wait_for(text)

    def until_over(self):
        """Takes all up to the end of the connection."""
        end = time.monotonic() + self.patience
        while not self.is_over:
            if time.monotonic() > end:
                raise Failed("the connection does not end; what came last: %r" % self.bytes[-300:])
            self.take(1)

    def close(self):
        self.socket.close()


def register(client, name, password):
    """Logs in with a new name."""
    client.wait_for("By what name are you known? ")
    client.ask(name, "(yes or no) ")
    client.ask("yes", "Choose a password, of at least five letters: ")
    client.wait_for(HIDE)
    client.ask(password, SHOW)
    client.wait_for("The same again: ")
    client.wait_for(HIDE)
    client.ask(password, SHOW)
    client.wait_for("Welcome to the harbour")


def log_in(client, name, password):
    client.wait_for("By what name are you known? ")
    client.ask(name, "Password: ")
    client.wait_for(HIDE)
    client.ask(password, SHOW)


def plain(text):
    """A text of a screen without its control sequences."""
    return re.sub(r"\x1b\[[0-9;?]*[A-Za-z]", "", text)
