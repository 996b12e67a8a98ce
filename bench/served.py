"""A server that runs over a configuration of its own, and the managers that speak with it, for scripts that try it."""
import contextlib
import pathlib
import socket
import sqlite3
import subprocess
import sys
import tempfile
import time

from measured import crate_program

# below the ports that Linux gives to clients, so that none of them is taken by an outgoing connection
FIRST_PORT = 23372
# how much higher the control port of a realm is
CONTROL = 400
# a manager of the script's own is called here
OWN_PORT = 23999
OWN_ADDRESS = f"127.0.0.1:{OWN_PORT}"
SECONDS = 10


def program():
    """The program: the one that `rt run` in crates/tipd has left, or the one that is named first."""
    return sys.argv[1] if len(sys.argv) > 1 else crate_program("tipd", "tipd")


class Server:
    """`tipd serve` with realms of these names, each on a port of its own, over one store; with control ports where it is said."""

    def __init__(
        self, folder, names, store=":memory:", votes="y", connections=64, boxes=64, transactions=64, entries=100_000, controls=False, first=FIRST_PORT
    ):
        self.folder = pathlib.Path(folder)
        self.ports = {name: first + place for place, name in enumerate(names)}
        self.store = store if store == ":memory:" else str(self.folder / store)
        self.config = self.folder / "tipd.toml"
        self.errors = self.folder / "errors"
        realms = [
            f'[[realm]]\nname = "{name}"\nlisten = "127.0.0.1:{port}"\naddress = "127.0.0.1:{port}"\nvotes = "{votes}"\n'
            f"connections = {connections}\ntransactions = {transactions}\nboxes = {boxes}\nentries = {entries}\n"
            + (f'control = "127.0.0.1:{port + CONTROL}"\n' if controls else "")
            for name, port in self.ports.items()
        ]
        self.config.write_text(f'store = "{self.store}"\n' + "".join(realms))
        self.process = None

    def start(self, *words, before=None):
        """Starts it, and waits until it is ready; else says how it ended."""
        with self.errors.open("ab") as errors:
            self.process = subprocess.Popen(
                [program(), "serve", "--config", self.config, *words], stdout=subprocess.PIPE, stderr=errors, text=True, preexec_fn=before
            )
        self.said = []
        for line in self.process.stdout:
            self.said.append(line.rstrip("\n"))
            if line == "ready\n":
                return self
        raise SystemExit(f"the server did not start: {self.process.wait()} {self.errors.read_text()}")

    def kill(self):
        self.process.kill()
        self.process.wait()
        self.process.stdout.close()

    def end(self, seconds=SECONDS):
        """Waits for its end: its status, and what it said after it was ready."""
        rest = self.process.stdout.read().splitlines()
        return self.process.wait(seconds), rest

    def rows(self):
        """What is stored, once the server has ended: while it runs nobody else reads the file."""
        with contextlib.closing(sqlite3.connect(self.store)) as store:
            return store.execute("SELECT realm || '-' || epoch || '-' || conn || '-' || num, text FROM txn ORDER BY realm, epoch, conn, num").fetchall()

    def epochs(self):
        with contextlib.closing(sqlite3.connect(self.store)) as store:
            return dict(store.execute("SELECT name, epoch FROM realm"))

    def alter(self, statement):
        with contextlib.closing(sqlite3.connect(self.store)) as store:
            store.execute(statement)
            store.commit()

    def notes(self):
        return self.errors.read_text().splitlines()

    def told(self, event):
        """What the operator was told of events of a kind, in order."""
        mark = f"tipd: event={event} "
        return [note.removeprefix(mark) for note in self.notes() if note.startswith(mark)]

    def status(self, key):
        lines = pathlib.Path(f"/proc/{self.process.pid}/status").read_text().splitlines()
        return next(int(line.split()[1]) for line in lines if line.startswith(key + ":"))

    def peer(self, name, address="-"):
        """A peer of a realm, which has said at which address it is."""
        peer = Peer(socket.create_connection(("127.0.0.1", self.ports[name]), SECONDS))
        said = peer.ask(f"IDENTIFY 3 3 {address} -")
        if said != "IDENTIFIED 3":
            peer.close()
            raise ConnectionError(f"IDENTIFY was answered {said!r}")
        return peer

    def address(self, name):
        return f"127.0.0.1:{self.ports[name]}"

    def control_address(self, name):
        return f"127.0.0.1:{self.ports[name] + CONTROL}"

    def control(self, name):
        """A connection to the control port of a realm."""
        return Control(socket.create_connection(("127.0.0.1", self.ports[name] + CONTROL), SECONDS))

    def ask(self, name, request, seconds=SECONDS):
        """What the control port of a realm answers to one request."""
        control = self.control(name)
        try:
            return control.ask(request, seconds)
        finally:
            control.close()

    def forgets(self, name, transaction):
        """Whether a realm has no transaction of this identifier any more, before long."""
        peer = self.peer(name)
        is_gone = eventually(lambda: peer.ask(f"QUERY {transaction}") == "QUERIEDNOTFOUND")
        peer.close()
        return is_gone

    def raw(self, name):
        return Peer(socket.create_connection(("127.0.0.1", self.ports[name]), SECONDS))


class Peer:
    """One connection, line by line. The end of the other side is heard as None."""

    def __init__(self, connection):
        self.connection = connection
        self.connection.setsockopt(socket.IPPROTO_TCP, socket.TCP_NODELAY, 1)
        self.lines = connection.makefile("rb")

    def say(self, *lines):
        self.connection.sendall("".join(line + "\r\n" for line in lines).encode())

    def hear(self, seconds=SECONDS):
        self.connection.settimeout(seconds)
        try:
            line = self.lines.readline()
        except (ConnectionResetError, BrokenPipeError):
            return None
        return line.decode().removesuffix("\r\n") if line else None

    def ask(self, line, seconds=SECONDS):
        try:
            self.say(line)
        except (ConnectionResetError, BrokenPipeError):
            return None
        return self.hear(seconds)

    def rest(self):
        self.connection.settimeout(SECONDS)
        return self.lines.read().decode().split("\r\n")[:-1]

    def close(self):
        self.lines.close()
        self.connection.close()


class Control(Peer):
    """One connection to a control port. An answer is its lines, without the empty one behind them; None where the end comes first."""

    def answer(self, seconds=SECONDS):
        lines = []
        while (line := self.hear(seconds)) is not None:
            if line == "\n":
                return lines
            lines.append(line.removesuffix("\n"))
        return None

    def ask(self, line, seconds=SECONDS):
        try:
            self.connection.sendall(line.encode() + b"\n")
            return self.answer(seconds)
        except (ConnectionResetError, BrokenPipeError):
            return None


class Manager:
    """A manager of the script's own that others call: it listens, and answers each call in turn."""

    def __init__(self, port=OWN_PORT):
        self.listener = socket.create_server(("127.0.0.1", port))

    def called(self, seconds=SECONDS):
        """The next call, identified; the peer, and what it asks first."""
        self.listener.settimeout(seconds)
        peer = Peer(self.listener.accept()[0])
        identify = peer.hear()
        if identify is None or not identify.startswith("IDENTIFY 3 3 "):
            return peer, identify
        return peer, peer.ask("IDENTIFIED 3")

    def close(self):
        self.listener.close()


@contextlib.contextmanager
def silent_port(port=OWN_PORT):
    """A port that answers no call at all."""
    silent = socket.socket()
    silent.setsockopt(socket.SOL_SOCKET, socket.SO_REUSEADDR, 1)
    silent.bind(("127.0.0.1", port))
    silent.listen(0)
    # the queue of who may wait is full from here on: the system drops who comes later
    filling = [socket.socket() for _ in range(3)]
    for some in filling:
        some.setblocking(False)
        some.connect_ex(("127.0.0.1", port))
    time.sleep(0.2)
    try:
        yield
    finally:
        for some in [silent, *filling]:
            some.close()


@contextlib.contextmanager
def served(*names, **settings):
    """A server in a folder of its own, which is not started yet, and is killed in the end."""
    with tempfile.TemporaryDirectory(prefix="tipd-") as folder:
        server = Server(folder, names, **settings)
        try:
            yield server
        finally:
            if server.process and server.process.poll() is None:
                server.kill()


def eventually(test, seconds=SECONDS):
    """Whether a test holds before so many seconds are over."""
    until = time.monotonic() + seconds
    while time.monotonic() < until:
        if test():
            return True
        time.sleep(0.01)
    return test()
