"""Lines to a program or a server, and its lines back.

A `Channel` sends many requests at once and reads the replies while it writes, in one loop over `poll`, so that neither side
can wait for the other for ever. `Child` is `cohom script` as a child process, `Connection` a session of `cohom serve`.
Each request is one line that has one reply: no blank lines and no comments.
"""

from __future__ import annotations

import os
import select
import signal
import socket
import subprocess
import threading
import warnings
from typing import Callable, List, Optional, Sequence

from .errors import Closed, ProgramEnded, ProgramMissing, Unproved
from .program import answers_at_the_end

Progress = Callable[[int, int], None]
"""Called with the number of replies that have come and of requests in all."""

PIECE = 1 << 16
STATUSES = {
    1: "it was started with wrong words",
    2: "it could not read its input",
    3: "it could not write its output",
    4: "it could not listen",
    5: "no memory was left",
    6: "a line was too long for it",
    7: "there were too many lines for it, and a new Complex would start it anew",
}


class Channel:
    """Requests and replies over two descriptors, which become non-blocking. Used by one thread at a time; a lock sees to it."""

    def __init__(self, write_to: int, read_from: int, notes_from: Optional[int] = None) -> None:
        self._write_to, self._read_from, self._notes_from = write_to, read_from, notes_from
        for descriptor in (write_to, read_from, notes_from):
            if descriptor is not None:
                os.set_blocking(descriptor, False)
        self._lock = threading.Lock()
        self._closed: Optional[str] = None
        self._notes = b""
        self._told = False

    def ask(self, request: str) -> str:
        """One request, one reply. Raises ProgramEnded, Closed."""
        return self.ask_all([request])[0]

    def ask_all(self, requests: Sequence[str], progress: Optional[Progress] = None) -> List[str]:
        """All replies to all requests, in order. Raises ProgramEnded where the other side ends first, and Closed.

        Where it is left in the middle, by an exception of `progress` or from the keyboard, the replies that are still to come
        belong to no one: the channel is closed then.
        """
        if not requests:
            return []
        with self._lock:
            self._check()
            try:
                replies = self._exchange(requests, progress)
            except ProgramEnded as ended:
                self._shut(str(ended))
                raise
            except BaseException as fault:
                self._shut(f"it was left in the middle of a request ({type(fault).__name__})")
                raise
            finally:
                if self._closed is not None:
                    self._release()
            self._note()
            told, self._told = self._told, self._told or bool(self._notes)
        if self._told and not told:
            warnings.warn(f"the program says: {self._said()}", Unproved, stacklevel=3)
        return replies

    def close(self) -> None:
        """Ends the session; a second time does nothing. May be called from another thread in the middle of a request."""
        self._shut("it was closed")
        if self._lock.acquire(blocking=False):
            try:
                self._release()
            finally:
                self._lock.release()

    @property
    def closed(self) -> bool:
        return self._closed is not None

    def _check(self) -> None:
        if self._closed is not None:
            raise Closed(f"nothing can be asked any more: {self._closed}")

    def _shut(self, reason: str) -> None:
        if self._closed is None:
            self._closed = reason
            self._stop()

    def _exchange(self, requests: Sequence[str], progress: Optional[Progress]) -> List[str]:
        unsent = memoryview(("\n".join(requests) + "\n").encode("ascii"))
        wanted, lines = len(requests), 0
        pieces: List[bytes] = []
        early = self._read()
        if early is not None:
            raise self._too_many(early) if early else self._ended(requests[0])
        poll = select.poll()
        poll.register(self._read_from, select.POLLIN)
        if self._notes_from is not None:
            poll.register(self._notes_from, select.POLLIN)
        unsent = self._write(unsent)
        if unsent:
            poll.register(self._write_to, select.POLLOUT | (select.POLLIN if self._write_to == self._read_from else 0))
        while lines < wanted:
            for descriptor, event in poll.poll(100):
                if descriptor == self._notes_from:
                    self._note()
                    if self._notes_from is None:
                        poll.unregister(descriptor)
                    continue
                if descriptor == self._read_from and event & ~select.POLLOUT:
                    piece = self._read()
                    if piece == b"":
                        raise self._ended(requests[lines])
                    if piece is not None:
                        pieces.append(piece)
                        lines += piece.count(b"\n")
                        if progress is not None:
                            progress(min(lines, wanted), wanted)
                if descriptor == self._write_to and unsent and event & ~select.POLLIN:
                    unsent = self._write(unsent)
                    if not unsent and self._write_to != self._read_from:
                        poll.unregister(self._write_to)
                    elif not unsent:
                        poll.modify(self._read_from, select.POLLIN)
            if self._closed is not None:
                raise Closed(f"nothing can be asked any more: {self._closed}")
        replies = b"".join(pieces).decode("ascii", "replace").split("\n")
        if unsent or replies[wanted:] != [""]:
            raise self._too_many("\n".join(replies[wanted:]).encode())
        return replies[:wanted]

    def _write(self, unsent: memoryview) -> memoryview:
        """What is left after as much was written as goes. Where nobody reads any more, the end shows at the reading side."""
        try:
            return unsent[os.write(self._write_to, unsent[:PIECE]):]
        except BlockingIOError:
            return unsent
        except (BrokenPipeError, ConnectionResetError):
            return unsent[:0]
        except OSError:
            if self._closed is not None:
                raise Closed(f"nothing can be asked any more: {self._closed}") from None
            raise

    def _read(self) -> Optional[bytes]:
        try:
            return os.read(self._read_from, PIECE)
        except BlockingIOError:
            return None
        except ConnectionResetError:
            return b""
        except OSError:
            if self._closed is not None:
                raise Closed(f"nothing can be asked any more: {self._closed}") from None
            raise

    def _note(self) -> None:
        """What the program says on standard error, as far as it has come: its last part is kept, for messages and one warning."""
        if self._notes_from is None:
            return
        try:
            piece = os.read(self._notes_from, PIECE)
        except OSError:
            return
        if piece == b"":
            self._notes_from = None
        self._notes = (self._notes + piece)[-4000:]

    def _said(self) -> str:
        return self._notes.decode("utf-8", "replace").strip()

    def _ended(self, request: str) -> Exception:
        if self._closed is not None:
            return Closed(f"nothing can be asked any more: {self._closed}")
        return ProgramEnded(f"the other side ended before it answered {request[:120]!r}")

    def _too_many(self, piece: bytes) -> Exception:
        """Replies that nobody asked for: from here on it would not be known what is the reply to what."""
        return ProgramEnded(f"the other side wrote more lines than it was asked for: {piece[:80].decode('ascii', 'replace')!r}")

    def _stop(self) -> None:
        """Ends the other side or the line to it, so that a wait for it ends."""
        raise NotImplementedError

    def _release(self) -> None:
        """Closes the descriptors, when no request is under way."""
        raise NotImplementedError


class Child(Channel):
    """`cohom script` as a child process, in a session of its own, so that an interrupt from the keyboard does not end it. Raises
    ProgramMissing where it cannot be started."""

    def __init__(self, words: Sequence[str]) -> None:
        try:
            self._process = subprocess.Popen([*words, "script"], stdin=subprocess.PIPE, stdout=subprocess.PIPE,
                                             stderr=subprocess.PIPE, bufsize=0, start_new_session=True)
        except OSError as fault:
            raise ProgramMissing(f"{words[0]} cannot be started: {fault.strerror}") from fault
        pipes = (self._process.stdin, self._process.stdout, self._process.stderr)
        assert all(pipe is not None for pipe in pipes)
        super().__init__(*(pipe.fileno() for pipe in pipes if pipe is not None))

    @property
    def pid(self) -> int:
        return self._process.pid

    def _ended(self, request: str) -> Exception:
        if self._closed is not None:
            return super()._ended(request)
        try:
            status = self._process.wait(timeout=5)
        except subprocess.TimeoutExpired:
            status = None
        self._note()
        said = self._said()
        if status is None:
            how = "it closed its output"
        elif status < 0:
            how = f"it was ended by the signal {_signal(-status)}"
        else:
            how = f"status {status}, " + STATUSES.get(status, "it came to its end")
        words = f"the program ended before it answered {request[:120]!r}: {how}"
        return ProgramEnded(words + (f"; it said: {said}" if said else ""), status)

    def _stop(self) -> None:
        """Ends the child at once, and what it may have started: what they hold lives in memory alone, so nothing is lost."""
        if self._process.poll() is None:
            try:
                os.killpg(self._process.pid, signal.SIGKILL)
            except ProcessLookupError:
                pass
        self._process.wait()

    def _release(self) -> None:
        for pipe in (self._process.stdin, self._process.stdout, self._process.stderr):
            if pipe is not None and not pipe.closed:
                pipe.close()


class Trial(Channel):
    """A program that answers when its input has ended, as a trial of bin/cohom does: each batch runs all lines so far anew."""

    def __init__(self, words: Sequence[str]) -> None:
        self._words = list(words)
        self._sent: List[str] = []
        self._lock = threading.Lock()
        self._closed: Optional[str] = None
        self._notes_from: Optional[int] = None
        self._notes, self._told = b"", False

    def _exchange(self, requests: Sequence[str], progress: Optional[Progress]) -> List[str]:
        lines = self._sent + list(requests)
        try:
            done = subprocess.run([*self._words, "script"], input=("\n".join(lines) + "\n").encode("ascii"), stdout=subprocess.PIPE,
                                  stderr=subprocess.PIPE, check=False)
        except OSError as fault:
            raise ProgramMissing(f"{self._words[0]} cannot be started: {fault.strerror}") from fault
        self._notes = done.stderr[-4000:]
        replies = done.stdout.decode("ascii", "replace").split("\n")
        if len(replies) != len(lines) + 1:
            raise ProgramEnded(f"the trial answered {len(replies) - 1} of {len(lines)} requests, status {done.returncode}: "
                               f"{self._said()}", done.returncode)
        self._sent = lines
        if progress is not None:
            progress(len(requests), len(requests))
        return replies[len(lines) - len(requests):-1]

    def _stop(self) -> None:
        pass

    def _release(self) -> None:
        pass


def started(words: Sequence[str]) -> Channel:
    """The program that these words start: a child, or a trial where nothing is built. Raises ProgramMissing."""
    return Trial(words) if answers_at_the_end(words) else Child(words)


class Connection(Channel):
    """A session of `cohom serve` at `host:port`. Raises ProgramMissing where nobody listens there."""

    def __init__(self, address: str, timeout: float = 10.0) -> None:
        host, colon, port = address.rpartition(":")
        if not colon or not port.isdigit():
            raise ProgramMissing(f"{address!r} is no address: host:port is wanted, such as 127.0.0.1:4000")
        try:
            self._socket = socket.create_connection((host.strip("[]"), int(port)), timeout)
        except OSError as fault:
            raise ProgramMissing(f"nobody answers at {address}: {fault}") from fault
        self._socket.setsockopt(socket.IPPROTO_TCP, socket.TCP_NODELAY, 1)
        super().__init__(self._socket.fileno(), self._socket.fileno())

    def _stop(self) -> None:
        try:
            self._socket.shutdown(socket.SHUT_RDWR)
        except OSError:
            pass

    def _release(self) -> None:
        self._socket.close()


def _signal(number: int) -> str:
    try:
        return signal.Signals(number).name
    except ValueError:
        return str(number)
