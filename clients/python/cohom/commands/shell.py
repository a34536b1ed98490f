"""`shell [FILE]`: a prompt for the request language, with line editing, history and completion, and refusals in plain words.

Lines go to the program as they are typed and its replies are shown as they come. Behind a refusal stands what it means. Beside
the requests there are `help`, `help cup`, `load FILE` (strictly, as Complex.read), and `quit` or the end of input.
"""

from __future__ import annotations

import argparse
import os
import sys
from typing import Callable, List, Optional, TextIO

from ..complex import Complex
from ..errors import CohomError, ProgramEnded, Stopped
from ..language import REQUESTS, help_on, request_words
from ..plainly import in_words
from ..program import find
from ..transport import Channel, Connection, started
from .common import BAD_INPUT, OK, REFUSED, file_words, read

HISTORY = os.path.expanduser("~/.cohom_history")
OWN = ("help", "load")


def add(parser: argparse.ArgumentParser) -> None:
    parser.add_argument("file", nargs="?", help="a file with facets to begin with")
    parser.add_argument("--at", help="a server, as host:port, in place of the program")
    file_words(parser)


def run(words: argparse.Namespace) -> int:
    shell = Shell(sys.stdout, words)
    prompt = _edited() if sys.stdin.isatty() else None
    try:
        if words.file:
            shell.load(words.file)
        return shell.loop(_typed(prompt))
    finally:
        shell.close()


class Shell:
    """The loop of the prompt: lines in, replies and explanations out. `status` is 1 once something was refused."""

    def __init__(self, out: TextIO, words: argparse.Namespace) -> None:
        self._out, self._words = out, words
        self._channel = self._start()
        self._uncut = self._changed = False
        self.status = OK

    def _start(self) -> Channel:
        return Connection(self._words.at) if self._words.at else started(find(self._words.program))

    def close(self) -> None:
        self._channel.close()

    def loop(self, lines: Callable[[], Optional[str]]) -> int:
        while True:
            line = lines()
            if line is None:
                return self.status
            try:
                if not self.answer(line.strip()):
                    return self.status
            except Stopped as fault:
                self._say(f"! {fault}")
                return BAD_INPUT
            except CohomError as fault:
                self._say(f"! {fault}")
                self.status = REFUSED

    def answer(self, line: str) -> bool:
        """Answers one line; False where it ends the session. Raises CohomError."""
        words = request_words(line)
        if not words:
            return True
        if words[0] in ("help", "?"):
            self._say(help_on(words[1] if len(words) > 1 else ""))
        elif words[0] == "load":
            self.load(" ".join(words[1:]))
        elif words[0] in ("exit", "bye"):
            return False
        else:
            return self._request(line)
        return True

    def load(self, path: str) -> None:
        """Attaches the facets of a file, to nothing else, and cuts. Raises BadFile; the first refused facets are shown."""
        k: Complex = read(path, self._words)
        if self._changed and self._words.at:
            self._say("! a server has one complex, and this one has simplices already")
            self.status = REFUSED
            return
        if self._changed:
            self._channel.close()
            self._channel = self._start()
            self._uncut = self._changed = False
            self._say("(the program was started anew, without what was attached before)")
        requests = [" ".join(map(str, k.labels.numbers(facet))) for facet in k.facets]
        replies = self._channel.ask_all(requests)
        self._changed = True
        refused = [(q, r) for q, r in zip(requests, replies) if not r.startswith("ok ")]
        for request, reply in refused[:5]:
            self._say(f"{request}  {reply}\n  {in_words(reply, request)}")
        if refused:
            self._say(f"! {len(refused)} of {len(requests)} facets were refused: this is not the complex of {path}")
            self.status = REFUSED
            return
        if k.labels.renumbered():
            self._say("vertices: " + ", ".join(f"{number} is {label}" for number, label in k.labels.pairs()))
        self._say(f"{len(requests)} facets of {path}")
        self._request("cut")

    def _request(self, line: str) -> bool:
        if not line.isascii():
            self._say("! a request has none but ASCII letters")
            self.status = REFUSED
            return True
        verb = request_words(line)[0]
        if verb == "round":
            self._say("! round has no use at a prompt: its replies wait for further lines")
            return True
        try:
            reply = self._channel.ask(line)
        except ProgramEnded:
            if verb == "quit":
                return False
            raise
        self._say(reply)
        if not reply.startswith("ok "):
            self._say("  " + in_words(reply, line))
            self.status = REFUSED
        self._remind(reply)
        return verb != "quit"

    def _remind(self, reply: str) -> None:
        """A question behind facets or a return that no `cut` has made a version of is about the version before them."""
        if reply.startswith(("ok facet", "ok attach", "ok back")):
            self._uncut = self._changed = True
        elif reply.startswith("ok cut"):
            self._uncut = False
        elif self._uncut and reply.split(" ")[1:2] and reply.split(" ")[1].startswith("v"):
            self._say("  (the complex changed since the last cut: this answer is not about that)")

    def _say(self, text: str) -> None:
        print(text, file=self._out, flush=True)


def completions(text: str) -> List[str]:
    """The requests and own words that begin so."""
    return [word + " " for word in sorted([*REQUESTS, *OWN]) if word.startswith(text)]


def _edited() -> Callable[[], Optional[str]]:
    """A prompt with line editing, history and completion, where Python has them."""
    try:
        import atexit
        import readline
        try:
            readline.read_history_file(HISTORY)
        except OSError:
            pass
        atexit.register(_save_history)
        readline.set_completer(lambda text, n: (completions(text) + [""])[n] or None)
        readline.set_completer_delims(" ")
        readline.parse_and_bind("tab: complete")
    except ImportError:
        pass
    print("Cohom: requests of docs/protocol.md; `help` lists them, Ctrl-D ends.")

    def line() -> Optional[str]:
        try:
            return input("> ")
        except EOFError:
            print()
            return None
        except KeyboardInterrupt:
            print()
            return ""

    return line


def _save_history() -> None:
    import readline
    try:
        readline.set_history_length(1000)
        readline.write_history_file(HISTORY)
    except OSError:
        pass


def _typed(prompt: Optional[Callable[[], Optional[str]]]) -> Callable[[], Optional[str]]:
    """The prompt, or the lines of standard input where it is no terminal."""
    if prompt is not None:
        return prompt
    return lambda: (lambda line: line.rstrip("\r\n") if line else None)(sys.stdin.readline())
