"""One complex of the program: what was sent, which version is in use, and replies made into answers or exceptions.

A `Session` stands between lines and mathematics. It sends facets and cuts, sees to it that a question is about the version
that is meant, and turns each refusal into the exception that says it in words.
"""

from __future__ import annotations

import threading
from typing import Dict, List, NoReturn, Optional, Sequence, Tuple

from . import replies
from .errors import (BadLink, BadRequest, ChangedByOthers, Closed, CohomError, DegenerateClass, FacetRefused, NoSuchClass, NotABoundary,
                     NotACocycle, NotASimplex, NotBuiltYet, NotClosed, NotHeld, NotOneClass, Refusal, UnexpectedReply,
                     WrongDegrees, WrongSum, show)
from .labels import Labels
from .replies import Reply
from .transport import Channel, Progress

KINDS = {
    "caller": "a caller is @0 to @15",
    "request": "the program has no such request",
    "missing": "a word is lacking at the end",
    "word": "a word has not the form that is wanted there",
    "number": "a number is too large: degrees, exponents and indices go to 99, all other numbers have nine digits",
    "wide": "a simplex has more vertices than the program takes",
    "repeat": "a simplex has a vertex twice",
    "extra": "there is a word too many",
}

CHANGING = frozenset(("attach", "facet", "cut", "quit", "see", "after", "hold", "use", "drop", "round", "back"))


class Session:
    """Requests on one channel, with the labels of one complex. Several threads may ask; one at a time changes the complex."""

    def __init__(self, channel: Channel, labels: Labels, shared: bool = False) -> None:
        self.channel, self.labels = channel, labels
        self.entries = 0
        self.last_cut = 0
        self.in_use = 0
        self._shared = shared
        self._held: Dict[int, str] = {}
        self._holds = True
        self._broken: Optional[str] = None
        self._lock = threading.RLock()

    def enter(self) -> None:
        """On a server: looks at what is there. Raises ChangedByOthers where that is not the empty complex, unless it is
        shared."""
        reply = self._read("see", self._ask_all(["see"])[0])
        if reply.kind != "ok":
            self.break_off("the server did not tell its version")
            self._refuse("see", reply)
        version, entries = self._numbers("see", reply, "see", 2)
        if entries and not self._shared:
            self.break_off("the server had a complex already")
            raise ChangedByOthers(f"the server has a complex already, of {entries} entries: a new one needs an empty server")
        self.entries, self.last_cut, self.in_use = entries, version, version

    # growing

    def attach_all(self, facets: Sequence[Tuple[int, ...]], origins: Sequence[str], progress: Optional[Progress] = None) -> None:
        """Attaches all facets in one batch. A facet that is refused breaks the session: others behind it may be in."""
        requests = [" ".join(map(str, facet)) for facet in facets]
        texts = self._ask_all(requests, progress)
        for i, text in enumerate(texts):
            try:
                self._attached(requests[i], facets[i], origins[i], text)
            except CohomError as fault:
                self.break_off(f"a facet was refused ({fault})")
                raise

    def attach(self, facet: Tuple[int, ...], origin: str = "") -> int:
        """Attaches one facet and tells how many simplices came in. After FacetRefused all is as it was."""
        request = " ".join(map(str, facet))
        return self._attached(request, facet, origin, self._ask_all([request])[0])

    def _attached(self, request: str, facet: Tuple[int, ...], origin: str, text: str) -> int:
        reply = self._read(request, text)
        if reply.kind == "ok":
            added, entries = self._numbers(request, reply, "facet", 2)
            self._count(request, text, self.entries + added, entries)
            return added
        raise FacetRefused(self.labels.simplex(facet), origin, _facet_words(reply, facet), request, text)

    def cut(self, hold: bool = True) -> int:
        """Makes a version and takes it into use; holds it too, so that it can be asked later, where the program can do so."""
        text = self._ask_all(["cut"])[0]
        reply = self._read("cut", text)
        if reply.kind != "ok":
            self._refuse("cut", reply)
        version, entries = self._numbers("cut", reply, "cut", 2)
        self._count("cut", text, self.entries + 1, entries)
        self.last_cut = self.in_use = version
        if hold:
            self.hold(version)
        return version

    def _count(self, request: str, text: str, wanted: int, entries: int) -> None:
        if entries != wanted and not self._shared:
            self.break_off("the complex was changed by others")
            raise ChangedByOthers(f"{request!r} was answered {text!r}, and {wanted} entries would be right: somebody else "
                                  "changes this complex")
        self.entries = entries

    # versions

    def hold(self, version: int) -> bool:
        """Holds the version in use under a name; tells whether it is held. What is not built or full is no fault here."""
        if version in self._held:
            return True
        if not self._holds:
            return False
        name = f"v{version}"
        reply = self._read(f"hold {name}", self._ask_all([f"hold {name}"])[0])
        if reply.kind == "ok":
            self._held[version] = name
        elif reply.words == ["later"]:
            self._holds = False
        return reply.kind == "ok"

    def use(self, version: int) -> None:
        """Takes a version into use. Raises NotBuiltYet where the program cannot go back to versions, and NotHeld."""
        if version == self.in_use:
            return
        if version not in self._held and version == self.last_cut:
            return self._see(version)
        if version not in self._held:
            if not self._holds:
                raise NotBuiltYet(f"version {version} cannot be asked: this program answers about the last version alone "
                                  f"({self.last_cut})", f"hold v{version}", "no later")
            there = 0 < version <= self.last_cut
            raise NotHeld(version, "it was not held when it was cut" if there else f"there are {self.last_cut}")
        request = f"use {self._held[version]}"
        reply = self._read(request, self._ask_all([request])[0])
        if reply.kind != "ok":
            self._refuse(request, reply)
        self.in_use = version

    def _see(self, version: int) -> None:
        """Takes the last version into use, which is to be this one."""
        reply = self._read("see", self._ask_all(["see"])[0])
        if reply.kind != "ok":
            self._refuse("see", reply)
        self.last_cut, _ = self._numbers("see", reply, "see", 2)
        self.in_use = self.last_cut
        if self.last_cut != version:
            raise NotHeld(version, f"others have made newer versions, up to {self.last_cut}")

    def back(self, version: int) -> None:
        """Makes the growing complex the one of a version again. Raises Refusal, after which all is as it was."""
        request = f"back {version}"
        text = self._ask_all([request])[0]
        reply = self._read(request, text)
        if reply.kind != "ok":
            self._refuse(request, reply)
        _, entries = self._numbers(request, reply, "back", 2)
        self._count(request, text, self.entries + 1, entries)

    def forget(self, version: int) -> None:
        """Holds a version no longer. What is not held is no fault here."""
        if version not in self._held:
            return
        request = f"drop {self._held.pop(version)}"
        reply = self._read(request, self._ask_all([request])[0])
        if reply.kind != "ok":
            self._refuse(request, reply)

    # questions

    def question(self, version: int, request: str) -> List[str]:
        """The words of the `ok` reply behind the verb. Raises what the refusal means."""
        return self.questions(version, [request])[0]

    def questions(self, version: int, requests: Sequence[str], progress: Optional[Progress] = None) -> List[List[str]]:
        """The same for many requests in one batch; the first refusal in order is raised."""
        with self._lock:
            self.use(version)
            texts = self._ask_all(requests, progress)
        answers: List[List[str]] = []
        start = f"ok v{version} "
        for request, text in zip(requests, texts):
            verb = request.partition(" ")[0]
            words = text.split(" ") if text.startswith(start) else []
            if words[2:3] == [verb]:
                answers.append(words[3:])
                continue
            reply = self._read(request, text)
            if reply.version is not None and reply.version != version:
                self._unexpected(request, text, f"it is about version {reply.version}, and {version} is meant")
            if reply.kind == "ok":
                self._unexpected(request, text, "it is the reply to another request")
            self._refuse(request, reply, version)
        return answers

    def raw(self, version: int, requests: Sequence[str], progress: Optional[Progress] = None) -> List[str]:
        """Lines as they stand and their replies, for what this client has no name for. Raises Refusal for one that would change
        the complex or the version in use, or that has no reply."""
        for request in requests:
            words = request.split()
            if not words or "\n" in request or words[0][0] in "#%":
                raise Refusal("a request is one line, neither blank nor a comment", request)
            if not request.isascii():
                raise Refusal("a request has none but ASCII letters", request)
            if words[0] in CHANGING or not words[0][0].isalpha():
                raise Refusal(f"{words[0]!r} changes the complex or the version in use: Complex has calls for that", request)
        with self._lock:
            self.use(version)
            return self._ask_all(requests, progress)

    # ends

    def break_off(self, reason: str) -> None:
        """Nothing more is asked: what the program holds is not what was meant."""
        if self._broken is None:
            self._broken = reason
        self.channel.close()

    def close(self) -> None:
        self.break_off("it was closed")

    @property
    def closed(self) -> bool:
        return self.channel.closed

    def _ask_all(self, requests: Sequence[str], progress: Optional[Progress] = None) -> List[str]:
        if self._broken is not None:
            raise Closed(f"nothing can be asked of this complex any more: {self._broken}")
        return self.channel.ask_all(requests, progress)

    # replies

    def _read(self, request: str, text: str) -> Reply:
        try:
            return replies.read(text)
        except ValueError:
            self._unexpected(request, text, "this is no reply of the program")

    def _numbers(self, request: str, reply: Reply, verb: str, count: int) -> List[int]:
        words = reply.words
        if words[:1] == [verb] and len(words) == count + 1 and all(w.isdigit() for w in words[1:]):
            return list(map(int, words[1:]))
        self._unexpected(request, reply.text, f"'ok {verb}' and {count} numbers were wanted")

    def _unexpected(self, request: str, text: str, reason: str) -> NoReturn:
        self.break_off(f"{request!r} had an unexpected reply")
        raise UnexpectedReply(request, text, reason)

    def _refuse(self, request: str, reply: Reply, version: Optional[int] = None) -> NoReturn:
        """Raises the exception of a reply that is not `ok`."""
        try:
            fault = self._meaning(request, reply, version)
        except (ValueError, IndexError):
            self._unexpected(request, reply.text, "this refusal is unknown")
        raise fault

    def _meaning(self, request: str, reply: Reply, version: Optional[int]) -> CohomError:
        word, rest, text = reply.words[0], reply.words[1:], reply.text
        if reply.kind == "bad":
            kind = rest[0]
            return BadRequest(f"column {word}: {KINDS[kind] if kind in KINDS else kind}", request, text, int(word), kind)
        simplex = self.labels.simplex(replies.simplex(rest[0])) if rest and rest[0].replace("-", "").isdigit() else ()
        if word == "later":
            return NotBuiltYet(f"the program reads {request.partition(' ')[0]!r} and does not answer it yet", request, text)
        if word == "full":
            return Refusal(f"there is no room for more: there are {rest[0]}", request, text)
        if word == "notthere":
            return NotASimplex(simplex, f"is no simplex of version {reply.version}")
        if word == "degree":
            return NotASimplex(simplex, "is a simplex of another dimension than the degree")
        if word == "noclass":
            return self._no_class(request, int(rest[0]), version, text)
        if word == "notcocycle":
            return NotACocycle(simplex, request, text)
        if word == "differs":
            return (NotABoundary if request.startswith("bound") else NotOneClass)(simplex, request, text)
        if word == "degrees":
            first, second = map(int, rest)
            words = (f"a cochain of degree {first} does not cap a chain of degree {second}" if request.startswith("cap")
                     else f"two cocycles of the degrees {first} and {second} are not of one class")
            return WrongDegrees(first, second, words, request, text)
        if word == "nothing":
            return NotClosed("not closed: the complex is empty", None, None, request, text)
        if word == "notpure":
            return NotClosed(f"not closed: the simplex {show(simplex)} lies in none of the greatest dimension",
                             simplex, None, request, text)
        if word == "ridge":
            return NotClosed(f"not closed: the simplex {show(simplex)} lies in {rest[1]} of the greatest dimension, and not in two",
                             simplex, int(rest[1]), request, text)
        if word == "link":
            return BadLink(simplex, list(map(int, rest[1:])), request, text)
        if word == "degenerate":
            return DegenerateClass(*replies.class_word(rest[0]), request, text)
        if word == "sum":
            return WrongSum(int(rest[0]), int(rest[1]), request, text)
        if word in ("noname", "held", "holdsfull", "notyet", "noversion", "caller"):
            return Refusal(f"{request!r} was refused: {text}", request, text)
        raise ValueError(word)

    def _no_class(self, request: str, number: int, version: Optional[int], text: str) -> NoSuchClass:
        """With the degree of the first word that has the number, and how many classes there are."""
        for word in request.split()[1:]:
            if ":#" in word or ":*" in word:
                degree, numbers = replies.class_word(word)
                if number in numbers and version is not None:
                    count = self.class_count(version, degree)
                    if number >= count:
                        return NoSuchClass(degree, number, count, request, text)
        raise ValueError(request)

    def class_count(self, version: int, degree: int) -> int:
        """How many classes a degree has."""
        betti = list(map(int, self.question(version, "betti")))
        return betti[degree] if degree < len(betti) else 0


def _facet_words(reply: Reply, facet: Tuple[int, ...]) -> str:
    """Why a facet was refused."""
    if reply.kind == "bad" and reply.words[1:] == ["wide"]:
        return f"it has {len(facet)} vertices, more than the program takes in one simplex ({reply.text})"
    if reply.kind == "no" and reply.words[:1] == ["full"]:
        return f"the program has no room for it and its faces: {reply.words[1]} simplices are there ({reply.text})"
    if reply.kind == "bad" and len(reply.words) == 2:
        return f"{KINDS.get(reply.words[1], reply.words[1])} ({reply.text})"
    return reply.text
