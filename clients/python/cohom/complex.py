"""A simplicial complex with any hashable labels as its vertices, that grows and is asked.

    from cohom import Complex
    k = Complex([("a", "b", "c"), ("a", "b", "d"), ("a", "c", "d"), ("b", "c", "d")])
    k.betti()                        # (1, 0, 1)

The program is started at the first question. A question that follows a change makes a new version first, so that each
answer is about the complex as it stands. A facet that is refused is an exception: there is never a silent other complex.
"""

from __future__ import annotations

import os
import weakref
from collections.abc import Iterable as AnyIterable
from typing import Any, Dict, Hashable, Iterable, List, Optional, Tuple, Union

from .errors import BadFacet, Closed, CohomError, NotHeld
from .facets import Facets, FacetsLike, as_facets
from .labels import Labels
from .program import Program, find
from .session import Session
from .transport import Channel, Connection, Progress, started
from .version import Questions, Version


class Complex(Questions):
    """A complex from its facets; all faces belong to it.

    `facets` are collections of labels, a Facets or another Complex (its facets are taken over). `vertices` sets the order
    of the vertices, by which products of cochains are made; without it the order is the ascending one where all labels are
    integers or texts (or tuples of them), else that in which they come. `program` names the program (cohom.program
    tells where it is sought else); `at` names a server as host:port in its place. A server has one complex for all: it must
    be empty, unless `shared` is set. `progress` is called while facets are sent, with the number of replies and of
    requests.

    Raises BadFacet at once. The program is met at the first question, and then FacetRefused, ProgramMissing, ProgramEnded,
    UnexpectedReply and ChangedByOthers are raised.
    """

    def __init__(self, facets: FacetsLike = (), vertices: Optional[Iterable[Hashable]] = None, *, program: Optional[Program] = None,
                 at: Optional[str] = None, shared: bool = False, progress: Optional[Progress] = None) -> None:
        given = as_facets(facets)
        if vertices is not None:
            given = Facets(given.facets, vertices, given.origins)
        self.labels = Labels(given.vertices, open_ended=shared)
        self._facets: List[Tuple[Hashable, ...]] = list(given.facets)
        self._origins: List[str] = list(given.origins)
        self._listed: Optional[Facets] = given
        self._program, self._address, self._shared, self._progress = program, at, shared, progress
        self._session: Optional[Session] = None
        self._at: Dict[int, Tuple[List[Tuple[Hashable, ...]], List[str], int]] = {0: ([], [], 0)}
        self._changed = True
        self._current: Optional[Version] = None
        self._closed = False

    @classmethod
    def read(cls, path: Union[str, "os.PathLike[str]"], form: Optional[str] = None, name: Optional[str] = None,
             **options: Any) -> "Complex":
        """A complex from a file: plain lists, JSON, what SageMath, polymake, GAP and GUDHI print, Lutz's manifold pages (see
        cohom.readers). `form` says which, else it is seen from the text; `name` picks one of several. Raises BadFile, with file,
        line and the facet as it is written."""
        from .readers import read_file
        return cls(read_file(path, form, name), **options)

    @classmethod
    def read_text(cls, text: str, form: Optional[str] = None, name: Optional[str] = None, **options: Any) -> "Complex":
        """The same from a text."""
        from .readers import read_text
        return cls(read_text(text, form, name), **options)

    # the complex as it stands

    @property
    def facets(self) -> Facets:
        """The vertices in their order and the facets as they were given."""
        if self._listed is None:
            self._listed = Facets(self._facets, self.labels.order(), self._origins)
        return self._listed

    @property
    def vertices(self) -> Tuple[Hashable, ...]:
        """The labels in the order of the vertices, also those that `back` took out of the complex."""
        return self.facets.vertices

    def simplices_of(self, version: Version, dimension: int) -> List[Tuple[Hashable, ...]]:
        """All simplices of one dimension of a version, in order."""
        if self._shared:
            raise CohomError("on a shared server not all simplices are known here")
        facets, _, count = self._at.get(version.number, (self._facets, self._origins, len(self._facets)))
        return Facets(facets[:count], self.vertices).simplices(dimension)

    def add(self, *facets: Iterable[Hashable]) -> "Complex":
        """Attaches facets with all their faces, and gives the complex itself. New labels come last in the order of the vertices
        (integers in theirs). Raises BadFacet before anything is sent. Raises FacetRefused: the facets before that one are
        in then, and that one and those behind it are not."""
        if self._closed:
            raise Closed("this complex was closed")
        for facet in Facets([self._one_facet(facet) for facet in facets]).facets:
            fresh = [v for v in facet if v not in self.labels]
            self.labels.extend(fresh)
            numbers = self.labels.numbers(facet)
            try:
                if self._session is not None:
                    self._session.attach(numbers)
            except CohomError:
                self.labels.forget(fresh)
                raise
            self._facets.append(self.labels.simplex(numbers))
            self._origins.append("")
            self._listed, self._changed = None, True
        return self

    def _one_facet(self, facet: Any) -> Any:
        """A facet as it is. Raises BadFacet for what looks like a list of facets: it would be one facet with tuples as labels."""
        if not isinstance(facet, AnyIterable) or isinstance(facet, (str, bytes)):
            return facet
        labels = tuple(facet)
        nested = labels and all(isinstance(v, (tuple, list, set, frozenset)) for v in labels)
        known = any(isinstance(v, (tuple, frozenset)) for v in self.labels.order())
        if nested and not known and (len(self.labels) or isinstance(facet, list)):
            raise BadFacet(facet, "this looks like a list of facets: they are handed in one by one, as in add(*facets)")
        return labels

    # versions

    def cut(self) -> int:
        """Makes the complex as it stands a version, and tells its number; it is held, so that `at` can ask it later. A program
        holds 64 versions; past that many `cut` holds none, and `forget` makes room."""
        session = self.session()
        return self._cut(session, True)

    def at(self, version: int) -> Version:
        """A version, to be asked. Raises NotHeld for one that is not there or not held: not made by `cut`, past the 64 that a program
        holds, or forgotten; and NotBuiltYet where an older program answers about its last version alone."""
        session = self.session()
        if version < 1 or version > session.last_cut:
            raise NotHeld(version, f"there are {session.last_cut} versions, numbered from 1")
        if self._current is not None and self._current.number == version:
            return self._current
        session.use(version)
        return Version(self, version)

    def back(self, version: int) -> "Complex":
        """Makes the complex that of a version again, from which it grows on, and gives the complex itself; 0 is the empty one. All
        versions stay, and their classes. Raises NotHeld for a version that this complex did not make, and Refusal where the program
        went back as often as it can."""
        session = self.session()
        if version not in self._at:
            raise NotHeld(version, f"there are {session.last_cut} versions, numbered from 1")
        session.back(version)
        facets, origins, count = self._at[version]
        self._facets, self._origins = facets[:count], origins[:count]
        self._listed, self._changed = None, True
        return self

    def forget(self, version: int) -> None:
        """Holds a version no longer, to make room for others; `back` can still go to it."""
        self.session().forget(version)

    def now(self) -> Version:
        """The newest version; where the complex has changed since, a new one is made first."""
        session = self.session()
        if self._changed or self._current is None:
            self._cut(session, False)
        assert self._current is not None
        return self._current

    def _cut(self, session: Session, hold: bool) -> int:
        number = session.cut(hold)
        self._current, self._changed = Version(self, number), False
        self._at[number] = (self._facets, self._origins, len(self._facets))
        return number

    # the program

    def session(self) -> Session:
        """The session with the program; it is started, and the facets are sent, where that was not done yet."""
        if self._closed:
            raise Closed("this complex was closed")
        if self._session is None:
            channel: Channel = Connection(self._address) if self._address is not None else started(find(self._program))
            session = self._session = Session(channel, self.labels, self._shared)
            weakref.finalize(self, channel.close)
            if self._address is not None:
                session.enter()
            session.attach_all([self.labels.numbers(f) for f in self._facets], self._origins, self._progress)
        return self._session

    def close(self) -> None:
        """Ends the program or the connection. Answers that were given stay; nothing more can be asked."""
        self._closed = True
        if self._session is not None:
            self._session.close()

    def __enter__(self) -> "Complex":
        return self

    def __exit__(self, *_: object) -> None:
        self.close()

    def __repr__(self) -> str:
        facets = self.facets
        return f"Complex: {len(facets)} facets on {len(facets.vertices)} vertices, of dimension {facets.dimension}"
