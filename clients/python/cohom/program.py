"""Where the program is.

`find` looks at, in this order: what is handed in; the variable COHOM of the environment; the proved binary of the checkout
that this package lies in (crates/cohom/out/cohom; in an archive of the program bin/cohom); `cohom` on the PATH; and last bin/cohom
of the checkout, which answers with a trial that is not proved where nothing is built. In that case one warning says so.
"""

from __future__ import annotations

import os
import shutil
import warnings
from typing import List, Optional, Sequence, Union

from .errors import ProgramMissing, Unproved

Program = Union[str, Sequence[str]]
_CHECKOUT = os.path.abspath(os.path.join(os.path.dirname(os.path.realpath(__file__)), "..", "..", ".."))
_warned = False


def checkout() -> Optional[str]:
    """The folder of the repository, or None where the package is installed elsewhere."""
    return _CHECKOUT if os.path.isfile(os.path.join(_CHECKOUT, "bin", "cohom")) else None


def find(program: Optional[Program] = None) -> List[str]:
    """The words that start the program, without `script`. Raises ProgramMissing where there is none."""
    if program is not None:
        return _named(program, "the program")
    if os.environ.get("COHOM"):
        return _named(os.environ["COHOM"], "COHOM names")
    top = checkout()
    if top and not os.path.isdir(os.path.join(top, "crates")):
        return [os.path.join(top, "bin", "cohom")]
    if top and _runs(_built(top)):
        return [_built(top)]
    on_path = shutil.which("cohom")
    if on_path:
        return [on_path]
    if top:
        _warn()
        return [os.path.join(top, "bin", "cohom")]
    raise ProgramMissing("no program was found: hand in its path, set COHOM to it, or put `cohom` on the PATH")


def _named(program: Program, what: str) -> List[str]:
    words = [program] if isinstance(program, str) else list(program)
    if not words or not (_runs(words[0]) or shutil.which(words[0])):
        raise ProgramMissing(f"{what} {words[0] if words else ''!r}, which is no program that can be run")
    top = _checkout_of(words)
    return [_built(top), *words[1:]] if top and _runs(_built(top)) else words


def answers_at_the_end(words: Sequence[str]) -> bool:
    """Whether these words are bin/cohom of a checkout where nothing is built: a trial answers when its input has ended."""
    top = _checkout_of(words)
    return top is not None and not _runs(_built(top))


def _checkout_of(words: Sequence[str]) -> Optional[str]:
    """The checkout whose bin/cohom these words start, or None where they start something else."""
    path = os.path.realpath(shutil.which(words[0]) or words[0])
    top = os.path.dirname(os.path.dirname(path))
    return top if path == os.path.join(top, "bin", "cohom") and os.path.isdir(os.path.join(top, "crates")) else None


def _built(top: str) -> str:
    return os.path.join(top, "crates", "cohom", "out", "cohom")


def _runs(path: str) -> bool:
    return os.path.isfile(path) and os.access(path, os.X_OK)


def _warn() -> None:
    global _warned
    if not _warned:
        _warned = True
        warnings.warn("the proved program is not built: bin/cohom answers, and where it finds no proved program its answers "
                      "are those of an unproved trial with small limits of time and output", Unproved, stacklevel=2)
