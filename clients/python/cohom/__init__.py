"""Cohomology modulo 2 of simplicial complexes, asked of the program Cohom.

    from cohom import Complex, compare
    k = Complex.read("torus.txt")
    a, b = k.classes(1)
    a * b, a.Sq(1), k.ring()

One subject a file: `complex` and `version` (complexes, versions and all questions), `chains` and `classes` (values), `ring`,
`comparison`, `constructions`, `readers` (files), `errors`, and below them `session`, `transport` and `program`.
"""

from .chains import Chain, Cochain
from .classes import CohomologyClass, HomologyClass
from .comparison import Comparison, compare
from .complex import Complex
from .constructions import (barycentric_subdivision, cone, connected_sum, deleted, disjoint_union, join, link, product,
                            skeleton, star, suspension, wedge)
from .errors import (BadFacet, BadFile, BadLink, BadRequest, ChangedByOthers, Closed, CohomError, DegenerateClass,
                     FacetRefused, InputFault, NoSuchClass, NotABoundary, NotACocycle, NotACycle, NotASimplex, NotBuiltYet,
                     NotClosed, NotHeld, NotOneClass, OtherComplex, OtherVersion, ProgramEnded, ProgramMissing, Refusal,
                     Stopped, UnexpectedReply, UnknownVertex, Unproved, WrongDegree, WrongDegrees, WrongSum)
from .facets import Facets
from .ring import Ring
from .version import Version

__version__ = "0.1.0"
__all__ = [name for name in dir() if not name.startswith("_")]
