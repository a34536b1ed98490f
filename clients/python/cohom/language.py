"""The requests of the language, for help and completion: the form of each and what it does."""

from __future__ import annotations

from typing import Dict, List, NamedTuple

WORDS = """Words: a simplex 2-0-1; a cochain 1:{0-1,1-2}; a chain 1:[0-1,1-2]; a class 1:#0+#2 and the zero class 1:0;
a homology class 1:*0.
Below S is a simplex, P a degree, W a cochain or class, C a chain or homology class, K an exponent or a version, I an index.
A line may begin with its caller, @0 to @15: each has a version in use and names of its own."""


class Form(NamedTuple):
    """How a request is written, and what it does in one line."""

    form: str
    meaning: str


REQUESTS: Dict[str, Form] = {
    "facet": Form("facet V ..", "attaches the simplex of these vertices with all its faces; `facet` may be left out"),
    "attach": Form("attach S", "attaches one simplex, whose faces are there"),
    "cut": Form("cut", "makes the complex as it stands a version, which the questions are about"),
    "count": Form("count", "the number of simplices of each dimension"),
    "betti": Form("betti", "the Betti numbers modulo 2, from degree 0"),
    "kind": Form("kind S", "whether the simplex is essential: whether a class was born with it that lives"),
    "classes": Form("classes P", "the number of classes of degree P, and the essential simplices; class #k is born with the k-th"),
    "model": Form("model S", "the rows of S in the normalised contraction: f of S, and phi of S"),
    "cochain": Form("cochain W", "the cochain as a set of simplices; of a class its canonical cocycle"),
    "chain": Form("chain C", "the chain as a set of simplices; of a homology class its cycle"),
    "delta": Form("delta W", "the coboundary, one degree up"),
    "boundary": Form("boundary C", "the boundary, one degree down"),
    "class": Form("class W", "the class of a cocycle"),
    "bound": Form("bound W", "the canonical cochain whose coboundary W is"),
    "cup": Form("cup W W", "the class of the cup product of two cocycles"),
    "square": Form("square K W", "the class of the Steenrod square Sq^K of a cocycle, K degrees up"),
    "bockstein": Form("bockstein W", "the class of the Bockstein of a cocycle, one degree up"),
    "same": Form("same cup W W W W | same square K W W | same bockstein W W",
                 "the cochain that shows why the result is the same for two cocycles of one class (for cup: A A' B B')"),
    "cupi": Form("cupi I W W", "Steenrod's product of index I of two cochains, of degree p + q - I"),
    "cap": Form("cap W C", "the cap product of a cochain of degree p and a chain of degree q, of degree q - p"),
    "closed": Form("closed", "the dimension n of a closed complex, or where it fails"),
    "links": Form("links", "whether each link has the Betti numbers of a sphere, or the first that has not"),
    "duality": Form("duality", "the matrices of the pairing of degrees p and n - p, or the first degenerate class"),
    "wu": Form("wu", "the Wu classes of a closed complex with duality"),
    "sw": Form("sw", "the Stiefel-Whitney classes, by Wu's formula"),
    "swnumber": Form("swnumber P ..", "the value of the product of the Stiefel-Whitney classes of these degrees; they add up to n"),
    "back": Form("back K", "makes the complex that grows the one of version K again; the version in use stays"),
    "see": Form("see", "takes the last version into use"),
    "after": Form("after N", "as see, where there are N entries"),
    "hold": Form("hold NAME", "keeps the version in use under a name"),
    "use": Form("use NAME", "takes a held version into use"),
    "drop": Form("drop NAME", "forgets a name"),
    "round": Form("round N", "lets the next N questions be answered at once"),
    "quit": Form("quit", "ends the session"),
}


def request_words(line: str) -> List[str]:
    """The words of a line behind its caller word; none where the line is blank or a comment, and so has no reply."""
    words = line.split()
    if words and words[0][0] == "@" and words[0][1:].isdigit() and len(words[0]) < 11 and int(words[0][1:]) < 16:
        words = words[1:]
    return [] if words and words[0][0] in "#%" else words


def help_on(verb: str = "") -> str:
    """The help for one request, or the list of all."""
    if verb:
        if verb not in REQUESTS:
            return f"there is no request {verb!r}; `help` lists them"
        return f"{REQUESTS[verb].form}\n  {REQUESTS[verb].meaning}\n{WORDS}"
    width = max(len(v) for v in REQUESTS)
    listed = [f"  {verb:<{width}}  {form.meaning}" for verb, form in REQUESTS.items()]
    return "\n".join([WORDS, "", *listed, "", "`help cup` tells more of one request."])
