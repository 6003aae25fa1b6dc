"""Runs rinv from Python, or from Sage: systems and certificates in, generators, expressions and verdicts out.

    >>> import rinv
    >>> rotations = rinv.System(101, "a, b", "x, y", ideal="a^2+b^2-1", unit="1, 0", product="a*a'-b*b', a*b'+b*a'",
    ...                         inverse="a, -b", action="a*x-b*y, b*x+a*y")
    >>> rotations.generators()
    ['x^2 + y^2']
    >>> rotations.generators().worth
    'complete'
    >>> rotations.rewrite("(x^2+y^2)^3/(1+x^2+y^2)")
    'y1^3/(y1 + 1)'
    >>> rotations.is_invariant("x/y")
    False
    >>> certificate = rotations.certify()
    >>> certificate.kind, certificate.check().worth, certificate.recheck().worth
    ('full', 'complete', 'complete')
    >>> rinv.System(4, "a", "x", unit="0", product="a+a'", inverse="-a", action="x+a").laws()
    Traceback (most recent call last):
    rinv.Refused: refused line 1 Field not listed

Names and polynomials may be strings, or anything whose str() is one, so elements of polynomial rings of Sage or SymPy serve
as they are; and `field` may be a field of Sage. What rinv refuses, denies or does not finish is an exception that says what
and where. A text can ask for hours: a call takes `timeout`, in seconds, past which the program is ended, and
subprocess.TimeoutExpired raised.

The program is the one that the environment names in RINV, else the launcher beside this folder or the program that was
installed with it, else the one on the PATH.
"""

import json
import os
import pathlib
import re
import shutil
import subprocess
import sys

TOOLS = pathlib.Path(__file__).resolve().parent
SYSTEMS = {"singular": ("Singular", "-q"), "macaulay2": ("M2", "--script", "/dev/stdin")}


class RinvError(Exception):
    """Any answer but the one that was asked for; its text is what rinv printed."""


class Refused(RinvError):
    """The text is no system or script: `line` and `code`; or no certificate: `part` and `place`."""

    def __init__(self, text, line=None, code=None, part=None, place=None):
        super().__init__(text)
        self.line, self.code, self.part, self.place = line, code, part, place


class LawFails(RinvError):
    """A law of the group or of its action is false: `law`, `part` from 1, and the normal form `rest`."""

    def __init__(self, text, law, part, rest):
        super().__init__(text)
        self.law, self.part, self.rest = law, part, rest


class SectionMisses(RinvError):
    """The section misses the orbits, as `element` shows, a polynomial of the space that vanishes on it."""

    def __init__(self, text, element):
        super().__init__(text)
        self.element = element


class NotInvariant(RinvError):
    """The fraction is not invariant; `rest` is the normal form of its change."""

    def __init__(self, text, rest):
        super().__init__(text)
        self.rest = rest


class VanishingDenominator(RinvError):
    """The fraction is invariant, and its denominator vanishes on the section."""


class Incomplete(RinvError):
    """A budget or the limit on degrees was met: the `phase`, and the `cause` as it is printed."""

    def __init__(self, text, phase, cause):
        super().__init__(text)
        self.phase, self.cause = phase, cause


class Failed(RinvError):
    """A program could not read, write or get memory, or did not know the command: its `status`."""

    def __init__(self, status, what="rinv"):
        super().__init__(f"{what} ended with status {status}")
        self.status = status


def program():
    """The program: see above. An installed module stands in share/rinv/tools, and the program in bin."""
    for beside in (TOOLS.parent / "rinv", TOOLS.parent.parent.parent / "bin/rinv"):
        if beside.is_file():
            break
    else:
        beside = shutil.which("rinv")
    found = os.environ.get("RINV") or beside
    if not found:
        raise FileNotFoundError("rinv: neither RINV, nor a program beside this folder, nor one on the PATH")
    return str(found)


def run(words, text, timeout=None):
    """The status, and the lines that are printed."""
    return printed([program(), *words], text, timeout)


def printed(command, text, timeout=None):
    """The status of a command that reads a text, and the lines that it prints."""
    ran = subprocess.run(command, input=text.encode("utf-8"), stdout=subprocess.PIPE, timeout=timeout, check=False)
    return ran.returncode, ran.stdout.decode("ascii").splitlines()


def answer(words, text, timeout=None):
    """The lines of an answer that is given; an exception for any other."""
    return told(*run(words, text, timeout))


def told(status, lines):
    if lines and (status in (0, 1) and not lines[0].startswith("denied ")):
        return lines
    first = lines[0] if lines else ""
    if found := re.fullmatch(r"refused line (\d+) (.*)", first):
        raise Refused(first, line=int(found[1]), code=found[2])
    if found := re.fullmatch(r"refused (\S+) (\d+)", first):
        raise Refused(first, part=found[1], place=int(found[2]))
    if first.startswith("refused "):
        raise Refused(first)
    if found := re.fullmatch(r"denied law (\S+) part (\d+) rest (.*)", first):
        raise LawFails(first, found[1], int(found[2]), found[3])
    if found := re.fullmatch(r"denied section misses element (.*)", first):
        raise SectionMisses(first, found[1])
    if found := re.fullmatch(r"incomplete (query \d+|\S+) (.*)", first):
        raise Incomplete(first, found[1], found[2])
    raise Failed(status)


def one_line(entry):
    """A name, polynomial or fraction as a text has it."""
    text = str(entry).replace("**", "^")
    if "\n" in text or "#" in text:
        raise ValueError(f"no line of a text: {text!r}")
    return text


def listed(entries):
    """A list as a system's text has it."""
    return one_line(entries if isinstance(entries, str) else ", ".join(map(str, entries)))


def primed(product, group, second):
    """The text of a product in which the names of the second factor are those of the group with a prime."""
    names = dict(zip(re.findall(r"\w+", second), re.findall(r"\w+", group)))
    return re.sub(r"[A-Za-z]\w*", lambda found: names[found[0]] + "'" if found[0] in names else found[0], product)


class System:
    """A group and its action on a space over the field with `field` elements, as the text of a system has them.

    Each argument is a string with commas, or a list. `section` has the equations of a cross-section, `pairs` and `steps`
    the budget of the runs; what is left out is not written. Where names can't have primes, as in Sage, `second` has other
    names for the coordinates of a product's second factor: `product="a*c-b*d, a*d+b*c", second="c, d"`.
    """

    def __init__(self, field, group, space, *, unit, product, inverse, action, ideal=(), section=(), second=(), pairs=None,
                 steps=None):
        order = field.order() if hasattr(field, "order") else field
        lines = [f"field {order}", f"group {listed(group)}", f"space {listed(space)}"]
        product = primed(listed(product), listed(group), listed(second))
        for word, entries in (("ideal", ideal), ("unit", unit), ("product", product), ("inverse", inverse),
                              ("action", action), ("section", section)):
            if listed(entries):
                lines.append(f"{word} {listed(entries)}")
        for word, number in (("pairs", pairs), ("steps", steps)):
            if number is not None:
                lines.append(f"budget {word} {number}")
        self.text = "\n".join(lines) + "\n"

    @classmethod
    def read(cls, path):
        """The system whose text a file has."""
        return cls.of(pathlib.Path(path).read_text(encoding="utf-8"))

    @classmethod
    def of(cls, text):
        """The system of a text."""
        system = cls.__new__(cls)
        system.text = text
        return system

    def write(self, path):
        pathlib.Path(path).write_text(self.text, encoding="utf-8")

    def with_lines(self, *lines):
        """The text with these lines behind it."""
        return self.text.rstrip("\n") + "\n" + "".join(line + "\n" for line in lines)

    def laws(self, timeout=None):
        """True where all laws hold; LawFails names the first that does not."""
        return answer(["laws"], self.text, timeout) == ["laws hold"]

    def generators(self, timeout=None):
        """Generators of all invariant fractions, as strings; with a section they are invariant fractions. See `worth`."""
        return Generators(answer(["gen"], self.text, timeout))

    def is_invariant(self, fraction, timeout=None):
        """Whether a fraction is invariant; no generators are looked for."""
        lines = answer(["run"], self.with_lines(f"invariant {one_line(fraction)}"), timeout)
        return lines[0] == "invariant 1 yes"

    def rewrite(self, fraction, timeout=None):
        """The expression of one invariant fraction in the generators y1, y2, ..; NotInvariant or VanishingDenominator."""
        found = self.rewrite_all([fraction], timeout)[0]
        if isinstance(found, RinvError):
            raise found
        return found

    def rewrite_all(self, several, timeout=None):
        """The expressions of several fractions; where one has none, the exception that says why stands in its place."""
        text = self.with_lines(*(f"rewrite {one_line(fraction)}" for fraction in several))
        return [expression(line) for line in answer(["rewrite"], text, timeout) if line.startswith("rewrite ")]

    def run(self, *lines, timeout=None):
        """What `run` prints for these lines of a script: `def`, `laws`, `generators`, `invariant`, `rewrite`."""
        return answer(["run"], self.with_lines(*map(one_line, lines)), timeout)

    def certify(self, timeout=None):
        """The certificate of the generators, of kind `full`; of kind `sound` with a section."""
        return Certificate(answer(["certify"], self.text, timeout)[0])


class Generators(list):
    """Fractions as strings, y1 first; `worth` is `complete` where they generate all invariants, else `complete on section`."""

    def __init__(self, lines):
        super().__init__(fractions(lines[:-1]))
        self.worth = lines[-1]


def fractions(lines):
    return [line.split(" = ", 1)[1] for line in lines]


def expression(line):
    """The expression of a line of `rewrite`, or why there is none."""
    if found := re.fullmatch(r"rewrite \d+ = (.*)", line):
        return found[1]
    if found := re.fullmatch(r"rewrite \d+ not invariant rest (.*)", line):
        return NotInvariant(line, found[1])
    return VanishingDenominator(line)


class Certificate:
    """A certificate: the `text` of its JSON. It may be anybody's; nothing is true of it before it is checked."""

    def __init__(self, certificate):
        text = certificate if isinstance(certificate, str) else json.dumps(certificate, separators=(",", ":"))
        self.text = text.rstrip("\n")

    @classmethod
    def read(cls, path):
        return cls(pathlib.Path(path).read_text(encoding="utf-8"))

    def write(self, path):
        pathlib.Path(path).write_text(self.text + "\n", encoding="utf-8")

    def value(self):
        """The dictionary of its JSON."""
        return json.loads(self.text)

    @property
    def kind(self):
        """What it claims to be: `invariance`, `sound` or `full`."""
        return self.value()["kind"]

    def check(self, timeout=None):
        """The verdict of rinv."""
        return Verdict(answer(["check"], self.text, timeout))

    def recheck(self, timeout=None):
        """The verdict of tools/recheck.py, which shares nothing with rinv."""
        return Verdict(told(*printed([sys.executable, TOOLS / "recheck.py"], self.text, timeout)))

    def script(self, system):
        """What it claims, as a script for `singular` or `macaulay2`; Failed where it has not the format."""
        status, lines = printed([sys.executable, TOOLS / "recheck_in.py", system], self.text)
        if status != 0:
            raise Failed(status, "recheck_in.py")
        return "\n".join(lines) + "\n"

    def holds_in(self, system, timeout=None):
        """Whether `singular` or `macaulay2`, which must be installed, finds all that it claims."""
        return printed(SYSTEMS[system], self.script(system), timeout)[1][-1:] == ["all hold"]


class Verdict:
    """What `check` says of a certificate: whether it is `accepted`; then its `fractions` and what it is `worth`
    (`invariant`, `sound` or `complete`); else the `condition` (`C1` to `C8`) and the `place` that fails."""

    def __init__(self, lines):
        self.accepted = lines[0] == "yes"
        self.fractions = fractions(lines[1:-1]) if self.accepted else []
        self.worth = lines[-1] if self.accepted else None
        self.condition, self.place = (None, None) if self.accepted else (lines[0].split()[1], int(lines[0].split()[2]))

    def __bool__(self):
        return self.accepted


def check(certificate, timeout=None):
    """The verdict on a certificate: the text of its JSON, or the dictionary."""
    return Certificate(certificate).check(timeout)
