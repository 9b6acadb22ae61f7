"""Exact answers about limits and times, from proved code.

    >>> from scatterflock import Problem
    >>> oven = Problem("zone1 zone2")
    >>> oven.limit({"zone1": 1}, at_least=20, at_most=60)
    >>> oven.limit({"zone2": 1, "zone1": -1}, at_most=50, name="step")
    >>> oven.limit({"zone2": 1}, at_least=95)
    >>> answer = oven.solve()
    >>> answer.values["zone1"]
    Fraction(45, 1)

Texts go through the command, which alone reads them:

    >>> from scatterflock import solve_file
    >>> solve_file("problems/oven.txt")["verdict"]
    'can'

  solve, solve_within, check     the words of a problem, its answer, and whether an answer is right
  decide, check_wide, widened    the same in wide numbers: no problem is out of their range
  first_violation                which limit the run finds broken first, and by how much
  times, check_times             time rows
  Problem, Answer                the same by names
  Session, Slice                 limits switched on and off; a run some pivots at a time
  replay, trace                  another solver's pivots against the run, and the run's own
  to_smtlib, from_smtlib         a problem as SMT-LIB text, and back
  Bundle, day, sheet, totals     a day's file: its bodies, the text of their answers, and the auditor's sheet
  solve_file, times_file,        texts, through the command
    check_file

What is refused raises Refused, with the number and what it says.

Needs libscatterflock.so.1: the one that SCATTERFLOCK_LIBRARY names, the one that was installed with this
file, or the one that the loader finds. SCATTERFLOCK_COMMAND names the command likewise. No other package
is needed.
"""
import ctypes
import json
import os
import subprocess
from ctypes import POINTER, Structure, c_bool, c_int32, c_int64, c_size_t, c_uint8, c_uint32, c_uint64
from fractions import Fraction
from pathlib import Path

MOST_VARIABLES, MOST_ROWS, MOST_ANSWER, MOST_TIMES, STATE_WORDS = 8, 24, 67, 130, 187
MOST_WORDS = 290  # of a problem
MOST_SMTLIB = 31 + 81 * (MOST_VARIABLES + MOST_ROWS) + (21 + 16 * MOST_VARIABLES) * MOST_ROWS
MOST_BODIES, FIRST_ROWS, MOST_FILE_WORDS, MOST_DAY_TEXT, MOST_SHEET = 64, 16, 16384, 125120, 857
CAN, CANNOT, RANGE = 1, 2, 3

# What each number says: the words of scatterflock_number_text in the header.
TEXTS = {
    1: "the words end before both sizes are told",
    2: "there must be 1 to 8 variables and 0 to 24 rows, or fewer where fewer are allowed",
    3: "the sizes ask for another number of words",
    4: "a coefficient is not from -1,000 to 1,000",
    5: "a kind of limit is not from 0 to 15, or marks a missing limit as strict",
    6: "a limit is not from -30,000 to 30,000, or a missing one is not written as 0",
    7: "there is no room for a whole answer",
    8: "accepted",
    9: "not accepted",
    10: "all coefficients of a row are 0",
    11: "the words end before both sizes are told",
    12: "there must be 1 to 64 vertices and 0 to 256 rows",
    13: "the sizes ask for another number of words",
    14: "a row names a vertex that there is not",
    15: "a row is neither marked strict by 1 nor not strict by 0",
    16: "a row's number is not from -30,000 to 30,000",
    17: "there is no room for a whole answer",
    30: "a day's file has 2 to 16,384 words of four bytes each",
    31: "there is no such edition: a day's file has edition 1 or 2",
    32: "there must be 0 to 64 bodies in edition 1, 0 to 48 in edition 2",
    33: "the file ends before it has told where each body is",
    34: "a body has a negative length, or does not start where the one before it ends",
    35: "the bodies do not have as many words as there are",
    36: "there is no room for all of it",
    41: "there is no such variable",
    42: "the variable has no such limit",
    43: "the limit is on already",
    44: "the limit is off already",
    51: "the words are not three for each step",
    52: "a step is not the run's own",
    53: "the run goes on after the last step",
    54: "the run is over before the last step",
    60: "a token cannot stand where it does",
}


class _Session(Structure):
    _fields_ = [("tableau", c_uint64 * STATE_WORDS)]


class _Handed(Structure):  # opened, switched, checked
    _fields_ = [("refused", c_uint32), ("session", _Session)]


class _Slice(Structure):
    _fields_ = [("count", c_size_t), ("tableau", c_uint64 * STATE_WORDS)]


class _Begun(Structure):
    _fields_ = [("refused", c_uint32), ("slice", _Slice)]


class _Continued(Structure):
    _fields_ = [("refused", c_uint32), ("answered", c_bool), ("slice", _Slice)]


class _Replayed(Structure):
    _fields_ = [("number", c_uint32), ("word", c_uint32), ("step", c_size_t)]


class _Counted(Structure):  # traced, exchanged
    _fields_ = [("refused", c_uint32), ("count", c_size_t)]


class _Violation(Structure):
    _fields_ = [("refused", c_uint32), ("variable", c_uint32), ("violated", c_bool), ("rises", c_bool)]
    _fields_ += [("denominator", c_int64), ("shortfall", c_int64), ("small", c_int64)]


class _Contents(Structure):
    _fields_ = [("refused", c_uint32), ("edition", c_uint32), ("bodies", c_size_t)]


def _installed(variable, *place):
    """What a variable of the environment names, or what was installed with this file, or the bare name."""
    there = Path(__file__).resolve().parent.joinpath("../../..", *place)
    return os.environ.get(variable) or (str(there) if there.exists() else place[-1])


def _load():
    library = ctypes.CDLL(_installed("SCATTERFLOCK_LIBRARY", "lib", "libscatterflock.so.1"))
    i32, i64, u32, u8 = POINTER(c_int32), POINTER(c_int64), POINTER(c_uint32), POINTER(c_uint8)
    for name, result, arguments in [
        ("solve", c_uint32, [i32, c_size_t, i64, c_size_t]),
        ("solve_within", c_uint32, [c_uint32, i32, c_size_t, i64, c_size_t]),
        ("check", c_uint32, [i32, c_size_t, i64, c_size_t]),
        ("check_wide", c_uint32, [i32, c_size_t, i64, c_size_t]),
        ("times", c_uint32, [i32, c_size_t, i64, c_size_t]),
        ("check_times", c_uint32, [i32, c_size_t, i64, c_size_t]),
        ("first_violation", _Violation, [i32, c_size_t]),
        ("slice_start", _Begun, [i32, c_size_t]),
        ("slice_continue", _Continued, [_Slice, c_size_t, i64, c_size_t]),
        ("session_open", _Handed, [i32, c_size_t]),
        ("session_switch", _Handed, [_Session, c_uint32, c_bool, c_bool]),
        ("session_check", _Handed, [_Session, i64, c_size_t]),
        ("session_violation", _Violation, [_Session]),
        ("replay", _Replayed, [i32, c_size_t, u32, c_size_t]),
        ("trace", _Counted, [i32, c_size_t, u32, c_size_t]),
        ("smtlib_write", _Counted, [i32, c_size_t, u8, c_size_t]),
        ("smtlib_read", _Counted, [u8, c_size_t, i32, c_size_t]),
        ("bundle_read", _Contents, [u8, c_size_t, i32, c_size_t, i32, c_size_t]),
        ("bundle_write", c_uint32, [c_uint32, i32, c_size_t, i32, c_size_t, u8, c_size_t]),
        ("day", c_size_t, [u8, c_size_t, u8, c_size_t]),
        ("sheet", c_size_t, [u8, c_size_t, u8, c_size_t]),
    ]:
        function = getattr(library, "scatterflock_" + name)
        function.restype, function.argtypes = result, arguments
    return library


_library = _load()


class Refused(ValueError):
    """Words that are no problem, or a switch that there is not: the number says why. Of SMT-LIB text that is not read
    place has where, in bytes."""

    def __init__(self, number, place=None):
        where = "" if place is None else f", at byte {place}"
        super().__init__(f"refused {number}: {TEXTS.get(number, 'nothing is known of this number')}{where}")
        self.number, self.place = number, place


def _words(words):
    # ctypes would cut a number that does not fit: tell it instead
    for word in words:
        if not -(2**31) <= word < 2**31:
            raise OverflowError(f"{word} is no 32-bit word")
    return (c_int32 * max(1, len(words)))(*words), len(words)


def _count(number, bits):
    # likewise
    if not 0 <= number < 2**bits:
        raise OverflowError(f"{number} is no count of {bits} bits")
    return number


def _longs(words):
    for word in words:
        if not -(2**63) <= word < 2**63:
            raise OverflowError(f"{word} is no 64-bit word")
    return (c_int64 * max(1, len(words)))(*words), len(words)


def _bytes(file):
    file = bytes(file)
    return (c_uint8 * max(1, len(file))).from_buffer_copy(file or b"\0"), len(file)


# Limit problems and time rows.


def solve(words, most_rows=MOST_ROWS):
    """The words of the answer to a problem of up to so many rows. Raises Refused."""
    if most_rows < 0:
        raise OverflowError(f"{most_rows} is no number of rows")
    out = (c_int64 * MOST_ANSWER)()
    most_rows = min(most_rows, MOST_ROWS)
    number = _library.scatterflock_solve_within(most_rows, *_words(words), out, MOST_ANSWER)
    if number:
        raise Refused(number)
    return list(out[: 3 + 2 * (words[0] + words[1])])


def solve_within(most_rows, words):
    """The same, in the order of the header and of the Rust crate."""
    return solve(words, most_rows)


def _judged(function, words, answer):
    number = function(*_words(words), *_longs(answer))
    if number not in (8, 9):
        raise Refused(number)
    return number == 8


def check(words, answer):
    """Whether the proved checker takes this for evidence. Raises Refused."""
    return _judged(_library.scatterflock_check, words, answer)


def check_wide(words, answer):
    """Whether the proved checker of wide evidence takes this for it: each number has four words. Raises Refused."""
    return _judged(_library.scatterflock_check_wide, words, answer)


def widened(answer):
    """The words of an answer as those of a wide one."""
    wide = list(answer[:2])
    for number in answer[2:]:
        wide += [number >> 32 * limb & 2**32 - 1 for limb in range(3)] + [number >> 96]
    return wide


def _numbers(answer):
    """The numbers of a wide answer, each in one place."""
    fours = [answer[at : at + 4] for at in range(2, len(answer), 4)]
    return list(answer[:2]) + [sum(word << 32 * limb for limb, word in enumerate(four)) for four in fours]


def decide(words):
    """The words of a wide answer to a problem, which says can or cannot, never range. Where the run leaves its
    range the command goes on with it. The proved checker has accepted what is handed back. Raises Refused."""
    answer = solve(words)
    if answer[0] == RANGE:
        ran = _ran("--words", "solve", "--wide", "-", told=" ".join(map(str, words)))
        if ran.stderr:
            raise ValueError(ran.stderr.strip())
        answer = [int(word) for word in ran.stdout.split()]
    else:
        answer = widened(answer)
    if not check_wide(words, answer):
        raise AssertionError("the checker does not accept this answer")
    return answer


class Violation:
    """The variable that a run would move first, the side of the limit that it is outside of, and how far: shortfall,
    and so many small amounts more."""

    def __init__(self, shown):
        self.variable, self.side = shown.variable, "lower" if shown.rises else "upper"
        self.shortfall = Fraction(shown.shortfall, shown.denominator)
        self.small = Fraction(shown.small, shown.denominator)

    def __repr__(self):
        outside = "below its lower" if self.side == "lower" else "above its upper"
        small = f", and by {self.small} of a small amount" if self.small else ""
        return f"variable {self.variable} is {outside} limit by {self.shortfall}{small}"


def first_violation(words):
    """The first violation at the start of a problem, or None. Raises Refused."""
    shown = _library.scatterflock_first_violation(*_words(words))
    if shown.refused:
        raise Refused(shown.refused)
    return Violation(shown) if shown.violated else None


def check_times(words, answer):
    """Whether the proved checker of time rows takes this for evidence: times that meet every row, or rows that lead
    round and cannot be met. Raises Refused."""
    return _judged(_library.scatterflock_check_times, words, answer)


def times(words):
    """The words of the answer to time rows. Raises Refused."""
    out = (c_int64 * MOST_TIMES)()
    number = _library.scatterflock_times(*_words(words), out, MOST_TIMES)
    if number:
        raise Refused(number)
    return list(out[: 2 + 2 * words[0]])


# Traces: three words for each pivot, who leaves, who enters, and the basic variables afterwards as a mask.


class Replayed:
    """How a trace compares with the run: true where it is the run's own. Of a step that is wrong `step` is its
    number, from 0, and `word` the place of its first wrong word, from 0; else both are None."""

    def __init__(self, number, step, word):
        self.number = number
        self.step, self.word = (step, word) if number == WRONG_STEP else (None, None)

    def __bool__(self):
        return self.number == 0

    def __repr__(self):
        where = f"step {self.step}, word {self.word}: " if self.number == WRONG_STEP else ""
        return "accepted" if self else where + TEXTS[self.number]


WRONG_STEP = 52


def replay(words, trace):
    """Holds a trace, a list of three numbers each, against the run of a problem. Raises Refused."""
    flat = [word for step in trace for word in step]
    lent = (c_uint32 * max(1, len(flat)))(*[_count(word, 32) for word in flat])
    told = _library.scatterflock_replay(*_words(words), lent, len(flat))
    if told.number not in (0, 51, WRONG_STEP, 53, 54):
        raise Refused(told.number)
    return Replayed(told.number, told.step, told.word)


def trace(words):
    """The steps of the run of a problem. Raises Refused."""
    room = 3 * solve(words)[1]
    out = (c_uint32 * max(1, room))()
    done = _library.scatterflock_trace(*_words(words), out, room)
    if done.refused:
        raise Refused(done.refused)
    return [tuple(out[at : at + 3]) for at in range(0, done.count, 3)]


# SMT-LIB.


def to_smtlib(words):
    """The SMT-LIB text of a problem, version 2, logic QF_LRA. Raises Refused."""
    out = (c_uint8 * MOST_SMTLIB)()
    done = _library.scatterflock_smtlib_write(*_words(words), out, MOST_SMTLIB)
    if done.refused:
        raise Refused(done.refused)
    return bytes(out[: done.count]).decode("ascii")


def from_smtlib(text):
    """The words of the problem of an SMT-LIB text, a string or bytes, that has the tokens of one that to_smtlib makes.
    Of any other Refused has the place of the first token that cannot stand where it does."""
    out = (c_int32 * MOST_WORDS)()
    text = text.encode() if isinstance(text, str) else text
    done = _library.scatterflock_smtlib_read(*_bytes(text), out, MOST_WORDS)
    if done.refused:
        raise Refused(done.refused, done.count)
    return list(out[: done.count])


# Days' files.


def _printed(function, file, room):
    out = (c_uint8 * room)()
    count = function(*_bytes(file), out, room)
    return bytes(out[:count]).decode("ascii")


def day(file):
    """The text of all answers of a day's file, from its bytes. One that is refused is a line of it."""
    return _printed(_library.scatterflock_day, file, MOST_DAY_TEXT)


def sheet(file):
    """The auditor's sheet of a day's file, as text."""
    return _printed(_library.scatterflock_sheet, file, MOST_SHEET)


def totals(file):
    """The auditor's sheet as numbers: bodies, can, cannot, range, refused by number, pivots, largest, body (None
    where there is no answer), and named, how often the lower and the upper limit of each variable is. Raises
    Refused."""
    found = {"refused": {}, "named": []}
    for line in sheet(file).splitlines():
        first, *rest = line.split()
        if first == "refused" and len(rest) == 1:
            raise Refused(int(rest[0]))
        if first == "refused":
            found["refused"][int(rest[0])] = int(rest[1])
        elif first == "largest":
            found["largest"] = int(rest[0])
            found["body"] = None if rest[2] == "none" else int(rest[2])
        elif first.isdigit():
            found["named"].append((int(rest[1]), int(rest[3])))
        else:
            found[first] = int(rest[0])
    return found


class Bundle:
    """A day's file: its edition, and the words of each of its bodies. Without an edition it is 1, or 2 where some
    body has more than 16 rows and edition 2 takes it. Raises Refused."""

    def __init__(self, bodies, edition=None):
        self.bodies = [list(body) for body in bodies]
        is_second = any(_refused(body, FIRST_ROWS) != _refused(body, MOST_ROWS) for body in self.bodies)
        self.edition = (2 if is_second else 1) if edition is None else edition
        self.write()

    @classmethod
    def read(cls, file):
        """The bundle of a file's bytes."""
        lengths, words = (c_int32 * MOST_BODIES)(), (c_int32 * MOST_FILE_WORDS)()
        told = _library.scatterflock_bundle_read(*_bytes(file), lengths, MOST_BODIES, words, MOST_FILE_WORDS)
        if told.refused:
            raise Refused(told.refused)
        bodies, at = [], 0
        for length in lengths[: told.bodies]:
            bodies.append(words[at : at + length])
            at += length
        return cls(bodies, told.edition)

    def write(self):
        """The bytes of its file."""
        room = 4 * MOST_FILE_WORDS
        out = (c_uint8 * room)()
        lengths, words = [len(body) for body in self.bodies], [word for body in self.bodies for word in body]
        number = _library.scatterflock_bundle_write(
            _count(self.edition, 32), *_words(lengths), *_words(words), out, room
        )
        if number:
            raise Refused(number)
        return bytes(out[: 4 * (2 + 2 * len(lengths) + len(words))])

    def day(self):
        return day(self.write())

    def sheet(self):
        return sheet(self.write())

    def totals(self):
        return totals(self.write())


def _refused(words, most_rows):
    # An answer without room is refused last of all, with 7.
    return _library.scatterflock_solve_within(most_rows, *_words(words), (c_int64 * 1)(), 0)


# Texts.


def _ran(*words, told=None):
    command = _installed("SCATTERFLOCK_COMMAND", "bin", "scatterflock")
    return subprocess.run([command, *words], input=told, capture_output=True, text=True)


def _asked(*words):
    ran = _ran("--json", *words)
    answer = json.loads(ran.stdout)
    if "error" in answer:
        raise ValueError(ran.stderr.strip())
    if answer.get("verdict") == "refused":
        raise Refused(answer["number"])
    return answer


def solve_file(file, wide=False):
    """The JSON of a text of limits, as docs/formats/text.md has it; with wide it says can or cannot, never range. A
    fault raises ValueError."""
    return _asked("solve", *(["--wide"] if wide else []), "--", os.fspath(file))


def times_file(file):
    """The JSON of a text of time rows."""
    return _asked("times", "--", os.fspath(file))


def check_file(file, answer, wide=False):
    """The JSON of what the checker says of an answer, a file too, to a text of limits or of time rows."""
    return _asked("check", *(["--wide"] if wide else []), "--", os.fspath(file), os.fspath(answer))


# Sessions and slices.


class Session:
    """A problem whose limits are switched on and off; at first all are off. Each check goes on from the last one."""

    def __init__(self, words):
        opened = _library.scatterflock_session_open(*_words(words))
        if opened.refused:
            raise Refused(opened.refused)
        self._state, self._count, self._kinds = opened.session, words[0] + words[1], words[-3 * sum(words[:2]) :: 3]

    def switch_all_on(self):
        """Switches on every limit that is off."""
        for variable, kind in enumerate(self._kinds):
            for upper in (False, True):
                if kind & (2 if upper else 1):
                    try:
                        self.switch(variable, upper, True)
                    except Refused as refused:
                        if refused.number != ALREADY_ON:
                            raise

    def switch(self, variable, upper, on):
        done = _library.scatterflock_session_switch(self._state, _count(variable, 32), upper, on)
        if done.refused:
            raise Refused(done.refused)
        self._state = done.session

    def check(self):
        out = (c_int64 * MOST_ANSWER)()
        done = _library.scatterflock_session_check(self._state, out, MOST_ANSWER)
        if done.refused:
            raise Refused(done.refused)
        self._state = done.session
        return list(out[: 3 + 2 * self._count])

    def violation(self):
        """The first violation as it stands, by the limits that are on, or None. Nothing changes."""
        shown = _library.scatterflock_session_violation(self._state)
        return Violation(shown) if shown.violated else None


ALREADY_ON = 43


class Slice:
    """The run of a problem, some pivots at a time: go_on gives None until there is an answer."""

    def __init__(self, words):
        begun = _library.scatterflock_slice_start(*_words(words))
        if begun.refused:
            raise Refused(begun.refused)
        self._state, self._count = begun.slice, words[0] + words[1]

    def go_on(self, pivots):
        out = (c_int64 * MOST_ANSWER)()
        done = _library.scatterflock_slice_continue(self._state, _count(pivots, 32), out, MOST_ANSWER)
        if done.refused:
            raise Refused(done.refused)
        self._state = done.slice
        return list(out[: 3 + 2 * self._count]) if done.answered else None


# Problems by names.


class Answer:
    """can, with values; cannot, with the limits that clash; range, with neither. Of a wide answer the words are its
    numbers, each in one place."""

    def __init__(self, problem, words):
        count = len(problem.names) + len(problem.rows)
        first, second = words[3 : 3 + count], words[3 + count :]
        self.verdict = {CAN: "can", CANNOT: "cannot", RANGE: "range"}[words[0]]
        self.pivots, self.words = words[1], words
        self.values, self.small, self.clash = {}, {}, []
        if words[0] == CAN:
            for at, name in enumerate(problem.names):
                self.values[name] = Fraction(first[at], words[2])
                self.small[name] = Fraction(second[at], words[2])
        if words[0] == CANNOT:
            for at in range(count):
                for side, times in (("lower", first[at]), ("upper", second[at])):
                    if times:
                        self.clash.append((times, side, problem.label(at)))

    def __bool__(self):
        return self.verdict == "can"

    def __repr__(self):
        if self.verdict == "can":
            told = []
            for name, value in self.values.items():
                small = self.small[name]
                sign = " - " if small < 0 else " + "
                told.append(f"{name} = {value}" + (f"{sign}{abs(small)} small" if small else ""))
            return "can: " + ", ".join(told)
        if self.verdict == "cannot":
            return "cannot: " + ", ".join(f"{t} x {side} of {label}" for t, side, label in self.clash)
        return "range"


class Problem:
    """A problem whose variables have names, "zone1 zone2" or a list."""

    def __init__(self, names):
        self.names = names.split() if isinstance(names, str) else list(names)
        if twice := [name for at, name in enumerate(self.names) if name in self.names[:at]]:
            raise ValueError(f"{twice[0]} is declared twice")
        self.rows, self.limits, self._labels = [], [[0, 0, 0] for _ in self.names], {}

    def label(self, at):
        return self._labels.get(at, self.names[at] if at < len(self.names) else f"row {at - len(self.names)}")

    def limit(self, terms, at_least=None, at_most=None, above=None, below=None, name=None):
        """A limit on a sum: {"zone2": 1, "zone1": -1} is zone2 - zone1."""
        row = [terms.get(one, 0) for one in self.names]
        if all(number is None for number in (at_least, at_most, above, below)):
            raise ValueError("a limit is missing: at_least, at_most, above or below")
        if unknown := set(terms) - set(self.names):
            raise KeyError(f"{sorted(unknown)[0]} is no name of the problem")
        if sorted(map(abs, row)) == [0] * (len(row) - 1) + [1] and max(row) == 1:
            at = row.index(1)
        else:
            at = len(self.names) + len(self.rows)
            self.rows.append(row)
            self.limits.append([0, 0, 0])
        if name:
            self._labels[at] = name
        kind = self.limits[at]
        for number, bit, strict, place in [(at_least, 1, 0, 1), (above, 1, 4, 1), (at_most, 2, 0, 2), (below, 2, 8, 2)]:
            if number is not None:
                if kind[0] & bit:
                    raise ValueError(f"{self.label(at)} has that limit already")
                kind[0] |= bit | strict
                kind[place] = number

    @property
    def words(self):
        words = [len(self.names), len(self.rows)]
        for row in self.rows:
            words += row
        for three in self.limits:
            words += three
        return words

    def solve(self):
        words = self.words
        answer = solve(words)
        if answer[0] != RANGE and not check(words, answer):
            raise AssertionError("the checker does not accept this answer")
        return Answer(self, answer)

    def decide(self):
        """The answer where numbers may grow beyond the range of solve: can or cannot."""
        return Answer(self, _numbers(decide(self.words)))

    def first_violation(self):
        return first_violation(self.words)

    def session(self):
        return Session(self.words)

    def slice(self):
        return Slice(self.words)

    def trace(self):
        return trace(self.words)

    def replay(self, steps):
        return replay(self.words, steps)

    def to_smtlib(self):
        return to_smtlib(self.words)
