"""Reads the bytes of a game as the program has to: `read` gives its table or tree, or raises `Refused` with the line that is told.

Written from docs/FORMAT.md, docs/DECISIONS.md and docs/PROVED.md, from what README.md says of the limits on a step, and, for the
signs and the letter of an exponent, from crates/game_text/specs/Numbers.antt; there is no code of the program in it. Names of
players, strategies and actions are read and dropped.
"""
import math
import re
from collections import namedtuple
from fractions import Fraction

MOST_BYTES = 16_777_216
MOST_PAYOFFS = 1_048_576
MOST_NODES = 65_536
MOST_DEPTH = 1024
MOST_DIGITS = 36
MOST_EXPONENT = 18
# Numerators and denominators of a file's numbers are below this one in size, and those of a step up to the other.
NUMBERS_BELOW = 2**63
MOST_IN_STEP = 2**127 - 1

# A token: its kind (a mark itself, or one of "text", "word", "number" and "end"), its value, and its offset.
Token = namedtuple("Token", "kind value at")
TOKEN = re.compile(rb'(?P<mark>[{},])|(?P<text>"(?:\\"|\\(?!")|[^"\\])*")|(?P<run>[A-Za-z0-9+\-./]+)')
BLANKS = re.compile(rb"[ \t\n\v\f\r]*")
FRACTION = re.compile(rb"([+-]?)([0-9]+)/([0-9]+)")
DECIMAL = re.compile(rb"([+-]?)(?=\.?[0-9])([0-9]*)\.?([0-9]*)(?:[eE]([+-]?)([0-9]+))?")


class Refused(Exception):
    """A game that is refused, with what the program tells: its line on standard error, and its status."""

    status = 1

    def __init__(self, text):
        super().__init__(text)
        self.line = f"gambit: {text}\n"


def too_large(most, what):
    """The refusal of a count that is told with the first number above its limit."""
    return Refused(f"too large: {most + 1} {what}, limit {most}")


# ---- tokens

def tokens_of(data):
    """The tokens of a file, and one more at its end."""
    tokens = []
    at = BLANKS.match(data).end()
    while at < len(data):
        found = TOKEN.match(data, at)
        if not found:
            kind = "unclosed text" if data[at : at + 1] == b'"' else "bad character"
            raise Refused(f"text fault at {at}: {kind}")
        tokens.append(token_of(found))
        at = BLANKS.match(data, found.end()).end()
    return [*tokens, Token("end", None, len(data))]


def token_of(found):
    """The token that was found; a run of letters, digits and signs is a word or a number."""
    if found["mark"]:
        return Token(found[0].decode(), None, found.start())
    if found["text"]:
        return Token("text", found[0], found.start())
    if found[0][:1].isalpha():
        return Token("word", found[0], found.start())
    return Token("number", number_of(found[0], found.start()), found.start())


def number_of(run, at):
    """The number that a run is."""
    number = fraction_of(run) if b"/" in run else decimal_of(run)
    if number is None:
        raise Refused(f"text fault at {at}: bad number")
    if number == "wide" or max(abs(number.numerator), number.denominator) >= NUMBERS_BELOW:
        raise Refused(f"text fault at {at}: number too large")
    return number


def fraction_of(run):
    """The number of a fraction: None where it is none, and "wide" where too many digits count."""
    found = FRACTION.fullmatch(run)
    if not found or not found[3].strip(b"0"):
        return None
    above, below = (part.lstrip(b"0") or b"0" for part in found.group(2, 3))
    if max(len(above), len(below)) > MOST_DIGITS:
        return "wide"
    return Fraction(int(found[1] + above), int(below))


def decimal_of(run):
    """The same of a decimal, which is wide too where its exponent is."""
    found = DECIMAL.fullmatch(run)
    if not found:
        return None
    sign, whole, part, sign_of_exponent, exponent = (piece or b"" for piece in found.groups())
    part = part.rstrip(b"0")
    digits = (whole + part).lstrip(b"0")
    exponent = exponent.lstrip(b"0") or b"0"
    if len(digits) > MOST_DIGITS or len(exponent) > 2 or int(exponent) > MOST_EXPONENT:
        return "wide"
    return int(sign + (digits or b"0")) * Fraction(10) ** (int(sign_of_exponent + exponent) - len(part))


# ---- parts of both files

class File:
    """The tokens of a file from the next one on, in reverse, and the name of its format."""

    def __init__(self, tokens, name):
        self.left = tokens[::-1]
        self.name = name

    def comes(self, *kinds):
        """Whether the next token is of one of these kinds."""
        return self.left[-1].kind in kinds

    def fault(self, kind):
        """The refusal that names the next token."""
        return Refused(f"{self.name} fault at {self.left[-1].at}: {kind}")

    def take(self, kind, fault, fits=lambda value: True):
        """The value of the next token, which has to be of a kind, and to fit."""
        if not self.comes(kind) or not fits(self.left[-1].value):
            raise self.fault(fault)
        return self.left.pop().value

    def skip(self, kind):
        """Passes by a token of a kind, where one comes."""
        if self.comes(kind):
            self.left.pop()

    def whole(self, fault, least=0):
        """The whole number that comes next, which has to be so great."""
        return int(self.take("number", fault, lambda value: value.denominator == 1 and value >= least))

    def front(self, version):
        """The number of players, after the first four tokens."""
        self.take("word", "header", lambda word: word == self.name.upper().encode())
        self.take("number", "header", lambda number: number == version)
        self.take("word", "header", lambda word: word in (b"R", b"D"))
        self.take("text", "header")
        return self.names("players")

    def names(self, fault):
        """How many texts, at least one, stand in the braces that come next."""
        self.take("{", fault)
        self.take("text", fault)
        count = 1
        while self.comes("text"):
            self.left.pop()
            count += 1
        self.take("}", fault)
        return count

    def numbers(self, count, fault):
        """So many numbers, between two of which one comma may stand."""
        found = []
        while len(found) < count:
            if found:
                self.skip(",")
            found.append(self.take("number", fault))
        return found


# ---- tables

class Table:
    """The table of a file: how many strategies each player has, and what each profile pays each player."""

    def __init__(self, tokens):
        file = File(tokens, "nfg")
        self.players = file.front(1)
        self.sizes = self.read_sizes(file)
        self.profiles = math.prod(self.sizes)
        if self.profiles * self.players > MOST_PAYOFFS:
            raise too_large(MOST_PAYOFFS, "payoffs")
        file.skip("text")
        self.payoffs = self.read_outcomes(file) if file.comes("{") else self.read_payoffs(file)
        file.take("end", "trailing")

    def read_sizes(self, file):
        """Whole numbers, or the strategies' names; all of one kind."""
        file.take("{", "strategies")
        is_named = file.comes("{")
        sizes = [file.names("strategies") if is_named else file.whole("strategies", 1) for _ in range(self.players)]
        file.take("}", "strategies")
        return sizes

    def read_payoffs(self, file):
        """The payoffs of each profile, in the order of the file."""
        found = file.numbers(self.profiles * self.players, "payoff count")
        return [found[first : first + self.players] for first in range(0, len(found), self.players)]

    def read_outcomes(self, file):
        """The same, of outcomes that are numbered from 1 on."""
        file.take("{", "outcome")
        pays = [[Fraction(0)] * self.players]
        while not file.comes("}"):
            file.take("{", "outcome")
            file.take("text", "outcome")
            pays.append(file.numbers(self.players, "outcome"))
            file.take("}", "outcome")
        file.take("}", "outcome")
        return [pays[self.read_outcome(file, len(pays))] for _ in range(self.profiles)]

    @staticmethod
    def read_outcome(file, count):
        """The number of an outcome, which is below a count."""
        fault = file.fault("outcome")
        number = file.whole("payoff count")
        if number >= count:
            raise fault
        return number


# ---- trees

class Node:
    """A node of a tree: what it pays, its set (None at an end) and what comes after each action of the set. A set is named by
    its player, from 0 on or None for chance, and its number."""

    def __init__(self, place, pays):
        self.place = place
        self.pays = pays
        self.after = []


class TreeFile(File):
    """A file of a tree, in which the tokens may not end inside the nodes."""

    def __init__(self, tokens):
        super().__init__(tokens, "efg")
        self.is_inside = False

    def fault(self, kind):
        return super().fault("unfinished" if self.is_inside and self.comes("end") else kind)


class Tree:
    """The tree of a file: its root, and the actions of each set, in the order of first use. At a set of chance the actions are
    probabilities."""

    def __init__(self, tokens):
        self.file = TreeFile(tokens)
        self.players = self.file.front(2)
        self.file.skip("text")
        self.actions = {}
        self.outcomes = {0: [Fraction(0)] * self.players}
        self.nodes = 0
        self.file.is_inside = True
        self.root = self.read_node(0)
        self.read_branches()
        self.file.is_inside = False
        self.file.take("end", "trailing")

    def read_branches(self):
        """Reads the nodes after the root: each hangs at the last node before it that has a branch left."""
        path = [self.root]
        while path:
            if path[-1].place is None or len(path[-1].after) == len(self.actions[path[-1].place]):
                path.pop()
            else:
                node = self.read_node(len(path))
                path[-1].after.append(node)
                path.append(node)

    def read_node(self, depth):
        """The node that comes next, so many edges from the root."""
        word = self.file.take("word", "node", lambda word: word in (b"c", b"p", b"t"))
        self.nodes += 1
        if self.nodes > MOST_NODES:
            raise too_large(MOST_NODES, "nodes")
        if depth > MOST_DEPTH:
            raise too_large(MOST_DEPTH, "depth")
        self.file.take("text", "node")
        place = None if word == b"t" else self.read_set(self.read_player() if word == b"p" else None)
        return Node(place, self.read_outcome())

    def read_player(self):
        """A player, counted from 0."""
        unknown = self.file.fault("unknown player")
        player = self.file.whole("node")
        if not 1 <= player <= self.players:
            raise unknown
        return player - 1

    def read_set(self, player):
        """A set of a player, of which the first use has the actions."""
        place = player, self.file.whole("node", 1)
        self.file.skip("text")
        if place in self.actions:
            if self.file.comes("{"):
                self.read_actions_again(place)
        else:
            self.file.take("{", "set mismatch")
            self.actions[place] = self.read_actions(place)
        return place

    def read_actions(self, place):
        """The actions of a set, behind the brace that opens their list. Probabilities are not negative and sum to 1."""
        found = []
        total = Fraction(0)
        while not found or not self.file.comes("}"):
            self.file.take("text", "node")
            if place[0] is None:
                total = self.total_with_next(place, total)
            found.append(self.file.take("number", "node") if place[0] is None else None)
        if place[0] is None and total != 1:
            raise self.file.fault(f"probability of set {place[1]} sums to {total}")
        self.file.take("}", "node")
        return found

    def total_with_next(self, place, total):
        """A sum of probabilities, with the number that comes next."""
        if not self.file.comes("number"):
            raise self.file.fault("node")
        number = self.file.left[-1].value
        if not can_be_added(total, number):
            raise self.file.fault(f"probability of set {place[1]} out of range: add {total} {number}")
        if number < 0 or total + number > 1:
            raise self.file.fault(f"probability of set {place[1]} sums to {total + number}")
        return total + number

    def read_actions_again(self, place):
        """A later list of a set's actions, which has to agree with the first."""
        self.file.take("{", "node")
        for action in self.actions[place]:
            self.file.take("text", "set mismatch" if self.file.comes("}") else "node")
            if action is not None:
                self.file.take("number", "set mismatch" if self.file.comes("number") else "node", action.__eq__)
        self.file.take("}", "set mismatch" if self.file.comes("text") else "node")

    def read_outcome(self):
        """What the outcome that comes next pays, of which the first use has the payoffs."""
        number = self.file.whole("node")
        if number == 0:
            return self.outcomes[0]
        self.file.skip("text")
        if number not in self.outcomes:
            self.outcomes[number] = self.read_payoffs([None] * self.players)
        elif self.file.comes("{"):
            self.read_payoffs(self.outcomes[number])
        return self.outcomes[number]

    def read_payoffs(self, known):
        """A list of an outcome's payoffs, which has to agree with what is known of them."""
        self.file.take("{", "outcome mismatch")
        found = []
        for payoff in known:
            if found:
                self.file.skip(",")
            kind = "outcome mismatch" if self.file.comes("number", "}") else "node"
            found.append(self.file.take("number", kind, lambda number: payoff in (None, number)))
        self.file.take("}", "outcome mismatch" if self.file.comes("number") else "node")
        return found


def can_be_added(left, right):
    """Whether a sum fits 128 bits: both numerators over the least common denominator, the sum of these, and the sum in lowest terms."""
    common = math.lcm(left.denominator, right.denominator)
    numerators = [number.numerator * (common // number.denominator) for number in (left, right)]
    total = left + right
    parts = [*numerators, sum(numerators), total.numerator, total.denominator]
    return max(map(abs, parts)) <= MOST_IN_STEP


def read(data):
    """The table or tree of a file."""
    if len(data) > MOST_BYTES:
        raise Refused(f"file longer than {MOST_BYTES} bytes")
    tokens = tokens_of(data)
    return Tree(tokens) if tokens[0][:2] == ("word", b"EFG") else Table(tokens)
