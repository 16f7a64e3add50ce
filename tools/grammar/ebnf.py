"""Grammars in EBNF: `{ }` any number of times, `[ ]` at most once, `|` or, and texts of tokens between quotes."""
import re
from dataclasses import dataclass

WORD = re.compile(r'"[^"]+"|\w+\'?|[^\s\w"]')
CLOSING = {"[": "]", "{": "}", "(": ")"}


@dataclass(frozen=True)
class Token:
    """A token, which opens so many levels for itself and for what stands right of it in its row."""

    name: str
    opens: int


@dataclass(frozen=True)
class Name:
    """What the rule of this name says."""

    name: str


@dataclass(frozen=True)
class Row:
    """One part after the other."""

    parts: tuple


@dataclass(frozen=True)
class Choice:
    """One of the parts."""

    parts: tuple


@dataclass(frozen=True)
class Repeat:
    """The part, any number of times."""

    part: object


NOTHING = Row(())


def words(text):
    """The names, tokens and signs of the right side of a rule."""
    return WORD.findall(text)


class Reader:
    """Reads the right side of a rule. Kinds are the tokens that are written as words; each opener opens a level."""

    def __init__(self, text, kinds, openers):
        self.words = words(text)
        self.kinds = kinds
        self.openers = openers

    def whole(self):
        part = self.choice()
        if self.words:
            raise ValueError(f"a rule goes on with {' '.join(self.words)}")
        return part

    def choice(self):
        parts = [self.row()]
        while self.words[:1] == ["|"]:
            self.words.pop(0)
            parts.append(self.row())
        return Choice(tuple(parts)) if parts[1:] else parts[0]

    def row(self):
        parts = []
        while self.words and self.words[0] not in "|]})":
            parts.append(self.part(self.words.pop(0)))
        return Row(tuple(parts)) if len(parts) != 1 else parts[0]

    def part(self, word):
        if word in CLOSING:
            inner = self.choice()
            if self.words[:1] != [CLOSING[word]]:
                raise ValueError(f"a {word} is not closed")
            self.words.pop(0)
            return {"[": Choice((inner, NOTHING)), "{": Repeat(inner), "(": inner}[word]
        if word[0] == '"':
            return Token("'" + word[1:-1], int(word[1:-1] in self.openers))
        if not word.rstrip("'").isidentifier():
            raise ValueError(f"a rule has the sign {word}")
        return Token(word, 0) if word in self.kinds else Name(word)


def heights(rules):
    """For each rule how deep rules are nested in the least that it says; without those that say nothing finite."""
    found, before = {}, None
    while found != before:
        before = dict(found)
        for name, part in rules.items():
            least = height(part, found)
            if least is not None:
                found[name] = least + 1
    return found


def height(part, known):
    """The same of a part, or None."""
    if isinstance(part, Name):
        return known.get(part.name)
    if isinstance(part, (Row, Choice)):
        all_of = [height(one, known) for one in part.parts]
        if isinstance(part, Row):
            return None if None in all_of else max(all_of, default=0)
        return min((one for one in all_of if one is not None), default=None)
    return 0


class Deriver:
    """Makes tokens at random, each with the number of levels that are open at it."""

    def __init__(self, rules, chance):
        self.rules = rules
        self.chance = chance
        self.heights = heights(rules)
        self.tokens = []
        self.wanted = 0

    def derive(self, name, wanted):
        """Tokens of the rule, some more or less than are wanted."""
        self.tokens, self.wanted = [], wanted
        self.add(Name(name), 0, 0)
        return self.tokens

    def add(self, part, level, inside):
        """Adds the tokens of a part that stands in so many rules."""
        if isinstance(part, Token):
            self.tokens.append((part.name, level + part.opens))
        elif isinstance(part, Name):
            self.add(self.rules[part.name], level, inside + 1)
        elif isinstance(part, Row):
            for one in part.parts:
                self.add(one, level, inside)
                level += isinstance(one, Token) and one.opens
        elif isinstance(part, Choice):
            self.add(self.chance.choice(self.options(part, inside)), level, inside)
        else:
            while not self.is_enough(inside) and self.chance.random() < 0.4:
                self.add(part.part, level, inside)

    def is_enough(self, inside):
        """Whether there are tokens enough, with those that the rules will add in which this stands."""
        return len(self.tokens) + inside // 4 >= self.wanted

    def options(self, choice, inside):
        """All parts, or the lowest ones where there is enough already."""
        if not self.is_enough(inside):
            return choice.parts
        every = [(height(part, self.heights), part) for part in choice.parts]
        least = min(one for one, _ in every if one is not None)
        return [part for one, part in every if one == least]
