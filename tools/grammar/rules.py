"""The grammar that the files of crates/cd_grammar/specs say in lines."""
import re
from collections import Counter
from typing import NamedTuple

STRING = r'"((?:[^"\\]|\\.)*)"'
COUNTS = {"One": 1, "Two": 2, "Three": 3, "Four": 4, "Five": 5, "Six": 6}
LINE = re.compile(STRING + rf"\s*⟼\s*({'|'.join(COUNTS)})\s+\(?(\w+)(?:\s+(true|false|\w+\.\w+)\))?\s*∷\s*")
NAME = re.compile(r"codes\s*" + STRING + r"\s*∷\s*")
END = "$"

# what lines and names are made of, in order: lists, each with what stands in the place of `~`
LINES = [("start_lines", ""), ("tree_lines", ""), ("tree_lines", "'"), ("word_lines", ""), ("pattern_lines", ""),
         ("program_lines", "")]
NAMES = [("start_names", ""), ("tree_names", ""), ("tree_names", "'"), ("word_names", ""), ("pattern_names", ""),
         ("program_names", "")]


class GrammarError(Exception):
    """What is wrong with a grammar, in words."""


class Symbol(NamedTuple):
    """A part of a rule: a nonterminal, or a terminal that opens so many levels."""

    is_terminal: bool
    number: int
    opens: int


class Rule(NamedTuple):
    """A rule, what it makes (of how many parts, a word, and what stands after it or None), and its line."""

    left: int
    right: tuple
    make: tuple
    text: str


class Grammar:
    """Rules by number, and the names of terminals and nonterminals by number."""

    def __init__(self, rules, terminals, nonterminals):
        self.rules = rules
        self.terminals = terminals
        self.nonterminals = nonterminals
        self.sides = [[] for _ in nonterminals]
        for number, rule in enumerate(rules):
            self.sides[rule.left].append(number)
        self.whole = rules[0].left
        self.start = rules[0].right[0].number
        self.finish = len(terminals) - 1

    def name(self, symbol):
        """The symbol as lines write it."""
        if not symbol.is_terminal:
            return self.nonterminals[symbol.number]
        name = self.terminals[symbol.number]
        return "^" + name[1:] if symbol.opens else name


def read(text):
    """The grammar of the texts of the files, one after the other."""
    text = without_comments(text)
    terminals = [unescaped(found[1]) for found in entries(text, "terminals", NAME)]
    nonterminals = [unescaped(found[1]).replace("~", mark)
                    for name, mark in NAMES for found in entries(text, name, NAME)]
    check_names(terminals, nonterminals)
    rules = [read_line(unescaped(found[1]).replace("~", mark), found.groups()[1:], terminals, nonterminals)
             for name, mark in LINES for found in entries(text, name, LINE)]
    check_whole(rules)
    grammar = Grammar(rules, terminals, nonterminals)
    check_used(grammar)
    return grammar


def without_comments(text):
    """The text without what stands after `--` outside of strings."""
    return re.sub(STRING + r"|--[^\n]*", lambda found: "" if found[1] is None else found[0], text)


def unescaped(string):
    return re.sub(r"\\(.)", r"\1", string)


def entries(text, name, pattern):
    """A match of the pattern for each entry of the list of this name."""
    begin = re.search(rf"^{name} =\s*", text, re.MULTILINE)
    if not begin:
        raise GrammarError(f"there is no list `{name}`")
    found, at = [], begin.end()
    while not text.startswith("[]", at):
        entry = pattern.match(text, at)
        if not entry:
            raise GrammarError(f"in the list `{name}` this is no entry: {text[at:].splitlines()[0]}")
        found.append(entry)
        at = entry.end()
    return found


def check_names(terminals, nonterminals):
    for name, count in Counter(terminals + nonterminals).items():
        if count > 1:
            raise GrammarError(f"the name {name} stands more than once among terminals and nonterminals")
    if not terminals or terminals[-1] != END:
        raise GrammarError(f"the last terminal is not {END}, which stands for the end")


def read_line(line, make, terminals, nonterminals):
    """The rule of a line `NAME = PARTS`."""
    left, *parts = line.split(" ")
    if parts[:1] != ["="] or len(parts) < 2 or "" in parts:
        raise GrammarError(f"the line `{line}` is not of the form `NAME = PARTS`, with one part or more")
    if left not in nonterminals:
        raise GrammarError(f"the line `{line}`: {left} is not among the nonterminals")
    right = tuple(read_part(part, line, terminals, nonterminals) for part in parts[1:])
    if COUNTS[make[0]] != len(right):
        raise GrammarError(f"the line `{line}` has {len(right)} parts, and what it makes is of {make[0].lower()}")
    return Rule(nonterminals.index(left), right, make, line)


def read_part(part, line, terminals, nonterminals):
    if part in nonterminals:
        return Symbol(False, nonterminals.index(part), 0)
    name = "'" + part[1:] if part[0] == "^" else part
    if name not in terminals:
        raise GrammarError(f"the line `{line}`: {part} is neither a nonterminal nor a terminal")
    if name == END:
        raise GrammarError(f"the line `{line}`: {END} stands for the end, and in no line")
    return Symbol(True, terminals.index(name), int(part[0] == "^"))


def check_whole(rules):
    """Rule 0 is that of the whole, which stands nowhere else."""
    if not rules:
        raise GrammarError("there are no lines")
    if len(rules[0].right) != 1 or rules[0].right[0].is_terminal:
        raise GrammarError(f"the first line, `{rules[0].text}`, does not have one nonterminal as its part")
    whole = Symbol(False, rules[0].left, 0)
    for rule in rules[1:]:
        if rule.left == whole.number or whole in rule.right:
            raise GrammarError(f"the line `{rule.text}`: the left side of the first line stands here again")


def check_used(grammar):
    """Each nonterminal has a rule, and stands in what comes of the whole."""
    for name, sides in zip(grammar.nonterminals, grammar.sides):
        if not sides:
            raise GrammarError(f"the nonterminal {name} is undefined: no line has it as its left side")
    used, waiting = {grammar.whole}, [grammar.whole]
    while waiting:
        for number in grammar.sides[waiting.pop()]:
            parts = {part.number for part in grammar.rules[number].right if not part.is_terminal}
            waiting += parts - used
            used |= parts
    for number, name in enumerate(grammar.nonterminals):
        if number not in used:
            raise GrammarError(f"the nonterminal {name} is unused: nothing that comes of the first line has it")
