"""The LALR(1) automaton of a grammar without empty productions.

An item is a rule with a dot in its right side, as a pair of numbers. A set of terminals is a number with a bit
for each. A state is its kernel: the items with the dot past 0, and at state 0 that of the whole. Each further
item of a state has the dot at 0, and its lookaheads depend on its left side alone, so that a state says them for
each nonterminal that is begun there.
"""
from collections import deque

from rules import GrammarError

SHOWN_TERMINALS = 12


class State:
    """A state, with the lookaheads of its items."""

    def __init__(self, items):
        self.kernel = dict.fromkeys(items, 0)
        self.begun = {}
        self.moves = {}
        self.path = ()

    def shifts(self):
        """The moves by terminals, in order."""
        return [(symbol, to) for symbol, to in sorted(self.moves.items()) if symbol.is_terminal]

    def gotos(self):
        """The moves by nonterminals, in order."""
        return [(symbol, to) for symbol, to in sorted(self.moves.items()) if not symbol.is_terminal]


class Automaton:
    """The states of a grammar, and what it has of each nonterminal."""

    def __init__(self, grammar):
        self.grammar = grammar
        self.heights = heights(grammar)
        self.chains = chains(grammar)
        self.firsts = firsts(grammar)
        self.states = states(grammar)
        self.find_lookaheads()
        self.check_conflicts()

    def after_dot(self, item):
        """What stands right of the dot."""
        rule, dot = item
        return self.grammar.rules[rule].right[dot:]

    def first_of(self, symbol):
        return 1 << symbol.number if symbol.is_terminal else self.firsts[symbol.number]

    def find_lookaheads(self):
        """Hands lookaheads on from state to state until no set grows."""
        self.states[0].kernel[0, 0] = 1 << self.grammar.finish
        waiting = deque(range(len(self.states)))
        while waiting:
            state = self.states[waiting.popleft()]
            self.begin(state)
            for symbol, to in state.moves.items():
                if self.hand_on(state, symbol, self.states[to].kernel) and to not in waiting:
                    waiting.append(to)

    def begin(self, state):
        """The nonterminals that are begun at the state, each with its lookaheads."""
        waiting = list(state.kernel.items())
        while waiting:
            item, mask = waiting.pop()
            after = self.after_dot(item)
            if not after or after[0].is_terminal:
                continue
            number = after[0].number
            mask = self.first_of(after[1]) if after[1:] else mask
            if mask & ~state.begun.get(number, 0):
                state.begun[number] = state.begun.get(number, 0) | mask
                waiting += [((rule, 0), state.begun[number]) for rule in self.grammar.sides[number]]

    def items(self, state):
        """All items of the state with their lookaheads."""
        yield from state.kernel.items()
        for number, mask in state.begun.items():
            for rule in self.grammar.sides[number]:
                yield (rule, 0), mask

    def hand_on(self, state, symbol, kernel):
        """Whether a set of the kernel grew by the lookaheads of the items that move there."""
        grew = False
        for (rule, dot), mask in self.items(state):
            if self.after_dot((rule, dot))[:1] == (symbol,) and mask & ~kernel[rule, dot + 1]:
                kernel[rule, dot + 1] |= mask
                grew = True
        return grew

    def reduces(self, state):
        """The rules that are read at the state, with their lookaheads."""
        return sorted((item[0], mask) for item, mask in state.kernel.items() if not self.after_dot(item))

    def places(self, state):
        """For each nonterminal that is begun a rank above that of an item that wants it, and that item."""
        found, waiting = {}, deque((item, 0) for item in sorted(state.kernel))
        while waiting:
            item, rank = waiting.popleft()
            after = self.after_dot(item)
            if after and not after[0].is_terminal and after[0].number not in found:
                found[after[0].number] = rank + 1, item
                waiting += [((rule, 0), rank + 1) for rule in self.grammar.sides[after[0].number]]
        return found

    def check_conflicts(self):
        found = [text for number in range(len(self.states)) for text in self.conflicts(number)]
        if found:
            raise GrammarError("\n".join(["the grammar is not LALR(1)"] + found))

    def conflicts(self, number):
        """A text for each pair of actions at the state that have a terminal in common."""
        state = self.states[number]
        shifts, reduces = state.shifts(), self.reduces(state)
        for index, (rule, mask) in enumerate(reduces):
            for other, other_mask in reduces[index + 1:]:
                if mask & other_mask:
                    yield self.conflict(number, mask & other_mask, [self.reduce_text(rule), self.reduce_text(other)])
            both = [symbol for symbol, _ in shifts if mask >> symbol.number & 1]
            if both:
                common = sum(1 << symbol.number for symbol in both)
                yield self.conflict(number, common, [self.reduce_text(rule)] + self.shift_texts(state, both))
        for (symbol, _), (other, _) in zip(shifts, shifts[1:]):
            if symbol.number == other.number:
                yield self.conflict(number, 1 << symbol.number, self.shift_texts(state, [symbol, other]))

    def conflict(self, number, mask, actions):
        names = self.terminals_in(mask)
        shown = " ".join(names[:SHOWN_TERMINALS]) + (" ..." if names[SHOWN_TERMINALS:] else "")
        path = " ".join(self.grammar.name(symbol) for symbol in self.states[number].path)
        return "\n".join([f"state {number}, after `{path}`, before {shown}:"] + ["  " + text for text in actions])

    def terminals_in(self, mask):
        return [name for number, name in enumerate(self.grammar.terminals) if mask >> number & 1]

    def reduce_text(self, rule):
        return "reduce  " + self.item_text((rule, len(self.grammar.rules[rule].right)))

    def shift_texts(self, state, symbols):
        items = [item for item, _ in self.items(state) if set(self.after_dot(item)[:1]) & set(symbols)]
        return ["shift   " + self.item_text(item) for item in items]

    def item_text(self, item):
        rule = self.grammar.rules[item[0]]
        parts = [self.grammar.name(part) for part in rule.right]
        return " ".join([self.grammar.nonterminals[rule.left], "="] + parts[:item[1]] + ["·"] + parts[item[1]:])


def states(grammar):
    """The states without lookaheads, by number, in the order in which they are reached from state 0."""
    found, numbers = [State([(0, 0)])], {((0, 0),): 0}
    for state in found:
        kernels = {}
        for rule, dot in cores(grammar, state):
            right = grammar.rules[rule].right
            if dot < len(right):
                kernels.setdefault(right[dot], []).append((rule, dot + 1))
        for symbol, items in sorted(kernels.items()):
            kernel = tuple(sorted(items))
            if kernel not in numbers:
                numbers[kernel] = len(found)
                found.append(State(kernel))
                found[-1].path = state.path + (symbol,)
            state.moves[symbol] = numbers[kernel]
    return found


def cores(grammar, state):
    """All items of the state."""
    items, begun = list(state.kernel), set()
    for rule, dot in items:
        for part in grammar.rules[rule].right[dot:dot + 1]:
            if not part.is_terminal and part.number not in begun:
                begun.add(part.number)
                items += [(number, 0) for number in grammar.sides[part.number]]
    return items


def firsts(grammar):
    """For each nonterminal the terminals that it may begin with."""
    found, before = [0] * len(grammar.nonterminals), None
    while found != before:
        before = list(found)
        for rule in grammar.rules:
            part = rule.right[0]
            found[rule.left] |= 1 << part.number if part.is_terminal else found[part.number]
    return found


def heights(grammar):
    """For each nonterminal a number above those in one of its rules, and that rule."""
    found, before = {}, -1
    while len(found) != before:
        before = len(found)
        for number, rule in enumerate(grammar.rules):
            parts = [part.number for part in rule.right if not part.is_terminal]
            if rule.left not in found and all(part in found for part in parts):
                found[rule.left] = 1 + max((found[part][0] for part in parts), default=0), number
    for number, name in enumerate(grammar.nonterminals):
        if number not in found:
            raise GrammarError(f"no tokens write the nonterminal {name}: each of its rules leads back to such a one")
    return [found[number] for number in range(len(grammar.nonterminals))]


def chains(grammar):
    """For each nonterminal the length of the longest chain from it by rules of one nonterminal, itself counted."""
    found = [0] * len(grammar.nonterminals)

    def chain(number, above):
        if number in above:
            names = [grammar.nonterminals[one] for one in above[above.index(number):] + (number,)]
            raise GrammarError("a nonterminal leads back to itself by rules of one part: " + " = ".join(names))
        if not found[number]:
            rights = [grammar.rules[rule].right for rule in grammar.sides[number]]
            next_ones = [right[0].number for right in rights if len(right) == 1 and not right[0].is_terminal]
            found[number] = 1 + max((chain(one, above + (number,)) for one in next_ones), default=0)
        return found[number]

    for number in range(len(found)):
        chain(number, ())
    return found
