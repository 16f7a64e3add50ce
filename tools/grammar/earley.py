"""An Earley recognizer of grammars in EBNF: where tokens stop being of a form."""
from ebnf import Choice, Name, Repeat, Row, Token


class Network:
    """Places with arrows between them, each for a token, for a name, or for nothing."""

    def __init__(self, nullable):
        self.nullable = nullable
        self.free = []
        self.named = []

    def place(self):
        self.free.append([])
        self.named.append([])
        return len(self.free) - 1

    def lead(self, part, begin):
        """The place to which the part leads from this one."""
        end = self.place()
        if isinstance(part, (Token, Name)):
            self.named[begin].append((part, end))
            if part in self.nullable:
                self.free[begin].append(end)
        elif isinstance(part, Row):
            for one in part.parts:
                begin = self.lead(one, begin)
            self.free[begin].append(end)
        elif isinstance(part, Choice):
            for one in part.parts:
                self.free[self.lead(one, begin)].append(end)
        else:
            self.free[begin].append(end)
            self.free[self.lead(part.part, end)].append(end)
        return end

    def reached(self, places):
        """All places that are reached from these for nothing."""
        found, waiting = set(places), list(places)
        while waiting:
            fresh = set(self.free[waiting.pop()]) - found
            found |= fresh
            waiting += fresh
        return frozenset(found)


def says_nothing(part, nullable):
    """Whether the part may be no token, where these names may be."""
    if isinstance(part, Row):
        return all(says_nothing(one, nullable) for one in part.parts)
    if isinstance(part, Choice):
        return any(says_nothing(one, nullable) for one in part.parts)
    return isinstance(part, Repeat) or part in nullable


def nullable_names(rules):
    found, before = set(), None
    while found != before:
        before = set(found)
        found |= {Name(name) for name, part in rules.items() if says_nothing(part, found)}
    return found


class Recognizer:
    """States by number: the rule, arrows for tokens and for names, and whether the rule may end there."""

    def __init__(self, rules):
        self.states = []
        self.begins = {}
        nullable = nullable_names(rules)
        for name, part in rules.items():
            self.begins[name] = self.add_rule(name, part, nullable)

    def add_rule(self, name, part, nullable):
        """Adds the states of a rule: the sets of places of its network that some parts lead to."""
        network = Network(nullable)
        begin = network.place()
        end = network.lead(part, begin)
        first, sets = len(self.states), [network.reached([begin])]
        for places in sets:
            arrows = {}
            for place in sorted(places):
                for one, to in network.named[place]:
                    arrows.setdefault((isinstance(one, Token), one.name), set()).add(to)
            tokens, names = {}, []
            for (is_token, word), ends in arrows.items():
                reached = network.reached(ends)
                if reached not in sets:
                    sets.append(reached)
                if is_token:
                    tokens[word] = first + sets.index(reached)
                else:
                    names.append((word, first + sets.index(reached)))
            self.states.append((name, list(tokens.items()), names, end in places))
        return first

    def first_wrong(self, start, tokens):
        """The number of the first token with which no text begins, of the end where it comes too soon, or None."""
        rows, items = [], [(self.begins[start], 0)]
        for number in range(len(tokens) + 1):
            closed, shifts, waiting = self.close(rows, items, number)
            rows.append(waiting)
            if number < len(tokens):
                items = shifts.get(tokens[number])
                if not items:
                    return number
        ends = [self.states[state] for state, origin in closed if origin == 0]
        return None if any(rule == start and may_end for rule, _, _, may_end in ends) else len(tokens)

    def close(self, rows, items, number):
        """All items before a token; where each token leads, and where each name does that began here."""
        closed, work, shifts, waiting = set(items), list(items), {}, {}

        def add(item):
            if item not in closed:
                closed.add(item)
                work.append(item)

        while work:
            state, origin = work.pop()
            rule, tokens, names, may_end = self.states[state]
            for token, to in tokens:
                shifts.setdefault(token, []).append((to, origin))
            for name, to in names:
                waiting.setdefault(name, []).append((to, origin))
                add((self.begins[name], number))
            if may_end and origin < number:
                for item in rows[origin].get(rule, ()):
                    add(item)
        return closed, shifts, waiting
