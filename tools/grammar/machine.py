"""The LR machine over the statics of crates/cd_grammar/src/tables.rt, for tests."""
import re

READ = "read"
WRONG = "wrong"
DEEP = "too deep"
ENDLESS = "nothing"
MOST_STEPS = 1000


class Machine:
    """The tables of a text of Rust."""

    def __init__(self, text):
        self.terminals = int(re.search(r"const TERMINALS: usize = (\d+);", text)[1])
        self.nonterminals = int(re.search(r"const NONTERMINALS: usize = (\d+);", text)[1])
        self.actions, self.gotos, self.lefts, self.lengths = (
            numbers(text, name) for name in ["ACTIONS", "GOTOS", "LEFTS", "LENGTHS"])
        self.used = set()

    def answer(self, tokens, most):
        """What is said of the terminals where so many levels may be open: a word, and the number of a token."""
        stack, at, wanted = [(0, most)], 0, tokens + [self.terminals - 1]
        for _ in range(MOST_STEPS * len(wanted)):
            state, room = stack[-1]
            entry = state * self.terminals + wanted[at]
            action = self.actions[entry]
            self.used.add(entry)
            if action >= 2000:
                rule = action - 2000
                del stack[-self.lengths[rule]:]
                state, room = stack[-1]
                stack.append((self.gotos[state * self.nonterminals + self.lefts[rule]], room))
            elif action >= 2:
                opens = action % 2
                if opens > room:
                    return DEEP, at
                stack.append((action // 2 - 1, room - opens))
                at += 1
            else:
                return (READ, at) if action else (WRONG, at)
        return ENDLESS, at


def numbers(text, name):
    """The entries of a static."""
    count, entries = re.search(rf"static {name}: \[u16; (\d+)\] = \[([^]]*)\]", text).groups()
    found = [int(entry) for entry in entries.replace(",", " ").split()]
    if len(found) != int(count):
        raise ValueError(f"{name} has {len(found)} entries and not {count}")
    return found
