#!/usr/bin/env python3
"""Tests the tables of the grammar: that the files are what generate.py writes; that the machine over the statics and
an Earley recognizer of the grammar in docs/LANGUAGE.md say the same of tokens, random ones and some for each state;
that the machine needs as many levels as are open; and that generate.py refuses wrong grammars."""
import argparse
import random
import sys
import time

sys.dont_write_bytecode = True

import earley
import ebnf
import generate
import lalr
import language
import machine
import rules

PAGE = "docs/LANGUAGE.md"
SHOWN = 10

# How functions at random begin, and how many tokens that is; in parentheses stands what a level is open in.
FUNCTION = '"let" "fun" Variable ( "(" ( TypeName "->" TypeName ) ")" )'
FIXED = 8

# rules that make random tokens besides those of the page: sequences, since few types have one, and what stands in a
# function
RULES = {
    "Items": '"[" Reg "]"',
    "Branching": f"{FUNCTION} Branches",
    "Giving": f'{FUNCTION} Variable "->" Expr',
    "Taking": f'{FUNCTION} Union\' "->" Variable',
    "TakingItems": f'{FUNCTION} "[" Reg\' "]" "->" Variable',
}

# what a text of random tokens is to be, the rule that makes them, and how many at the front are always the same
MADE = [("TypeText", "Tree", 0), ("TypeText", "Items", 0), ("TypeText", "Items", 0), ("TypeFile", "File", 0),
        ("ProgramText", "Program", 0), ("ProgramText", "Branching", FIXED), ("ProgramText", "Giving", FIXED),
        ("ProgramText", "Giving", FIXED), ("ProgramText", "Taking", FIXED), ("ProgramText", "TakingItems", FIXED),
        ("ProgramText", "TakingItems", FIXED)]


class Test:
    """The readers, and the differences that were found."""

    def __init__(self, seed, length):
        self.grammar = generate.read_grammar()
        self.machine = machine.Machine(generate.text_of(generate.STATICS))
        self.language = language.read(generate.text_of(PAGE))
        self.recognizer = earley.Recognizer(self.language)
        self.chance = random.Random(seed)
        self.length = length
        made = {name: language.rule(name, text) for name, text in RULES.items()}
        self.of_page = ebnf.Deriver({**self.language, **made}, self.chance)
        self.of_lines = ebnf.Deriver(language.of_lines(self.grammar), self.chance)
        self.numbers = {name: number for number, name in enumerate(self.grammar.terminals)}
        goals = set(language.STARTS)
        self.tokens = [name for name in self.grammar.terminals[:-1] if name not in goals]
        self.usual = sorted({token for state in self.recognizer.states for token, _ in state[1]})
        self.differences = []

    def differ(self, what, tokens):
        self.differences.append(f"{what}: {' '.join(tokens)}")

    def answer(self, tokens, most):
        return self.machine.answer([self.numbers[name] for name in tokens], most)

    def edited(self, tokens, fixed):
        """The tokens with some edits after those that are fixed, or none."""
        tokens = list(tokens)
        for _ in range(self.chance.choice([0, 1, 1, 1, 2, 3])):
            edit = self.chance.choice([self.replace, self.drop, self.insert, self.swap, self.cut])
            edit(tokens, self.chance.randint(fixed, len(tokens)))
        return tokens

    def any_token(self):
        return self.chance.choice(self.chance.choice([self.usual, self.usual, self.tokens]))

    def replace(self, tokens, at):
        tokens[at:at + 1] = [self.any_token()]

    def drop(self, tokens, at):
        del tokens[at:at + 1]

    def insert(self, tokens, at):
        tokens.insert(at, self.any_token())

    def swap(self, tokens, at):
        tokens[at:at + 2] = tokens[at:at + 2][::-1]

    def cut(self, tokens, at):
        del tokens[at:]

    def both_read(self, goal, tokens):
        """Whether both readers accept, which is returned, and else which token is the first wrong one."""
        wrong = self.recognizer.first_wrong(language.STARTS[goal], tokens)
        wanted = (machine.READ, len(tokens) + 1) if wrong is None else (machine.WRONG, wrong + 1)
        found = self.answer([goal] + tokens, len(tokens))
        if found != wanted:
            self.differ(f"the machine says {found}, and Earley's algorithm {wanted}", [goal] + tokens)
        return wrong is None

    def compare(self, count):
        """Both readers on tokens at random."""
        accepted = 0
        for _ in range(count):
            goal, name, fixed = self.chance.choice(MADE)
            derived = [token for token, _ in self.of_page.derive(name, fixed + self.chance.randint(1, self.length))]
            accepted += self.both_read(goal, self.edited(derived, fixed)[:fixed + self.length])
        return f"{count} token lists at random, {accepted} of them accepted"

    def each_state(self, states):
        """Both readers on tokens that lead to each state, and then each token or none."""
        count = accepted = 0
        for state in states[1:]:
            path = [self.grammar.name(part).replace("^", "'") for part in state.path]
            goal, *tokens = [token for name in path for token in self.least(name)]
            for more in [[], *([token] for token in self.tokens)]:
                accepted += self.both_read(goal, tokens + more)
                count += 1
        return f"{count} token lists by states, {accepted} of them accepted"

    def least(self, name):
        """Tokens of a part of a path, as few as can be."""
        if name in self.numbers:
            return [name]
        return [token for token, _ in self.of_lines.derive(name, 0)]

    def depth(self, count):
        """Whether the machine finds tokens too deep where more levels are open than it has."""
        most = 0
        for number in range(count):
            goal, name, fixed = self.chance.choice(MADE)
            wanted = self.chance.randint(1, 2 * self.length)
            if number % 2:
                derived = [(goal, 0)] + self.of_page.derive(name, fixed + wanted)
            else:
                derived = self.of_lines.derive(self.grammar.nonterminals[self.grammar.whole], wanted)
            tokens, levels = zip(*derived)
            for room in range(max(levels) + 1):
                too_deep = [at for at, level in enumerate(levels) if level > room]
                wanted = (machine.DEEP, too_deep[0]) if too_deep else (machine.READ, len(tokens))
                found = self.answer(tokens, room)
                if found != wanted:
                    self.differ(f"with {room} levels the machine says {found}, and it is {wanted}", tokens)
            most = max(most, max(levels))
        return f"{count} derivations, with up to {most} levels"

    def used(self):
        """How much of the tables was used, and which rules were not."""
        actions = self.machine.actions
        rules_used = {actions[entry] - 2000 for entry in self.machine.used if actions[entry] >= 2000} | {0}
        unused = [rule.text for number, rule in enumerate(self.grammar.rules) if number not in rules_used]
        entries = sum(1 for entry in self.machine.used if actions[entry])
        lines = [f"used {entries} of {sum(map(bool, actions))} actions that do not refuse, "
                 f"and {len(rules_used)} of {len(self.grammar.rules)} rules"]
        return "\n".join(lines + [f"  not `{text}`" for text in unused])


# lines, terminals and nonterminals of wrong grammars, and words of what is to be said of each; those with a `~` stand
# where types and patterns do
WRONG = [
    (["S = A", "A = 'a A", "A = A 'a", "A = 'a"], "'a $", "S A", "not LALR(1)"),
    (["S = A", "A = B", "A = C", "B = 'a", "C = 'a"], "'a $", "S A B C", "reduce  C = 'a ·"),
    (["S = A", "A = ^a 'b", "A = 'a 'c"], "'a 'b 'c $", "S A", "shift   A = · ^a 'b"),
    (["S = A", "A = 'a"], "'a $", "S A B", "B is undefined"),
    (["S = A", "A = 'a", "B = 'a"], "'a $", "S A B", "B is unused"),
    (["S = A", "A = 'a", "B = 'a"], "'a $", "S A", "B is not among the nonterminals"),
    (["S = A", "A = 'b"], "'a $", "S A", "'b is neither"),
    (["S = A", "A = a"], "'a $", "S A", "a is neither"),
    (["S = A", "A = $"], "'a $", "S A", "stands for the end"),
    (["S = A", "A = 'a"], "$ 'a", "S A", "the last terminal"),
    (["S = A", "A = 'a"], "'a 'a $", "S A", "more than once"),
    (["S = A", "A ="], "'a $", "S A", "not of the form"),
    (["S = A", "A = 'a S"], "'a $", "S A", "here again"),
    (["S = A 'a", "A = 'a"], "'a $", "S A", "one nonterminal"),
    (["S = A", "A = 'a A"], "'a $", "S A", "no tokens write"),
    (["S = A", "A = B", "A = 'a", "B = A"], "'a $", "S A B", "A = B = A"),
    (["S = A", "A = 'a 'a 'a 'a 'a 'a 'a"], "'a $", "S A", "has 7 parts, and what it makes is of six"),
    (["S = B", "B = A", "B = A'", "A~ = 'a"], "'a $", "S B A~", "reduce  A' = 'a ·"),
    (["S = A", "A~ = 'a"], "'a $", "S A~", "A' is unused"),
    (["S = A", "A~ = B~", "B = 'a"], "'a $", "S A~ B", "B' is neither"),
]


def count(line):
    """How many parts what a line makes is of: as many as the line has, as far as there is such a word."""
    words = list(rules.COUNTS)
    return words[min(max(len(line.split()) - 2, 1), len(words)) - 1]


def listed(name, entries):
    return f"{name} =\n    " + " ∷ ".join([*entries, "[]"]) + "\n"


def placed(name):
    """In which lists a line or a nonterminal of a wrong grammar stands."""
    return "tree" if "~" in name else "start"


def refused(lines, terminals, nonterminals):
    """What is said of a grammar, or None."""
    text = listed("terminals", [f'codes "{name}"' for name in terminals.split()])
    for kind in ["start", "tree", "word", "pattern", "program"]:
        text += listed(f"{kind}_lines", [f'"{line}" ⟼ {count(line)} That' for line in lines if placed(line) == kind])
        text += listed(f"{kind}_names", [f'codes "{name}"' for name in nonterminals.split() if placed(name) == kind])
    try:
        lalr.Automaton(rules.read(text))
        return None
    except rules.GrammarError as error:
        return str(error)


def wrong_grammars():
    """A text for each wrong grammar of which not that is said which is to be said."""
    return [f"of the lines {lines} it is said: {refused(lines, *names)}"
            for lines, *names, words in WRONG if words not in (refused(lines, *names) or "")]


def run(words):
    """What is wrong, a text for each."""
    automaton = generate.read_automaton()
    stale = generate.differing(generate.outputs(automaton))
    test = Test(words.seed, words.length)
    print(f"seed {words.seed}")
    print(test.compare(words.count))
    print(test.each_state(automaton.states))
    print(test.depth(words.count))
    print(test.used())
    print(f"{len(test.differences)} differences")
    problems = [f"{name} is not what the lines give" for name in stale]
    return problems + wrong_grammars() + test.differences[:SHOWN]


def main():
    parser = argparse.ArgumentParser(description=__doc__)
    parser.add_argument("--count", type=int, default=2000, help="how many token lists and derivations")
    parser.add_argument("--seed", type=int, default=1)
    parser.add_argument("--length", type=int, default=12,
                        help="the greatest length of a token list at random, without the tokens that are always the same")
    begin = time.monotonic()
    try:
        problems = run(parser.parse_args())
    except (rules.GrammarError, ValueError, OSError) as error:
        problems = [str(error)]
    print(f"{time.monotonic() - begin:.1f} seconds")
    if problems:
        sys.exit("\n".join(f"test.py: {problem}" for problem in problems))


if __name__ == "__main__":
    main()
