#!/usr/bin/env python3
"""Writes the tables of the grammar that crates/cd_grammar/specs says in lines (TreeRules, ProgramRules, Rules): as data
of the logic (specs/Tables.antt) and as Rust statics (src/tables.rt)."""
import argparse
import sys
from pathlib import Path

sys.dont_write_bytecode = True

import antt
import lalr
import rules
import rust

TOP = Path(__file__).resolve().parents[2]
RULES = [f"crates/cd_grammar/specs/{name}.antt" for name in ["TreeRules", "ProgramRules", "Rules"]]
DATA = "crates/cd_grammar/specs/Tables.antt"
STATICS = "crates/cd_grammar/src/tables.rt"


def text_of(name):
    return (TOP / name).read_text(encoding="utf-8")


def read_grammar():
    return rules.read("".join(text_of(name) for name in RULES))


def read_automaton():
    return lalr.Automaton(read_grammar())


def outputs(automaton):
    """The text of each file that is generated."""
    return {DATA: antt.write(automaton), STATICS: rust.write(automaton)}


def differing(texts):
    """The files that are not there, or hold something else."""
    return [name for name, text in texts.items() if not (TOP / name).exists() or text_of(name) != text]


def summary(automaton):
    grammar, states = automaton.grammar, automaton.states
    moves = sum(len(state.moves) for state in states)
    return (f"{len(grammar.rules)} rules, {len(grammar.terminals)} terminals, "
            f"{len(grammar.nonterminals)} nonterminals, {len(states)} states, {moves} moves")


def main():
    parser = argparse.ArgumentParser(description=__doc__)
    parser.add_argument("--check", action="store_true", help="write nothing, and fail where a file would change")
    words = parser.parse_args()
    try:
        automaton = read_automaton()
        texts = outputs(automaton)
    except (rules.GrammarError, OSError) as error:
        sys.exit(f"generate.py: {error}")
    stale = differing(texts)
    if words.check and stale:
        sys.exit("\n".join(f"generate.py: {name} is not what the lines give: run generate.py" for name in stale))
    for name in stale:
        (TOP / name).write_text(texts[name], encoding="utf-8")
    print(summary(automaton))
    print(f"written: {', '.join(stale)}" if stale else "the files are up to date")


if __name__ == "__main__":
    main()
