#!/usr/bin/env python3
"""Prints two tree automata as type declarations: so many states as the word says, each with three random pairs of states and an atom. A
state of the second one, B0 and so on, has one pair more than that of the first, A0 and so on, so each is within it."""
import random
import sys

count = int(sys.argv[1])
random.seed(count)
pairs = [[(random.randrange(count), random.randrange(count)) for _ in range(4)] for _ in range(count)]
for name, kept in (("A", 3), ("B", 4)):
    for state in range(count):
        members = ["(%s%d, %s%d)" % (name, first, name, second) for first, second in pairs[state][:kept]]
        print("type %s%d = %s" % (name, state, " | ".join(members + ["`leaf%d" % (state % 3)])))
