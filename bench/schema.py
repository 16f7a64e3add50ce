#!/usr/bin/env python3
"""Prints type declarations of two versions of a schema, `Old` and `New`: 425 kinds of elements with 30 attributes each, in 20 classes
that are unions of 150. A content model names so many classes as the word says, 1 or 2. The later version has one attribute and one
element more, which is in each class, so all of `Old` is within `New`, and not the other way."""
import random
import sys

ELEMENTS, CLASSES, MEMBERS, ATTRIBUTES = 425, 20, 150, 30


def models(classes):
    """A content model for each element, with `{}` before each name of a class."""
    for _ in range(ELEMENTS):
        names = ["{}C%d" % number for number in random.sample(range(CLASSES), classes)]
        yield "[(%s)*]" % "|".join(names + random.choice([[], ["Char"]]))


def version(name, contents, members, more):
    """The declarations of one version, with so many attributes and elements more."""
    fields = "; ".join("a%d=?String" % number for number in range(ATTRIBUTES + more))
    yield "type %sAttributes = {%s}" % (name, fields)
    for number, content in enumerate(contents + ["[]"] * more):
        yield "type %sE%d = <e%d (%sAttributes)>%s" % (name, number, number, name, content.replace("{}", name))
    added = list(range(ELEMENTS, ELEMENTS + more))
    for number, some in enumerate(members):
        yield "type %sC%d = %s" % (name, number, " | ".join("%sE%d" % (name, one) for one in some + added))
    yield "type %s = %s" % (name, " | ".join("%sE%d" % (name, number) for number in range(ELEMENTS + more)))


def main():
    random.seed(7)
    members = [sorted(random.sample(range(ELEMENTS), MEMBERS)) for _ in range(CLASSES)]
    contents = list(models(int(sys.argv[1])))
    for name, more in (("Old", 0), ("New", 1)):
        print("\n".join(version(name, contents, members, more)))


if __name__ == "__main__":
    main()
