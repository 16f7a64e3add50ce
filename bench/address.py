#!/usr/bin/env python3
"""address.py FOLDER MEBIBYTES: an address book of about that size, as a document (book.doc), its types (book.cd), and the same as XML (book.xml)
with a schema in RELAX NG (book.rng), for a validator to compare with."""
import os, random, sys

TYPES = """type Book = <book>[Person*]
type Person = <person id=Int kind=?(`friend | `work)>[Name Phone* Email?]
type Name = <name>String
type Phone = <phone>String
type Email = <email>String
"""
SCHEMA = """<grammar xmlns="http://relaxng.org/ns/structure/1.0"><start><element name="book"><zeroOrMore><element name="person">
<attribute name="id"/><optional><attribute name="kind"><choice><value>friend</value><value>work</value></choice></attribute></optional>
<element name="name"><text/></element><zeroOrMore><element name="phone"><text/></element></zeroOrMore>
<optional><element name="email"><text/></element></optional></element></zeroOrMore></element></start></grammar>
"""


def person(chance, number):
    kind = chance.choice(["", "friend", "work"])
    name = "%s %s" % (chance.choice(["Ada", "Grace", "Ed"]), "".join(chance.choice("abcdefgh") for _ in range(chance.randint(3, 12))))
    parts = [("name", name)] + [("phone", str(chance.randint(100, 99999999))) for _ in range(chance.randint(0, 3))]
    if chance.random() < 0.5:
        parts.append(("email", "g%d@navy" % number))
    document = "  <person id=%d%s>[%s]" % (number, " kind=`" + kind if kind else "", " ".join('<%s>"%s"' % part for part in parts))
    attribute = ' kind="%s"' % kind if kind else ""
    xml = '<person id="%d"%s>%s</person>' % (number, attribute, "".join("<%s>%s</%s>" % (tag, text, tag) for tag, text in parts))
    return document, xml


def main():
    folder, size = sys.argv[1], int(float(sys.argv[2]) * (1 << 20))
    chance, document, xml, held, number = random.Random(7), ["<book>["], ["<book>"], 0, 0
    while held < size:
        one, other = person(chance, number)
        document.append(one)
        xml.append(other)
        held += len(one) + 1
        number += 1
    texts = {"book.doc": document + ["]", ""], "book.xml": xml + ["</book>", ""], "book.cd": [TYPES], "book.rng": [SCHEMA]}
    for name, lines in texts.items():
        with open(os.path.join(folder, name), "w") as file:
            file.write("\n".join(lines))


main()
