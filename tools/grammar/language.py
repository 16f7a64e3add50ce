"""The grammar of docs/LANGUAGE.md, for tests: a reading of its own, beside the lines of crates/cd_grammar/specs."""
import re

from ebnf import Choice, Name, Reader, Repeat, Row, Token, words

KINDS = ["Int", "Char1", "CharN", "Text", "Atom", "TypeName", "Variable"]
OPENERS = ["(", "[", "{", "<", "->", "::", "if", "let", "match", "try", "map", "transform", "fun",
           "/", "/@"]
KEYWORDS = ("type let fun in match with if then else try map transform where and div mod not flatten int_of string_of "
            "min_of max_of raise select from").split()
STARTS = {"TypeText": "Tree", "TypeFile": "File", "ProgramText": "Program"}

# How the page notes the forms of patterns, and the rules of programs in which a Union is one of patterns.
MARK = "(pat)"
OF_PATTERNS = ["Rest", "Expr", "Body", "Sources"]

# What the page says in words beside the grammar: the rules that change, and those in their place. Characters are one in
# a type, a constant and an expression, and any number in a group and as an item. Parentheses in a sequence are a type
# (or a pattern) where one can stand in them, which may have signs after it, and else a group. The parenthesis of an
# interface is open up to the closing one, and the arrow of a branch in that branch alone. A further Post begins with no
# `<`, and that of an item with no characters. A label is any word but `_`.
IN_WORDS = {
    "Types": {
        "RItem": 'RBase { ( "&" | "\\" ) Simple }',
        "RBase": 'Bare | Chars | "(" Reg ")" | Paren',
    },
    "Programs": {
        "Function": '"(" Sig { ";" Sig } ")" Branches',
        "Rest": 'Union "->" Expr | Union "->" Body "|" Rest',
        "App": '( "not" | "flatten" | "int_of" | "string_of" | "min_of" | "max_of" | "raise" ) Post | Post { Post }',
        "Item": 'Chars | "!" Post | Post',
    },
}
IN_RULES = {
    "Types": {
        "RItem": 'RType { ( "&" | "\\" ) Simple } | RGroup',
        "RType": "Bare | Paren",
        "RGroup": 'CharN | "(" Reg ")"',
    },
    "Programs": {
        "Function": '( "(" Sig { ";" Sig } ")" ) Branches',
        "Rest": 'Union "->" Expr | ( Union "->" Body ) "|" Rest',
        "App": '( "not" | "flatten" | "int_of" | "string_of" | "min_of" | "max_of" | "raise" ) Post | Post { NPost }',
        "NPost": 'NBase [ Steps ]',
        "Item": 'Char1 | CharN | "!" Post | CPost',
        "CPost": 'CBase [ Steps ]',
    },
}
OF_WORDS = {
    "Chars": "Char1",
    "Label": " | ".join(["TypeName", "Variable"] + [f'"{word}"' for word in KEYWORDS]),
}

# the rules in which no token opens a level: comparisons, and keywords as labels; an `in` opens one in a select alone
FLAT = ["Cmp", "Label"]


def read(page):
    """The rules of the page, by name; the name of a rule of patterns ends with `'`."""
    patterns = section(page, "Types", True)
    rules = section(page, "Types", False)
    rules.update({name + "'": of_patterns(part, patterns) for name, part in patterns.items()})
    for name, part in section(page, "Programs", False).items():
        rules[name] = of_patterns(part, patterns) if name in OF_PATTERNS else part
    rules["NBase"] = without(rules["Base"], Token("'<", 1))
    rules["CBase"] = without(rules["Base"], Name("Chars"))
    rules.update({name: rule(name, text) for name, text in OF_WORDS.items()})
    return rules


def section(page, title, patterns):
    """The rules of a section by name, with the forms of patterns or without them."""
    texts = block(page, title, patterns)
    for name, text in IN_WORDS[title].items():
        if words(texts.pop(name)) != words(text):
            raise ValueError(f"docs/LANGUAGE.md says something else of {name}: see tools/grammar/language.py")
    texts.update(IN_RULES[title])
    return {name: rule(name, text) for name, text in texts.items()}


def block(page, title, patterns):
    """The texts of the rules of a section by name, without the notes at the ends of their lines."""
    lines = re.search(rf"\n## {title}\n.*?\n```\n(.*?)```", page, re.DOTALL)[1].splitlines()
    texts = {}
    for line in lines:
        begin = re.fullmatch(r"(\w+) *= (.*)", line)
        if begin:
            name, line = begin.groups()
        text, *notes = re.split(r" {3,}", line.strip())
        if patterns or not notes or not notes[0].startswith(MARK):
            texts[name] = (texts.get(name, "") + " " + text).strip()
    return texts


def rule(name, text):
    """What a rule says."""
    more = ["in"] if name == "Sources" else []
    return Reader(text, KINDS, [] if name in FLAT else OPENERS + more).whole()


def of_patterns(part, trees):
    """The part, with rules of patterns in the place of those of these names."""
    if isinstance(part, Name):
        return Name(part.name + "'") if part.name in trees else part
    if isinstance(part, Repeat):
        return Repeat(of_patterns(part.part, trees))
    if isinstance(part, (Row, Choice)):
        return type(part)(tuple(of_patterns(one, trees) for one in part.parts))
    return part


def without(choice, wrong):
    """The forms of a choice that do not begin with this part."""
    def begin(part):
        return part.parts[0] if isinstance(part, Row) else part

    return Choice(tuple(part for part in choice.parts if begin(part) != wrong))


def of_lines(grammar):
    """The rules of the lines in the same form."""
    def part(one):
        if one.is_terminal:
            return Token(grammar.terminals[one.number], one.opens)
        return Name(grammar.nonterminals[one.number])

    rows = [Row(tuple(map(part, rule.right))) for rule in grammar.rules]
    return {name: Choice(tuple(rows[rule] for rule in side)) for name, side in zip(grammar.nonterminals, grammar.sides)}
