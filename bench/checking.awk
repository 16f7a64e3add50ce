# Prints a program that has types and is dear to check: `what` says of which kind, and `count` how large.
# Of `schema` the input is a file of declarations, and the program has a branch for each type of elements in it.

# each number from 1 to `count` in the place of `#` in the text, with another text between
function row(text, between,    i, one, all) {
    for (i = 1; i <= count; i++) {
        one = text
        gsub("#", i, one)
        all = all (i > 1 ? between : "") one
    }
    return all
}

function repeated(text,    i, all) {
    for (i = 1; i <= count; i++) all = all text
    return all
}

# functions of ten lines, as a user writes them
function functions() {
    print "type Name = <name>String;;"
    print "type Phone = <phone kind=(\"home\" | \"work\")>String;;"
    print "type Line = <line>String;;"
    print "let fun main (Int -> Int) x -> x;;"
    print row("type Entry# = <entry# id=Int>[Name Phone* <note>String?];;\n" \
        "let fun show# ([Entry#*] -> [Line*])\n" \
        "  entries -> transform entries with\n" \
        "      <entry# id=n>[<name>name phones::Phone* <note>text] ->\n" \
        "        let total = n * 2 + 1 in\n" \
        "        if total > 100\n" \
        "        then [<line>(name @ \": \" @ text) !(transform phones with <phone ..>p -> [<line>p])]\n" \
        "        else [<line>name]\n" \
        "    | <entry# id=n>[<name>name _*] ->\n" \
        "        match n with 0 -> [] | _ -> [<line>(name @ string_of n)];;", "\n")
}

what == "schema" {
    if ($1 == "type" && $4 ~ /^</) names[++found] = $2
    print
}

END {
    if (what == "functions") {
        functions()
    } else if (what == "matches") {
        print "let fun main (Int -> Int) x -> " repeated("let x = match x with 0--9 -> x | _ -> x in ") "x"
    } else if (what == "arrows") {
        print "let fun f (" row("#--" count " -> {x#=Int ..}", "; ") ") x -> {" row("x#=x", "; ") "}"
        print "let fun main (1--" count " -> Int) x -> (f x).x1"
    } else if (what == "fields") {
        print "let fun f ({" row("x#=?Int", "; ") "} -> {" row("x#=?(Int | Char)", "; ") "} -> {" row("x#=?(Int | Char)", "; ") "})"
        print "  r -> (fun ({" row("x#=?(Int | Char)", "; ") "} -> {" row("x#=?(Int | Char)", "; ") "}) s -> r + s)"
        print "let fun main (Int -> Int) x -> x"
    } else if (what == "sum") {
        print "let fun main (Int -> Int) x -> " repeated("x + ") "x"
    } else if (what == "schema") {
        printf "type AnyElement = %s", names[1]
        for (i = 2; i <= found; i++) printf " | %s", names[i]
        printf "\nlet fun main ([AnyElement*] -> [String*]) all -> transform all with"
        for (i = 1; i <= found; i++) printf "\n  %s %s -> [\"%s\"]", (i > 1 ? "|" : ""), names[i], names[i]
        print ""
    }
}
