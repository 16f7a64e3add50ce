# Prints a program whose first function has a large pattern, or many: `what` says of which kind, and `count` how large.

# each number from 1 to `count` in the place of `#` in the text, with another text between
function row(text, between,    i, one, all) {
    for (i = 1; i <= count; i++) {
        one = text
        gsub("#", i, one)
        all = all (i > 1 ? between : "") one
    }
    return all
}

function repeated(text,    i, all) {
    for (i = 1; i <= count; i++) all = all text
    return all
}

# the sequences of exactly this many numbers 0 to 2, one by one, each after a text
function of_length(length_left, before,    digit, all) {
    if (length_left == 0) return " | [" before " ]"
    for (digit = 0; digit < 3; digit++) all = all of_length(length_left - 1, before " " digit)
    return all
}

BEGIN {
    if (what == "elements") {
        printf "%s type All = %s\n", row("type E# = <e#>[Int*]", "\n"), row("E#", "|")
        printf "let fun main (All -> Int) %s -> 0\n", row("<e#>x", " -> 0 | ")
    } else if (what == "items") {
        printf "type Ints = [Int*] let fun main (Ints -> Int) [%s rest::Int*] -> 0 | _ -> 0\n", row("(x# & Int)", " ")
    } else if (what == "union") {
        printf "let fun main (Int -> Int) (%s) -> 0 | _ -> 0\n", row("(x & #)", " | ")
    } else if (what == "refused") {
        printf "type Pairs = (Int, Int) let fun main (Pairs -> Int) %s -> 0 | (x, y) -> 0\n", row("(1, #)", " -> 0 | ")
    } else if (what == "nested") {
        printf "let fun main (Any -> Int) %sx%s -> 0 | _ -> 0\n", repeated("("), repeated(", 0)")
    } else if (what == "alternatives") {
        printf "let fun main (Data -> Int) [(%s)* 'a'] -> 0 | _ -> 0\n", row("x#::Int", " | ")
    } else if (what == "intervals") {
        printf "let fun main (Data -> Int) [(%s)* 'a'] -> 0 | _ -> 0\n", row("x::0--#", " | ")
    } else if (what == "unions") {
        printf "let fun main (Any -> Int) %sx%s -> 0\n", repeated("("), repeated(" & Any | x)")
    } else if (what == "tests") {
        printf "let fun main (Any -> Int) %s(x & Int)%s -> 0\n", repeated("("), repeated(" | x)")
    } else if (what == "optional") {
        printf "let fun main ([Int*] -> Data) [%s] -> 0 | _ -> 0\n", row("x#::Int?", " ")
    } else if (what == "optional elements") {
        printf "let fun main ([<a>_*] -> Data) [%s] -> 0 | _ -> 0\n", row("x#::<a>_?", " ")
    } else if (what == "optional tags") {
        printf "let fun main ([%s] -> Data) [%s] -> 0\n", row("<a#>_?", " "), row("x#::<a#>_?", " ")
    } else if (what == "chain") {
        printf "let fun main (Int -> Int) x%s -> x\n", repeated(" & Int")
    } else if (what == "listed") {
        for (i = 1; i <= count; i++) all = all of_length(i, "")
        printf "let fun main ([%s] -> []%s) x -> x\n", repeated("(0--2)? "), all
    }
}
