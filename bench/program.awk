# Prints a program of at most so many bytes whose names are sound: kinds of entries, each with a function of three branches.
BEGIN {
    main = "let fun main (Any -> Int) _ -> 0\n"
    printf "%s", main
    n = 1 + length(main)
    for (i = 1; n <= bytes; i++) {
        one = sprintf("type Name%d = <name>String;;\n", i)
        one = one sprintf("type Entry%d = <entry id=Int>[Name%d String?];;\n", i, i)
        one = one sprintf("let fun total%d ([Entry%d*] -> Int; Int -> Int)\n", i, i)
        one = one "  | [<entry id=n>[_ x::_?] rest::_*] -> if n < 10 && n >= 0 then n * 2 + "
        one = one sprintf("total%d rest else (match x with [] -> n | _ -> n div 3)\n", i)
        one = one "  | { label = l; size = (s := 0) } -> let total = l.size + s in [total \"a\" 'bc' !l.items]\n"
        one = one "  | n -> n - 1;;\n"
        n += length(one)
        if (n <= bytes) printf "%s", one
    }
}
