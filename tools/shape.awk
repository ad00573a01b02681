# Holds the text of must-fail edits to the rule of tools/refusals: a wrong program has the shape of the code.
#
# Each `old:` and `new:` text is cut into words, and each word counts as one of a kind. Over the pairs of one
# `wrong:` line the new texts have to have as many of each kind as the old. Within a kind a word may become another.
#
#   a name or number     with path and fields: `s.height`, `Layout::First`, `0x3f`, `b" drop "`, `true`, `k .busy`
#   a two-sided operator  + - * / % & | ^ << >> && || == != < <= > >=, in a definition every sign but = : → λ , |
#   a sign in front      !x -x *x &x
#   a call               f(..), also of a pattern: the bracket behind a name
#   each of              [ { = : :: ; , ? => -> _ a field of a call's answer, += and its like, .. and ..=, each keyword
#
# Round brackets that only group do not count: they say an order.
BEGIN {
    split("as break const continue else enum fn for if impl in let loop match mod move mut pub ref return struct unsafe use while", list, " ")
    for (i in list) keyword[list[i]] = 1
}

function count(kind) { counts[side, kind]++; kinds[kind] = 1; last = kind }

# What stands at the front of `text`, by a pattern: its length, or 0.
function front(pattern) { return match(text, "^(" pattern ")") ? RLENGTH : 0 }

# Whether what was read ends an operand, so that what follows cannot begin one.
function ended() { return last == "name or number" || last == "closed" || last == "?" || last == "field of an answer" }

function shape(whole, definition,   n, word) {
    text = whole
    last = "start"
    while (text != "") {
        if ((n = front("[ \t]+"))) { text = substr(text, n + 1); continue }
        if ((n = front("b?\"([^\"\\\\]|\\\\.)*\""))) count("name or number")
        else if ((n = front("0x[0-9a-fA-F_]+|[0-9][0-9_]*([.][0-9][0-9_]*)?([iuf][0-9]+|[iu]size)?"))) count("name or number")
        else if (definition && (n = front("[.][A-Za-z0-9_]+"))) { if (!ended()) count("field of an answer") }
        else if ((n = front("[.][A-Za-z0-9_]+"))) count("field of an answer")
        else if (definition && (n = front("[A-Za-z_\200-\377][-A-Za-z0-9_'\200-\377]*")) && substr(text, 1, n) ~ /[A-Za-z_0-9]|ℕ|ℤ/) {
            word = substr(text, 1, n)
            count(word == "_" ? "_" : "name or number")
        }
        else if (!definition && (n = front("[A-Za-z_][A-Za-z0-9_]*((::|[.])[A-Za-z0-9_]+)*"))) {
            word = substr(text, 1, n)
            count(word == "_" ? "_" : word in keyword ? word : "name or number")
        }
        else if ((n = front("[(]"))) { if (!definition && ended()) count("call"); last = "opened" }
        else if ((n = front("[[{]"))) count(substr(text, 1, 1))
        else if ((n = front("[])}]"))) last = "closed"
        else if (definition && (n = front("→|λ|[=:,|]"))) count(substr(text, 1, n))
        else if (definition && (n = front("[^][(){}, \t]+"))) count("two-sided operator")
        else if ((n = front("=>|->|::|[;:,?]"))) count(substr(text, 1, n))
        else if ((n = front("[.][.]=?"))) count("..")
        else if ((n = front("(<<|>>|[-+*/%&|^])="))) count("+=")
        else if ((n = front("==|!=|<=|>=|<<|>>|&&|[|][|]|[-+*/%&|^<>!]"))) {
            word = substr(text, 1, n)
            # At the start of a text the space behind it tells `& (b)` from `&b`.
            count(word == "!" || (last == "start" ? substr(text, n + 1, 1) != " " : !ended()) ? "sign in front" : "two-sided operator")
        }
        else if ((n = front("="))) count("=")
        else { n = 1; count(substr(text, 1, 1)) }
        text = substr(text, n + 1)
    }
}

# Tells what the wrong program that ends here adds or drops. One with a line `longer:` adds something, and drops nothing.
function judge(   kind, more, told, added) {
    if (wrong == "") return
    for (kind in kinds) {
        more = counts["new", kind] - counts["old", kind]
        if (more > 0 && longer) added = 1
        else if (more != 0) told = told sprintf("%s %s%d of `%s`", told == "" ? "" : ",", more > 0 ? "+" : "", more, kind)
    }
    if (longer && !added) print place ": " wrong ": it adds nothing, so that its line `longer:` says nothing"
    longer = 0
    if (told != "") print place ": " wrong ": it changes the code's shape:" told
    split("", counts)
    split("", kinds)
    wrong = ""
}

FNR == 1 { judge(); file = ""; place = FILENAME }
/^wrong: / { judge(); wrong = $2; sub(/:$/, "", wrong) }
/^longer: ./ { longer = 1 }
/^file: / { file = $2 }
/^old: / || /^new: / {
    side = substr($0, 1, 3)
    shape(substr($0, 6), file ~ /[.]antt$/ || $0 ~ /[\200-\377]/)
}
/^new:$/ { side = "new" }
END { judge() }
