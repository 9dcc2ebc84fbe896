# The ways that a crate's code has to memory and disk; .ci/sources runs it. It prints each that is not allowed, and then fails.
# -v crate=NAME -v below='NAME..': the crate, and those that it depends on
# -v receivers='PATH..': the functions of other crates that may get the whole memory or disk
# -v fetch=PATH -v calls=N: the function that gets a page, and how often the crate calls it
# -v constants='PATH..': what else the crate memory may be asked for
# -v shut='NAME..': crates of which nothing is called
# Files: the sources of all crates. Of another crate's only the calls into this one are looked at.
#
# In the crate, memory and disk have these names from its entry to the last function that gets them. The name stands as a parameter, as a
# whole argument, or in `.len()`, and nowhere else: no byte or part is taken, and nothing else stands for either. A function of the
# crate gets it as a parameter of the same name, and nothing else as such a parameter; of other crates, the receivers alone get it.
# The code is what .ci/code.awk makes of a line.

function listed(name, names) { return index(" " names " ", " " name " ") > 0 }

function refuse(at, why) { # at 0: of the crate as a whole
    print "sources: " (at ? place[at] : crate) ": " why
    found = 1
}

function take(text) { # the words of some code
    while (match(text, /[A-Za-z_0-9]+|::|[^ \t]/)) {
        word[++words] = substr(text, RSTART, RLENGTH)
        place[words] = FILENAME ":" FNR
        own[words] = here
        text = substr(text, RSTART + RLENGTH)
    }
}

function is_buffer(name) { return name == "memory" || name == "disk" }

function start_of(at) { # where the path that ends there begins
    while (word[at - 1] == "::") at -= 2
    return at
}

function path(from, to,   text) {
    for (text = ""; from <= to; from++) text = text word[from]
    return text
}

function declare(at,   name, depth, n) { # the function whose name stands there: which of its parameters are memory and disk
    name = word[at]
    declared[name]++
    n = 1
    depth = 0
    do {
        at++
        if (word[at] ~ /^[[(]$/) depth++
        else if (word[at] ~ /^[])]$/) depth--
        else if (word[at] == "," && depth == 1) n++
        else if (is_buffer(word[at]) && word[at + 1] == ":") parameter[name, declared[name], n] = word[at]
    } while (depth > 0 && at < words)
}

function first_of(called) {
    sub(/::.*/, "", called)
    return called
}

function look_at_call(at, called, n,   name, i, j) { # n arguments were given
    if (listed(called, receivers)) return
    name = called
    sub(/.*::/, "", name)
    if (!declared[name] || listed(first_of(called), below) || used[first_of(called)]) {
        for (i = 1; i <= n; i++)
            if (given[level, i]) refuse(at, given[level, i] " is handed to " called)
        return
    }
    for (i = 1; i <= declared[name]; i++)
        for (j = 1; j <= n; j++)
            if (parameter[name, i, j] != given[level, j])
                refuse(at, "argument " j " of " called " is not of the parameter's name, where one is memory or disk")
}

function open_at(at,   from) {
    level++
    opened[level] = at
    callee[level] = ""
    arguments[level] = 1
    for (from = 1; from <= 16; from++) given[level, from] = ""
    if (word[at] != "(" || word[at - 1] !~ /^[A-Za-z_]/) return
    from = start_of(at - 1)
    callee[level] = word[from - 1] == "fn" ? "fn" : path(from, at - 1)
}

function close_at(at,   called) {
    called = callee[level]
    if (called != "" && called != "fn" && (own[at] || first_of(called) == crate)) look_at_call(opened[level], called, arguments[level])
    level--
}

function look_at_buffer(at) { # the name stands there, and not as a crate's
    if (word[at + 1] == ":" && callee[level] == "fn" && path(at + 2, at + 6) ~ /^&(mut)?\[u8\]/) return
    if (path(at + 1, at + 4) == ".len()") return
    if (word[at - 1] ~ /^[(,]$/ && word[at + 1] ~ /^[,)]$/ && callee[level] != "" && callee[level] != "fn") {
        given[level, arguments[level]] = word[at]
        uses += own[at]
        return
    }
    if (own[at]) refuse(at, word[at] " is more than a parameter, a whole argument or .len()")
}

function look_at_path(at,   to) { # a crate's name stands there, and ::
    for (to = at; word[to + 1] == "::"; ) to += 2
    if (own[at] && listed(word[at], shut)) refuse(at, "a way into " word[at])
    if (own[at] && word[at] == "memory" && !listed(path(at, to), constants) && !(listed(path(at, to), receivers) && word[to + 1] == "("))
        refuse(at, path(at, to) " is not one of the names listed")
    if (own[at] && word[at] == first_of(fetch)) {
        if (path(at, to) == fetch && word[to + 1] == "(") fetches++
        else refuse(at, path(at, to) " is not a call of " fetch)
    }
    if (!own[at] && word[at] == crate) {
        if (word[to + 1] == "(" && word[at - 1] != "::") entries++
        else if (word[to] !~ /^[A-Z_0-9]+$/) refuse(at, path(at, to) " is not a call of it, and no constant")
    }
}

function look_at_use(at,   from) { # a name of another crate's stays that crate's
    for (from = at + 1; word[at] != ";" && at < words; at++) {
        if (word[at] == "as") refuse(at, path(from, at - 1) " under another name")
        if (listed(word[at], shut)) refuse(at, "use of " path(from, at))
        if (listed(word[from], below)) used[word[at]] = 1
    }
}

FNR == 1 {
    here = index(FILENAME, "crates/" crate "/src/") > 0
    files += here
}

{
    if (here && $0 ~ /\/\*/) hidden = 1
    take(code_of($0))
}

END {
    for (i = 1; i <= words; i++) {
        if (own[i] && word[i] == "fn") declare(i + 1)
        if (own[i] && word[i] == "use") look_at_use(i)
    }
    for (i = 1; i <= words; i++) {
        if (word[i] ~ /^[[({]$/) open_at(i)
        else if (word[i] ~ /^[])}]$/) close_at(i)
        else if (word[i] == ",") arguments[level]++
        else if (word[i] ~ /^[a-z]/ && word[i + 1] == "::" && word[i - 1] != "::") look_at_path(i)
        else if (is_buffer(word[i])) look_at_buffer(i)
    }
    if (level != 0) refuse(0, "brackets do not match")
    if (hidden) refuse(0, "a comment that does not begin with //")
    if (fetches + 0 != calls) refuse(0, "calls of " fetch ": " fetches + 0)
    if (!entries) refuse(0, "nothing calls it")
    print "sources: " crate ": " files + 0 " files, " uses + 0 " times memory or disk as an argument, " fetches + 0 " calls of " fetch
    exit found
}
