# The code of a source, for .ci/divisions.awk and .ci/ways.awk. Comments, attributes, contracts (the braces behind requires and ensures)
# and what is used in these (ghost) are left out.

function code_of(text,   code, c) { # of the line that is being read
    if (FNR == 1) hiding = 0
    sub(/\/\/.*/, "", text)
    sub(/^ *ghost [^;]*;/, "", text)
    while (text != "") {
        if (!hiding) {
            if (!match(text, /#!?\[|(^|[^A-Za-z_0-9])(requires|ensures)\*?( +[A-Za-z_0-9]+)? *\{/)) break
            c = substr(text, RSTART, 1)
            code = code substr(text, 1, RSTART - 1) (c ~ /[#re]/ ? "" : c)
            opens = substr(text, RSTART + RLENGTH - 1, 1)
            closes = opens == "{" ? "}" : "]"
            text = substr(text, RSTART + RLENGTH)
            hiding = 1
        }
        c = substr(text, 1, 1)
        text = substr(text, 2)
        hiding += (c == opens) - (c == closes)
    }
    return code text
}
