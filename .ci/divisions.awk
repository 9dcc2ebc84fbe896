# The divisions and remainders in the code of the files, and the calls by which there could be one elsewhere; .ci/sources runs it. It prints
# each, and then fails. The code is what .ci/code.awk makes of a line.

function refuse(why) {
    print "sources: " FILENAME ":" FNR ": " why
    found = 1
}

{
    code = code_of($0)
    if (code ~ /\//) refuse("a division")
    if (code ~ /%/) refuse("a remainder")
    sub(/fn +[a-z_0-9]+\(/, "", code)
    if (code ~ /[A-Za-z_0-9>]\(/) refuse("a call")
}

END { exit found }
