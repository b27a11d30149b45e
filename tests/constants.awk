# Looks up the changes of tests/constants.txt in the sources, for tests/constants: PATTERN=.. awk -f tests/constants.awk tests/constants.txt
# Each edit's text must occur just once in its file, after the edits before it in its line. White space is folded on both sides.
# Printed: what no longer fits, a line each, then 'N passed, M failed', N changes. A PATTERN that picks no line is a failure.

function folded(text) {
    gsub(/[ \t\n]+/, " ", text)
    return text
}

# stored FILE: its text; nothing where there is no such file.
function stored(file,    line, text) {
    if (file in read) return read[file]
    while ((getline line < ("crates/" file)) > 0) text = text line "\n"
    close("crates/" file)
    return read[file] = folded(text)
}

# expanded TEXT WHICH: the text with each {{OLD=>NEW/OTHER}} as OLD (WHICH 0), NEW (1) or OTHER (2).
function expanded(text, which,    out, at, inside, arrow) {
    while (at = index(text, "{{")) {
        out = out substr(text, 1, at - 1)
        text = substr(text, at + 2)
        at = index(text, "}}")
        inside = substr(text, 1, at - 1)
        text = substr(text, at + 2)
        arrow = index(inside, "=>")
        if (which == 0) inside = substr(inside, 1, arrow - 1)
        else {
            inside = substr(inside, arrow + 2)
            at = index(inside, "/")
            if (at) inside = which == 1 ? substr(inside, 1, at - 1) : substr(inside, at + 1)
        }
        out = out inside
    }
    return folded(out text)
}

# fits EDIT WHICH: makes one edit in the line's own copy of a file, or says what is wrong in `wrong`.
function fits(edit, which,    file, old, at, rest) {
    file = edit
    sub(/: .*/, "", file)
    edit = substr(edit, length(file) + 3)
    if (!(file in changed)) changed[file] = stored(file)
    if (changed[file] == "") { wrong = "there is no crates/" file; return 0 }
    old = expanded(edit, 0)
    at = index(changed[file], old)
    if (!at) { wrong = "crates/" file " has no text \047" old "\047"; return 0 }
    rest = substr(changed[file], at + length(old))
    if (index(rest, old)) { wrong = "crates/" file " has the text \047" old "\047 more than once"; return 0 }
    changed[file] = substr(changed[file], 1, at - 1) expanded(edit, which) rest
    return 1
}

# change WHICH: all edits of a line.
function change(which,    i) {
    split("", changed)
    for (i = 2; i <= edits; i++) {
        if (edit[i] ~ /^try: / || fits(edit[i], which)) continue
        print edit[1] ": " wrong
        return 0
    }
    return 1
}

/^(#|$)/ { next }

{ edits = split($0, edit, / @ /) }

edit[1] ~ ENVIRON["PATTERN"] {
    picked++
    most = $0 ~ /\{\{[^}]*=>[^}]*\// ? 2 : 1
    for (which = 1; which <= most; which++) if (change(which)) passed++; else { failed++; break }
}

END {
    if (!picked) { print "No line of tests/constants.txt has a name that PATTERN picks: " ENVIRON["PATTERN"] "."; failed++ }
    print passed + 0 " passed, " failed + 0 " failed"
    exit failed > 0
}
