# Looks up the chains of tests/claims.txt, for tests/claims. Read in this order: the sources (*.rt), the definitions (*.antt), the table.
# Printed a claim: its line's number, a tab, and the texts that its sum is taken of; or the number, '!' and what is wrong, with tabs, the
# number 0 being the table as a whole.
# A file of specs/ is named CRATE/FILE, a definition CRATE/FILE:NAME, a function CRATE::NAME. In texts white space is folded.

function folded(text) {
    gsub(/[ \t\n]+/, " ", text)
    sub(/^ /, "", text)
    sub(/ $/, "", text)
    return text
}

# no_comment LINE: without its comment; antt's begin with --, Rattle's with //.
function no_comment(line) {
    if (rattle) sub(/\/\/.*/, "", line); else sub(/(^|[ \t])--([ \t].*)?$/, "", line)
    return line
}

# module_of PATH: CRATE/FILE of 'Rattle.CRATE.specs.FILE'.
function module_of(path,    name) {
    if (path !~ /^Rattle\.[a-z0-9_]+\.specs\../) return ""
    sub(/^Rattle\./, "", path)
    name = path
    sub(/\..*/, "", name)
    sub(/^[^.]*\.specs\./, "", path)
    gsub(/\./, "/", path)
    return name "/" path
}

# take_import STATEMENT: the names that a use statement brings into the file, each with the definition behind it.
function take_import(statement,    path, list, n, i, name, alias) {
    statement = folded(statement)
    sub(/;$/, "", statement)
    sub(/^(ghost )?use /, "", statement)
    path = statement
    sub(/(\.\{| as ).*/, "", path)
    path = module_of(path)
    if (path == "") return
    if (statement ~ /\{/) {
        sub(/^[^{]*\{ ?/, "", statement)
        sub(/,? ?\}$/, "", statement)
        n = split(statement, list, /, ?/)
        for (i = 1; i <= n; i++) {
            name = alias = list[i]
            sub(/ as .*/, "", name)
            sub(/.* as /, "", alias)
            import[file, alias] = path ":" name
        }
    } else if (statement ~ / as /) {
        sub(/.* as /, "", statement)
        inside[file, statement] = path
    }
}

# behind FILE WORD: the definition that a word stands for in a file, or nothing. Behind a dot stands a field, or a name of the module in
# front.
function behind(from, word,    parts, n) {
    n = split(word, parts, ".")
    if (n > 1 && (from, parts[1]) in inside) word = inside[from, parts[1]] ":" parts[2]
    else if ((from ":" parts[1]) in text_of) return from ":" parts[1]
    else if ((from, parts[1]) in import) word = import[from, parts[1]]
    else return ""
    return word in text_of ? word : ""
}

# cited FILE TEXT NAME SELF: the definition of this name among those that a text cites, other than the text's own.
function cited(from, text, name, self,    words, n, i, d) {
    n = split(text, words, /[^A-Za-z0-9_\047.-]+/)
    for (i = 1; i <= n; i++) {
        d = behind(from, words[i])
        if (d != "" && d != self && (words[i] == name || substr(d, length(file_of[d]) + 2) == name)) return d
    }
    return ""
}

# A proposition: a type that states something of numbers, of states or of lists, itself or by one that it cites.
function proposition(d,    words, n, i, c) {
    if (d in stated) return stated[d]
    stated[d] = 0
    if (text_of[d] !~ /Type 0/) return 0
    if (text_of[d] ~ /≡|≤|<|↔|⊥/) return stated[d] = 1
    n = split(text_of[d], words, /[^A-Za-z0-9_\047.-]+/)
    for (i = 1; i <= n; i++) {
        c = behind(file_of[d], words[i])
        if (c != "" && c != d && proposition(c)) return stated[d] = 1
    }
    return 0
}

# header_end TEXT: where a function's body begins, past the braces of its clauses; 0 where that is not read yet.
function header_end(text,    i, n, c, depth, clause) {
    n = length(text)
    for (i = 1; i <= n; i++) {
        c = substr(text, i, 1)
        if (c == "{") {
            if (!depth && substr(text, 1, i - 1) !~ /(requires|ensures)\*?( [a-z_0-9]+)?[ \n]*$|ghost [a-z_0-9]+:[ \n]*$/) return i
            depth++
        } else if (c == "}") depth--
        else if (c == ";" && !depth && text !~ /\[[^\]]*;/) return i
    }
    return 0
}

# ensured HEADER: what stands in the braces of its ensures clauses.
function ensured(text,    out, i, n, c, depth) {
    while (match(text, /ensures\*?( [a-z_0-9]+)? ?\{/)) {
        text = substr(text, RSTART + RLENGTH)
        n = length(text)
        depth = 1
        for (i = 1; i <= n && depth; i++) {
            c = substr(text, i, 1)
            depth += (c == "{") - (c == "}")
        }
        out = out " " substr(text, 1, i - 2)
        text = substr(text, i)
    }
    return out
}

function take_function(    end, name) {
    end = header_end(head)
    if (!end) return
    head = folded(substr(head, 1, end - 1))
    name = head
    sub(/^pub fn /, "", name)
    sub(/[^A-Za-z0-9_].*/, "", name)
    name = crate "::" name
    if (!(name in header) || FILENAME ~ /\/lib\.rt$/) {
        header[name] = head
        source[name] = file
    }
    head = ""
}

function wrong(line, what) {
    print line "\t!\t" what
}

# One claim of the table.
function claim(line, text,    chain, n, i, d, next_d, texts) {
    sub(/^[0-9a-f]+ /, "", text)
    if (text !~ / \| ./) { wrong(line, "a claim has a sentence behind ' | '"); return }
    sub(/ \| .*/, "", text)
    if (text in seen) { wrong(line, text " stands in line " seen[text] " too"); return }
    seen[text] = line
    n = split(text, chain, / > /)
    if (!(chain[1] in header)) { wrong(line, "there is no public function " chain[1]); return }
    if (n < 2) { wrong(line, "no claim is named behind " chain[1]); return }
    d = cited(source[chain[1]], ensured(header[chain[1]]), chain[2], "")
    if (d == "") { wrong(line, "the contract of " chain[1] " does not name " chain[2]); return }
    texts = header[chain[1]] " " text_of[d]
    listed[d] = chain[1]
    for (i = 3; i <= n; i++) {
        next_d = cited(file_of[d], text_of[d], chain[i], d)
        if (next_d == "") { wrong(line, "the definition of " chain[i - 1] " does not name " chain[i]); return }
        d = next_d
        texts = texts " " text_of[d]
        listed[d] = chain[1]
    }
    print line "\t" texts
}

# unlisted FILE TEXT WHO: the propositions that a text cites and that no claim leads to.
function unlisted(from, text, who,    words, n, i, d) {
    n = split(text, words, /[^A-Za-z0-9_\047.-]+/)
    for (i = 1; i <= n; i++) {
        d = behind(from, words[i])
        if (d == "" || d in listed || d in told || !proposition(d)) continue
        told[d] = 1
        wrong(0, "no claim leads to " d ", which " who " cites")
    }
}

FNR == 1 {
    split(FILENAME, part, "/")
    crate = part[2]
    rattle = FILENAME ~ /\.rt$/
    table = FILENAME ~ /\.txt$/
    file = FILENAME
    if (!rattle && !table) {
        sub(/^crates\/[^\/]*\/specs\//, "", file)
        sub(/\.antt$/, "", file)
        file = crate "/" file
    }
    statement = head = current = ""
}

table {
    if ($0 !~ /^(#|$)/) claim(FNR, $0)
    next
}

{ line = no_comment($0) }

statement != "" || line ~ /^(ghost )?use / {
    statement = statement " " line
    if (statement ~ /[;}][ \t]*$/ || (!rattle && statement !~ /\{/)) {
        take_import(statement)
        statement = ""
    }
    current = ""
    next
}

rattle {
    if (head == "" && line ~ /^[ \t]*pub fn /) head = line
    else if (head != "") head = head "\n" line
    else next
    sub(/^[ \t]+/, "", head)
    take_function()
    next
}

# A definition: from its declaration to the next one.
/^(abbrev|unfoldable|opaque|pub|record|data) / {
    current = line
    sub(/^((abbrev|unfoldable|opaque|pub|record|data) )+/, "", current)
    sub(/[ \t].*/, "", current)
    current = file ":" current
    file_of[current] = file
    text_of[current] = ""
}

current != "" { text_of[current] = folded(text_of[current] " " line) }

END {
    for (d in listed) unlisted(file_of[d], text_of[d], d)
    for (f in header) unlisted(source[f], ensured(header[f]), "the contract of " f)
}
