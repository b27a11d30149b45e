# Reads the code of functions as rattle writes it out, a token a line, for tests/widths: follows the calls from the functions in -v roots, and
# tells each number of more than -v most bits on that path that is no index and no refusal's place. Printed: 'path FUNCTION' for each function
# of the path, and 'wide FUNCTION: WHAT'; nothing where there is no code.
# A wider number may have a literal added, taken off or multiplied with it, be an index or a refusal's place, or go to a function of the
# path, which is looked at like the others: so no count, flag or branch comes from it. A form that is not named here is told as well.

BEGIN { hands_on = "^std::(prelude::(ResultTry::branch|ResultFromResidualErrResidual::from_residual)|option::Option::map|below::core::bool::then_some)$" }

{ token[++tokens] = $0 }

# plain NAME: without the module of the kit in front; a function where the name is its symbol.
function plain(name,    alias) {
    if (name in made) return name
    alias = name
    sub(/\..*/, "", alias)
    if (!(alias in used)) return name
    sub(/^[^.]*\./, "", name)
    if (used[alias] !~ /^Rattle\./) return name
    alias = used[alias]
    if (name != "name" || alias !~ /^Rattle\.[a-z0-9_.]+\.proofs\..*\.Symbol$/) return name
    sub(/^Rattle\./, "", alias)
    sub(/\.proofs\./, ".", alias)
    sub(/\.Symbol$/, "", alias)
    gsub(/\./, "::", alias)
    return alias
}

# A term becomes a tree: kids[n] of the node n, kid[n, 1] its head, or text[n]; of a record, field[n, NAME]. Round brackets hold one term, or
# the entries of a tuple.
function part(    n, name) {
    if (token[at] == "(") {
        n = ++nodes
        kids[n] = 1
        kid[n, 1] = ++nodes
        text[kid[n, 1]] = "tuple"
        while (at < tokens && token[at] != ")") {
            at++
            if (token[at] != ")") kid[n, ++kids[n]] = term()
        }
        at++
        return kids[n] == 2 ? kid[n, 2] : n
    }
    if (token[at] == "record" && token[at + 1] == "{") {
        text[n = ++nodes] = "record"
        for (at += 2; at < tokens && token[at] != "}"; at++) {
            name = token[at]
            at += 2
            field[n, name] = term()
        }
        at++
        return n
    }
    name = plain(token[at++])
    if (name in made) return made[name]
    text[n = ++nodes] = name
    return n
}

function term(    n, first) {
    first = part()
    if (token[at] ~ /^([),};]|abbrev|module|use)$/ || at > tokens) return first
    n = ++nodes
    kids[n] = 1
    kid[n, 1] = first
    while (at <= tokens && token[at] !~ /^([),};]|abbrev|module|use)$/) kid[n, ++kids[n]] = part()
    return n
}

function head(n) {
    return text[n] != "" ? text[n] : text[kid[n, 1]]
}

function told(what) {
    if (!((name, what) in said)) print "wide " name ": " what
    said[name, what] = 1
}

# width TYPE: the bits of a number's type; 0 of any other.
function width(t) {
    return head(t) ~ /^ty_(int|float)$/ ? bits(kid[t, 2]) : 0
}

# bits NAME: of a width, as w32 or binary32.
function bits(n,    name) {
    name = text[n]
    sub(/^(w|binary)/, "", name)
    return name + 0
}

# is_list NODE: an entry, and behind it the rest.
function is_list(n) {
    return head(n) ~ /^(◌∷◌|tcons|ttcons)$/
}

# symbol BYTES: the name that they spell.
function symbol(list,    name) {
    for (; is_list(list); list = kid[list, 3]) name = name sprintf("%c", text[kid[list, 2]] + 0)
    return name
}

# type_of TYPE: a named type's name, else what it is.
function type_of(t) {
    return head(t) == "ty_named" ? symbol(kid[kid[t, 2], 2]) : head(t)
}

# Every number in a type, an array's entries or a named type's fields.
function look_type(t, what,    i) {
    if (width(t) > most) told(what " has a number of " width(t) " bits")
    for (i = 2; i <= kids[t]; i++) look_type(kid[t, i], what)
}

# The named types of a function: a list of (NAME, KINDS, fields or variants). A refusal's place is wider.
function each_type(list,    named) {
    for (; is_list(list); list = kid[list, 3]) {
        named = symbol(kid[kid[list, 2], 2])
        made_of[named] = kid[kid[kid[list, 2], 4], 2]
        if (named != refusal) look_type(kid[kid[list, 2], 4], named)
    }
}

# The types of its locals: one that is a whole number may be wider, and is_wide tells it where it is used.
function each_local(list,    i) {
    delete local
    for (i = 0; is_list(list); list = kid[list, 3]) {
        local[i] = kid[kid[list, 2], 2]
        if (head(local[i]) != "ty_int") look_type(local[i], "a local")
        i++
    }
}

# nth LIST I: its entry, from 0 on.
function nth(list, i) {
    for (; i > 0; i--) list = kid[list, 3]
    return kid[list, 2]
}

# type_at PLACE: the type of what is there; 0 of the number that tells which variant it is. A variant's fields count from 1.
function type_at(place,    t, way, step, fields) {
    t = local[text[kid[place, 2]]]
    fields = 0
    for (way = kid[place, 3]; is_list(way); way = kid[way, 3]) {
        step = kid[way, 2]
        if (head(step) == "deref") t = kid[step, 2]
        else if (head(step) == "variant") fields = nth(made_of[type_of(t)], text[kid[step, 2]])
        else if (head(step) != "field") told("a step " head(step) ", which this check does not know")
        else if (!fields) t = nth(made_of[type_of(t)], text[kid[step, 2]])
        else {
            t = text[kid[step, 2]] > 0 ? nth(fields, text[kid[step, 2]] - 1) : 0
            fields = 0
        }
    }
    return t
}

# is_wide OPERAND: a literal or what is at a place.
function is_wide(o,    place) {
    if (literal(o) || head(o) == "float") return bits(kid[o, 2]) > most
    if (head(o) ~ /^opd_(true|false|unit)$/) return 0
    place = head(o) == "place" ? o : kid[o, 2]
    if (head(o) ~ /^(copy|place)$/ && head(place) == "place") return width(type_at(place)) > most
    told("an operand " head(o) ", which this check does not know")
    return 0
}

function none_wide(o, what) {
    if (is_wide(o)) told(what)
}

function literal(o) {
    return head(o) ~ /^int(_neg|_big)?$/
}

function look_op2(op, a, b,    name_of) {
    name_of = head(op)
    if (name_of == "offset") return none_wide(a, "an address made from a wider number")
    if (name_of ~ /^(add|sub|mul)$/ && (is_wide(a) || is_wide(b))) {
        if (!literal(a) && !literal(b)) told(name_of " of two numbers of more than " most " bits")
        return
    }
    none_wide(a, name_of " of a wider number")
    none_wide(b, name_of " of a wider number")
}

function look_value(v, to,    list) {
    if (head(v) == "rv_opd") {
        if (is_wide(kid[v, 2]) && !is_wide(to)) told("a wider number kept as another")
    } else if (head(v) == "op1") {
        none_wide(kid[v, 3], head(kid[v, 2]) " of a wider number")
        if (head(kid[v, 2]) !~ /^(cast|bit_not|float_from_bits|float_to_bits)$/) told("an operation " head(kid[v, 2]) ", which this check does not know")
    } else if (head(v) == "op2") {
        look_op2(kid[v, 2], kid[v, 3], kid[v, 4])
    } else if (head(v) == "aggregate") {
        for (list = kid[v, 2]; is_list(list); list = kid[list, 3])
            if (type_of(type_at(to)) != refusal) none_wide(kid[list, 2], "a wider number in a value that is no refusal")
    } else if (head(v) == "addr_of") {
        none_wide(kid[v, 2], "the address of a wider number")
    } else told("a value " head(v) ", which this check does not know")
}

# reach FUNCTION: it is on the path.
function reach(name) {
    if (name in reached) return
    reached[name] = 1
    path[++reaching] = name
}

# A generic function stands at the head of its types. The calls of the library that are known hand on what they are given: each function and
# closure that is passed on anywhere is on the path with them. A method of a bound is one of trait Readable, the only trait: each of its
# implementations.
function look_call(s,    list, called, other) {
    called = head(kid[s, 2])
    if (called ~ hands_on) {
        for (other in item) if (other ~ /\+Fn(Once|Mut)?::call(_once|_mut)?$/) reach(other)
    } else if (called == "method") {
        for (other in item) if (other ~ /Readable::[a-z_]+$/) reach(other)
    } else if (called !~ /::/) told("a call " head(kid[s, 2]) ", which this check does not know")
    else if (!(called in item)) told("a call of " called ", whose code was not written out")
    else reach(called)
    for (list = kid[s, 3]; is_list(list); list = kid[list, 3]) is_wide(kid[list, 2])
}

function look(s,    form) {
    form = head(s)
    if (form == "seq") {
        look(kid[s, 2])
        look(kid[s, 3])
    } else if (form == "assign") {
        look_value(kid[s, 3], kid[s, 2])
    } else if (form == "call") {
        look_call(s)
    } else if (form == "cond") {
        none_wide(kid[s, 2], "a branch on a wider number")
        look(kid[s, 3])
        look(kid[s, 4])
    } else if (form == "switch") {
        none_wide(kid[s, 2], "a branch on a wider number")
        look(kid[s, 3])
    } else if (form == "arm") {
        look(kid[s, 3])
        look(kid[s, 4])
    } else if (form == "lend_static") {
        look_type(kid[s, 3], "a constant")
        look_type(kid[s, 4], "a constant")
    } else if (form !~ /^(return|skip|no_default)$/) told("a statement " form ", which this check does not know")
}

# The modules of the listing, 'module FUNCTION' and what rattle wrote into it: use lines, and definitions 'abbrev pub NAME : TYPE NAME = TERM'.
# The one that counts is `function`: a record, or 'spell_fn TABLE RECORD', with the table of its named types.
function modules(    name) {
    for (at = 1; at <= tokens;) {
        if (token[at] == "module") {
            name = token[at + 1]
            at += 2
            split("", used)
            split("", made)
        } else if (token[at] == "use") {
            if (token[at + 2] == "as") {
                used[token[at + 3]] = token[at + 1]
                at += 4
            } else {
                match(token[at + 1], /[^.]*$/)
                used[substr(token[at + 1], RSTART)] = token[at + 1]
                at += 2
            }
        } else if (token[at] == "abbrev") {
            defined = token[at + 2]
            while (at < tokens && token[at] != "=") at++
            at++
            made[defined] = term()
            if (defined == "function") {
                item[name] = made[defined]
                functions++
            }
        } else {
            print "wide " name ": the text " token[at] ", which this check does not know"
            at++
        }
    }
}

END {
    modules()
    if (!functions) exit
    refusal = "refusal::Refusal"
    n = split(roots, root, " ")
    for (i = 1; i <= n; i++) reach(root[i])
    for (i = 1; i <= reaching; i++) {
        name = path[i]
        print "path " name
        if (!(name in item)) { told("its code was not written out"); continue }
        it = item[name]
        split("", made_of)
        if (head(it) == "spell_fn") {
            each_type(kid[it, 2])
            it = kid[it, 3]
        }
        if (head(it) != "record") { told("a function " head(it) ", which this check does not know"); continue }
        each_local(field[it, "locals"])
        look(field[it, "body"])
        # Its closures: the functions of the modules below fn and its own name.
        inner = name
        sub(/::/, "::fn::", inner)
        for (other in item) if (index(other, inner "::") == 1) reach(other)
    }
}
