# Which theorems a document cites (see tests/theorems): the lines of a document, one after the other. `theorem` has the
# names that are listed, `proved` the files of which one is listed, `known` the names that are no theorem's; `cited` gets
# the names that are cited.

function begin_document() {
    inside = fenced = several = table = 0
    between = ""
}

function cite(name) {
    cited[name]
    if (!(name in theorem)) complain(FILENAME ":" FNR ": cites " name ", which is not listed")
}

# A name of several words, as a theorem's is: one that is listed, or one that nothing else has
function is_theorems(text) {
    return text ~ /^[a-z0-9]+([-_][a-z0-9]+)+$/ && (text in theorem || !(text in known))
}

# A text in backquotes, and the text between it and the one before
function span(text, between) {
    several = between ~ /[Tt]heorems *$/ || (several && between ~ /^(,| and|, and) *$/)
    if (several || between ~ /[Tt]heorem *$/ || is_theorems(text)) cite(text)
    else if (table && column in headed && text ~ /^[a-z0-9_]+$/) cite(text)
    if (FILENAME !~ /^(README|docs\/REPLY)\.md$/ || text !~ /^crates\/[a-z_]+\/proofs\/.*\.antt$/) return
    if (!(text in proved)) complain(FILENAME ":" FNR ": cites " text ", of which no theorem is listed")
}

# The first line of a table: which of its columns are headed Theorem
function heading(line,    n, cell, i) {
    split("", headed)
    n = split(line, cell, "|")
    for (i = 2; i <= n; i++) if (cell[i] ~ /^ *Theorems? *$/) headed[i - 1]
}

# A text in backquotes can go on in the next line, but not past an empty one.
function document_line(line,    n, part, i) {
    if (line ~ /^\|/ && !table) heading(line)
    table = line ~ /^\|/
    column = 0
    if (line ~ /^ *```/) fenced = !fenced
    if (fenced || line ~ /^ *(```.*)?$/) {
        inside = 0
        between = ""
        return
    }
    n = split(line, part, "`")
    for (i = 1; i <= n; i++) {
        if (i > 1) turn()
        if (inside) quoted = joined(quoted, part[i])
        else {
            between = between (i == 1 ? " " : "") part[i]
            column += gsub(/\|/, "", part[i])
        }
    }
}

# A backquote
function turn() {
    inside = !inside
    if (inside) quoted = ""
    else {
        span(quoted, between)
        between = ""
    }
}
