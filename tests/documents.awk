# Reads the paths of a tree, as find prints them, and then its documents: see tests/documents.

function complain(text) {
    print "documents: " text
    failed++
}

function limit(file) {
    if (file == "README.md") return 120
    if (file == "docs/PERFORMANCE.md") return 150
    return file == "CONTRIBUTING.md" || file ~ /^docs\/requests\// ? 60 : 0
}

# Characters of UTF-8, not bytes: the first byte of each.
function width(line) {
    gsub(/[\200-\277]/, "", line)
    return length(line)
}

# Whether a path, perhaps with *, is one of the tree's.
function there(path,    pattern, p) {
    if (path !~ /\*/) return path in tree
    pattern = path
    gsub(/[.+]/, "[&]", pattern)
    gsub(/\*+/, "[^/]*", pattern)
    for (p in tree) if (p ~ ("^" pattern "$")) return 1
    return 0
}

function folder(file) {
    return sub(/\/[^\/]*$/, "/", file) ? file : ""
}

# Whether it is in one of the places that a document may mean.
function somewhere(path) {
    return there(path) || there("crates/" path) || there("crates/*/" path) || there(folder(FILENAME) path)
}

# A word of a text in backquotes: is it a path, and is it there?
function look(word) {
    sub(/^\(?(\.\/)?/, "", word)
    sub(/\/?[.,;:)]*$/, "", word)
    if (word !~ /^[A-Za-z0-9_.+*\/-]+$/ || word ~ /^(target|\.\.)?\//) return
    if (word ~ /^crates\/[A-Za-z0-9_*]+\/out(\/|$)/) return
    while (match(word, /\/(CRATE|NAME)(\/|\.|$)/)) sub(/\/(CRATE|NAME)/, "/*", word)
    if (word ~ /^(crates|tests|docs|bench|examples|\.ci)\//) {
        if (!there(word)) complain(FILENAME ":" FNR ": " word " is not there")
    } else if (word ~ /\/[^\/]*\.[a-z]+$/ && !somewhere(word))
        complain(FILENAME ":" FNR ": " word " is in no place that it could be from")
}

function words(text,    n, word, i) {
    n = split(text, word, " ")
    for (i = 1; i <= n; i++) look(word[i])
}

# A text in backquotes can go on in the next line, but not past an empty one.
function spans(line,    n, part, i) {
    if (line ~ /^ *```/) fenced = !fenced
    else if (fenced) words(line)
    if (fenced || line ~ /^ *(```.*)?$/) {
        inside = 0
        return
    }
    n = split(line, part, "`")
    for (i = 1; i <= n; i++) {
        if (i > 1) inside = !inside
        if (inside) words(part[i])
    }
}

FNR == 1 { documents++; inside = fenced = 0 }
documents == 1 { sub(/^\.\//, ""); tree[$0]; next }
limit(FILENAME) && FNR == limit(FILENAME) + 1 { complain(FILENAME ":" FNR ": longer than " limit(FILENAME) " lines") }
width($0) > 100 { complain(FILENAME ":" FNR ": " width($0) " columns, and 100 are allowed") }
/(^|[^A-Za-z])(TODO|TBD|XXX|FIXME|[A-Z]+_(TIME|TIMES|FIGURE))([^A-Za-z]|$)|@@/ { complain(FILENAME ":" FNR ": a mark for something to write") }
{ spans($0) }

END {
    if (failed) exit 1
    print "documents: " documents - 1 " documents, in their bounds"
    print "passed " documents - 1
}
