# Reads the names that are no theorem's, the lists and then, with citations.awk, the documents (see tests/theorems), and
# each source that a list names, in the layout of rt fmt.

# Each complaint once.
function complain(text) {
    if (text in told) return
    told[text]
    print "theorems: " text
    failed++
}

# A line without its comment. (A comment in braces is refused by `load`.)
function bare(line) {
    sub(/^ *--.*$/, "", line)
    sub(/ -- .*$/, "", line)
    return line
}

function joined(text, line) {
    sub(/^ +/, "", line)
    sub(/ +$/, "", line)
    return text (text == "" || line == "" ? "" : " ") line
}

function indent(line) {
    match(line, /^ */)
    return RLENGTH
}

# An operator without the marks for its arguments' places, as it stands between them.
function plain(name) {
    gsub(/◌/, "", name)
    return name
}

# A name without the fields that are taken of it: store of store.count, and records.Call as it is, whose records is a
# module's name in the file.
function whose(file, word,    own) {
    own = word
    sub(/\..*$/, "", own)
    return ((file, own) in from) && !((file, own) in called) ? word : own
}

# A declaration's text without the parameters around it
function inner(text) {
    while (text ~ /^module / && match(text, / where /)) text = substr(text, RSTART + RLENGTH)
    return text
}

# and without its first words that are no name.
function unmarked(text) {
    while (match(text, /^(pub|abbrev|unfoldable|record|data) /)) text = substr(text, RLENGTH + 1)
    return text
}

function name_of(text) {
    text = unmarked(inner(text))
    sub(/ .*$/, "", text)
    return text
}

# ---- sources

# The file of a module: Rattle.model.specs.Run, in its own crate and in others. What is not below specs or proofs of a
# crate, and what is std's, comes from a library.
function file_of(path) {
    if (path !~ /^Rattle\.[a-z0-9_]+\.(specs|proofs)\./ || path ~ /^Rattle\.std\./) return ""
    sub(/^Rattle\./, "", path)
    gsub(/\./, "/", path)
    return "crates/" path ".antt"
}

# use PATH.{a, b as c}, use PATH as m, use PATH: what each name that it brings is, and where from
function bring(file, line,    path, n, item, i, word) {
    sub(/^ *(pub )?use /, "", line)
    if (!match(line, /\.\{.*\}/)) {
        n = split(line, word, " ")
        path = word[1]
        sub(/^.*\./, "", word[1])
        from[file, n == 3 ? word[3] : word[1]] = path
        return
    }
    path = substr(line, 1, RSTART - 1)
    n = split(substr(line, RSTART + 2, RLENGTH - 3), item, ",")
    for (i = 1; i <= n; i++) {
        split(joined("", item[i]), word, " ")
        if (word[2] != "as") word[3] = word[1]
        from[file, plain(word[3])] = path
        called[file, plain(word[3])] = word[1]
    }
}

# Whether a line begins a declaration: record R .., data D .., or n : ..
function declares(line,    word) {
    sub(/^ */, "", line)
    if (line ~ /^((pub|abbrev|unfoldable) )*(record|data) /) return 1
    split(unmarked(line), word, " ")
    return word[2] == ":"
}

# A line where a declaration of this level can begin: a declaration, or more of the one above it.
function at_level(file, line, head) {
    if (declares(line)) {
        current = plain(name_of(joined("", line)))
        whole = file ~ /\/specs\// || line ~ /^ *(pub )?(abbrev|unfoldable|record|data) /
        open = !((file, current) in stated)
        if (open) stated[file, current] = joined(head, line)
        return
    }
    open = open && whole
    if (open) stated[file, current] = joined(stated[file, current], line)
}

# A source's declarations, each with the parameters around it; of a fact its type, of a definition all of it.
function load(file,    line, depth, i, head, at) {
    if (file in loaded) return
    loaded[file]
    depth = open = 0
    while ((getline line <file) > 0) {
        if (line ~ /\{-/) complain(file ": a comment in braces, which is not read")
        line = bare(line)
        if (line ~ /^ *$/) continue
        if (line ~ /^ +(pub )?use /) complain(file ": a use that is indented, which is not read")
        if (line ~ /^(pub )?use /) bring(file, line)
        if (line ~ /^(pub )?(use|mod) |^infix/) continue
        i = indent(line)
        while (depth && i <= at[depth]) depth--
        if (line ~ /^ *module /) {
            at[++depth] = i
            head[depth] = joined(depth > 1 ? head[depth - 1] : "", line)
            open = 0
        } else if (depth && head[depth] !~ / where$/) head[depth] = joined(head[depth], line)
        else if (i == (depth ? at[depth] + 2 : 0)) at_level(file, line, depth ? head[depth] : "")
        else if (open) stated[file, current] = joined(stated[file, current], line)
    }
    close(file)
}

# ---- the lists

function is_theorem(file, text) {
    return file ~ /\/proofs\// && inner(text) !~ /^(pub )?(abbrev|unfoldable|record|data) /
}

# The text of an entry is over: its name, what is listed of it, and where.
function enter(    name, text) {
    if (entry == "") return
    name = plain(name_of(entry))
    text = entry
    entry = ""
    if (source == "") complain(begun ": no file above it")
    else if ((source, name) in listed) complain(begun ": " name " is listed twice")
    else {
        listed[source, name] = text
        where[source, name] = begun
        order[++entries] = source SUBSEP name
        if (!is_theorem(source, text)) return
        theorem[name]
        proved[source]
        theorems++
    }
}

function list_line(line) {
    if (line ~ /^#/) return
    if (line ~ /^ *$|^[^ ]/) enter()
    if (line ~ /^crates\/[a-z_]+\/(proofs|specs)\/[^ ]*\.antt$/) source = line
    else if (line ~ /^[^ ]/) complain(FILENAME ":" FNR ": neither a file of proofs/ or specs/, nor what stands in it")
    else if (line !~ /^ *$/) {
        if (entry == "") begun = FILENAME ":" FNR
        entry = joined(entry, line)
    }
}

# ---- what is listed against the sources

function unlisted(file, word) {
    return !((file, plain(word)) in listed)
}

# A name that a text names: where it comes from. What is of the same file has to be listed, and, where a theorem names
# it, what is of proofs/; and none comes under another name than its own.
function origin(file, name, word, place,    path, own) {
    sub(/\.$/, "", word)
    if (word ~ /^\./) return
    word = whose(file, word)
    if (word == "" || plain(word) == name) return
    if ((file, plain(word)) in stated) {
        if (unlisted(file, word)) complain(place ": " name " names " word " of its own file, which is not listed")
        return
    }
    path = own = word
    sub(/\..*$/, "", own)
    if ((file, plain(own)) in from) path = from[file, plain(own)]
    if (file ~ /\/proofs\// && file_of(path) ~ /\/proofs\// && unlisted(file_of(path), word))
        complain(place ": " name " names " word " of " path ", which is not listed")
    else if (file_of(path) != "" && (file, plain(word)) in called && called[file, plain(word)] != word)
        complain(place ": " name " names " word ", which is " called[file, plain(word)] " of " path)
}

# A statement that is one name: its definition is listed.
function sole(file, name, word, place) {
    if ((file, plain(word)) in stated || !unlisted(file_of(from[file, plain(word)]), word)) return
    complain(place ": " name " states " word " of " from[file, plain(word)] ", which is not listed")
}

function names(file, name, text, place,    n, word, i) {
    gsub(/[(){};,]/, " ", text)
    n = split(text, word, " ")
    for (i = 1; i <= n; i++) origin(file, name, word[i], place)
    if (is_theorem(file, listed[file, name]) && n == 4 && word[3] == ":") sole(file, name, word[4], place)
}

function hold(file, name,    place) {
    place = where[file, name]
    load(file)
    if (is_theorem(file, listed[file, name]) && !(name in cited)) complain(place ": no document cites " name)
    if (!((file, name) in stated)) {
        complain(place ": " name " is not in " file)
        return
    }
    if (stated[file, name] != listed[file, name]) {
        complain(place ": " name " is something else in " file)
        print "    listed: " listed[file, name]
        print "    stands: " stated[file, name]
    }
    names(file, name, stated[file, name], place)
}

FNR == 1 {
    files++
    enter()
    source = ""
    begin_document()
}

files == 1 {
    known[$1]
    next
}

FILENAME ~ /^tests\/stated\// {
    list_line($0)
    next
}

{ document_line($0) }

END {
    for (i = 1; i <= entries; i++) {
        split(order[i], at, SUBSEP)
        hold(at[1], at[2])
    }
    if (!theorems) complain("no theorem is listed")
    if (failed) exit 1
    print "theorems: " theorems " theorems and " entries - theorems " definitions stand as listed"
    print "passed " theorems
}
