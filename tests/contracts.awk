# The functions that another crate can call: `pub fn` in a library's root or in a `pub mod` that is reached from it,
# what a `pub use` passes on, and `pub fn` in an impl, since whoever has a value can call its methods. Where the rules
# of the language are finer than this, the scan takes more functions for public, never fewer: a `pub use` in a private
# module counts as well.

# The file's crate and module: crates/record/src/field.rt is `field` of record, and lib.rt and main.rt are "".
FNR == 1 {
    end_head()
    module = FILENAME
    sub(/^.*crates\//, "", module)
    crate = substr(module, 1, index(module, "/") - 1)
    sub(/^[^\/]*\/src\//, "", module)
    sub(/\.rt$/, "", module)
    sub(/(^|\/)mod$/, "", module)
    gsub("/", "::", module)
    if (module == "main") program[crate] = 1
    if (module == "lib" || module == "main") module = ""
}

/^pub mod / { published[crate, within(module, name_after("mod"))] = 1 }

# A use goes to its semicolon, mostly in one line.
in_use || /^ *(pub |pub[(][a-z]*[)] )?use / {
    if (!in_use) begun = FNR
    in_use = !/;/
    text = text $0
    if (in_use) next
    take_use(text)
    text = ""
    next
}

/^ *(pub |pub[(][a-z]*[)] )?([a-z]+ |"C" )*fn / { begin_head() }

crate == "slow" && !/^ *(\/\/|ghost )/ && names_another($0) {
    tell(FILENAME ":" FNR ": the slow engine names " another)
}

in_head && /^ *requires[ *{]/ { requires[functions] = clause = 1 }
in_head && /^ *ensures[ *{]/ { ensures[functions] = clause = 1 }
in_head && (/^ *[{]$/ || (!clause && /[{]}?$/)) { in_head = 0 }

END {
    end_head()
    for (i = 1; i <= functions; i++) judge(i)
    if (!seen) tell("contracts: no public function found")
    if (faults) exit 1
    print "contracts: " seen " public functions, each with a promise and none with a precondition"
    print "passed " seen
}

# Whether the line names something of another crate that the slow engine does without: what is left of it without the
# types of model and the two functions of rules; and, in an attribute of tactics, which is no code, without the lemmas
# and definitions that it names for the check.
function names_another(line) {
    if (line ~ /^#!?\[tactic[(]/) gsub(/(model|account|rules)::(specs|proofs)::[A-Za-z_:]*/, "", line)
    gsub(/((model|account)::[A-Z][A-Za-z]*|crate::[a-z_:]*)/, "", line)
    gsub(/rules::(topology::check[(]|word::enter;)/, "", line)
    if (!match(line, /(rules|model|account|reading|recovery|engine)(::[a-z_:]*| as )/)) return 0
    another = substr(line, RSTART, RLENGTH)
    return 1
}

function within(outer, name) { return outer == "" ? name : outer "::" name }

# The name after a word of the line: `pub mod field;` has field after mod.
function name_after(word,    name) {
    match($0, "(^|[^a-z_])" word " +")
    name = substr($0, RSTART + RLENGTH)
    sub(/[^A-Za-z0-9_].*$/, "", name)
    return name
}

# Each name that a use brings, alone: `pub use field::{word, byte as b};` brings field::word and field::byte.
function take_use(line,    marked) {
    gsub(/[ \t]+/, " ", line)
    sub(/^ /, "", line)
    marked = sub(/^pub use /, "", line)
    sub(/^(pub[(][a-z]*[)] )?use /, "", line)
    sub(/;.*$/, "", line)
    each_used(line, marked)
}

# The first list is taken apart, and then what it gave.
function each_used(path, marked,    before, inner, depth, i, c, item) {
    if (!match(path, /[{]/)) {
        use(path, marked)
        return
    }
    before = substr(path, 1, RSTART - 1)
    inner = substr(path, RSTART + 1)
    depth = 1
    for (i = 1; i <= length(inner) && depth; i++) {
        c = substr(inner, i, 1)
        if (c == "{") depth++
        if (c == "}") depth--
        if ((c == "," && depth == 1) || !depth) {
            gsub(/^ | $/, "", item)
            if (item == "self") each_used(substr(before, 1, length(before) - 2), marked)
            else if (item != "") each_used(before item, marked)
            item = ""
        } else item = item c
    }
}

# What a use names, from the crate's root or from its own module: `crate::field::word as w` field::word.
function use(path, marked) {
    if (crate == "slow" && names_another("use " path ";")) tell(FILENAME ":" begun ": the slow engine names " another)
    if (!marked) return
    sub(/ as .*$/, "", path)
    while (sub(/^(crate|self|super)::/, "", path)) continue
    passed_on[crate, ++uses[crate]] = path
}

# A function's head goes from its name to the brace that opens its body.
function begin_head() {
    end_head()
    if ($0 !~ /^ *pub /) return
    in_head = 1
    clause = 0
    functions++
    name[functions] = name_after("fn")
    home[functions] = module
    owner[functions] = crate
    method[functions] = /^ /
    place[functions] = FILENAME ":" FNR
}

# Where a head doesn't end, the layout is not the one that this scan reads.
function end_head() {
    if (in_head) tell(place[functions] ": " name[functions] ": where its head ends is not seen")
    in_head = 0
}

function reached(c, m) {
    if (m == "" || is_passed_on(c, m)) return 1
    return ((c, m) in published) && reached(c, outside(m))
}

# Whether a `pub use` of the crate names it: `pub use field::word`, and `pub use field::*` for all of field.
function is_passed_on(c, path,    i, named) {
    for (i = 1; i <= uses[c]; i++) {
        named = passed_on[c, i]
        if (ends_with(path, named)) return 1
        if (sub(/::[*]$/, "", named) && ends_with(outside(path), named)) return 1
    }
    return 0
}

function outside(path) { return sub(/::[^:]*$/, "", path) ? path : "" }

function ends_with(path, end) { return path == end || substr("::" path, length(path) - length(end) + 1) == "::" end }

function judge(i,    where) {
    if (!method[i] && !reached(owner[i], home[i]) && !is_passed_on(owner[i], within(home[i], name[i]))) return
    seen++
    where = place[i] ": " name[i] ": "
    if (owner[i] in program) tell(where "public in a program, which nobody calls")
    if (!(i in ensures)) tell(where "public, and promises nothing: no ensures")
    if (i in requires) tell(where "public, and has a precondition: requires")
}

function tell(what) {
    print what
    faults++
}
