# What a clause rests on, found by names: the definitions that it names, the definitions that these name, and so on.
#
# Each line of the input is the name of a law, or `run_tool`. For each the program prints the name, how many lines it rests on, and in
# how many files these stand. With `-v listed=1` it prints the lines instead: the file, the first line and the last one.
# It is run at the top of the repository, by tests/trusted_base.sh.
#
# A name is looked up in the `use` lines of its file, and in the file itself. It leads to an item: a definition with its signature and
# the comment above it, or a type, a constant or a trait that code declares, or the clause of a law or of `run_tool`.
# A name that is bound in an item, and is an item's name too, counts as the item. So the list may be too long, and never too short.
#
# - `CallEnds` isn't followed. Its term is the clause of `run_tool`, and the program keeps that.
# - What the state of a device, a source or a sink means is said by their traits. So a trait counts where its state does.
# - A clause for one kind (`Thin`, `Cache`, `Era`, `Pool`) is followed only where that kind comes up: where it is named, and not
#   as the pattern of a clause; or where any kind may come, since its type is named outside of a signature.
# - What the toolchain and its libraries define doesn't count.

BEGIN {
    stops["crates/pd_laws_answers/specs/Words.antt", "CallEnds"] = 1
    objects = "crates/pd_kinds/specs/Objects.antt"
    trait_of[objects, "DeviceState"] = "crates/pd_image/src/device.rt" SUBSEP "Device"
    trait_of[objects, "SourceState"] = "crates/pd_image/src/source.rt" SUBSEP "Source"
    trait_of[objects, "SinkState"] = "crates/pd_image/src/sink.rt" SUBSEP "Sink"
    kind_type["crates/pd_kinds/src/kind.rt", "Kind"] = "Kind"
    kind_type["crates/pd_kinds/src/kind.rt", "Flagged"] = "Flagged"
    find_all("grep -E '^pub (struct|enum|const|trait|type) ' crates/*/src/*.rt", declared_in, 1)
    find_all("grep -E '^pub fn ' crates/pd_laws_answers/src/*.rt crates/pd_tools/src/run.rt", clause_in, 0)
}

# The files in which names are declared, by crate and name, or by name alone.
function find_all(command, files, by_crate,    line, file, name) {
    while ((command | getline line) > 0) {
        file = substr(line, 1, index(line, ":") - 1)
        name = declared_name(substr(line, length(file) + 2))
        if (by_crate) files[crate_of(file), name] = file
        else files[name] = file
    }
    close(command)
}

function declared_name(line) {
    sub(/^(abbrev |unfoldable )?(pub )?((record|data|struct|enum|const|trait|type|fn) )?/, "", line)
    sub(/[ :<(;{].*/, "", line)
    gsub(/◌/, "", line)
    return line
}

function crate_of(file) {
    sub(/^crates\//, "", file)
    sub(/\/.*/, "", file)
    return file
}

function file_of(item) {
    return substr(item, 1, index(item, SUBSEP) - 1)
}

function last_part(path) {
    sub(/.*\./, "", path)
    return path
}

function stop(text) {
    print text >"/dev/stderr"
    stopped = 1
    exit 1
}

{
    if (!($1 in clause_in)) stop("there is no law " $1)
    close_over(clause_in[$1] SUBSEP $1)
    tell($1)
}

function tell(root,    i, file, lines, files, seen) {
    for (i = 1; i <= last; i++) {
        file = file_of(todo[i])
        lines += until[todo[i]] - from[todo[i]] + 1
        if (!(file in seen)) { seen[file] = 1; files++ }
        if (listed) printf "%s\t%d\t%d\n", file, from[todo[i]], until[todo[i]]
    }
    if (!listed) print root, lines, files
}

# Finds all items that this one rests on: `todo`, from 1 to `last`. An item may bring more once a kind came up, so all are gone over
# until nothing is new.
function close_over(root,    i, before) {
    split("", found)
    split("", came_up)
    last = 0
    add(root)
    do {
        before = news
        for (i = 1; i <= last; i++) add_named(todo[i])
    } while (news != before)
}

function add_named(item,    n, i, line, part) {
    n = split(named_by(item), line, "\n")
    for (i = 1; i <= n; i++) {
        split(line[i], part, "\t")
        if (part[1] != "" && !(part[1] in came_up) && !(any_of(part[1]) in came_up)) continue
        if (part[2] == "item") add(part[3])
        else if (!(part[3] in came_up)) { came_up[part[3]] = 1; news++ }
    }
}

# Any kind of the type of this one.
function any_of(kind) {
    sub(/ .*/, " any", kind)
    return kind
}

function add(item) {
    load(file_of(item))
    # a name that a module hands on, or one of the constructors of a type
    if (!(item in from) && item in scope) { add(scope[item]); return }
    if (!(item in from)) stop(file_of(item) " has no " substr(item, index(item, SUBSEP) + 1))
    if (item in found) return
    found[item] = 1
    todo[++last] = item
    news++
}

# What an item names, a line each: `WHERE tab item tab ITEM`, or `WHERE tab kind tab KIND`. WHERE is empty, or the kind that the
# clause is for. The lines are found once.
function named_by(item,    file, i, n, at, left, token, named, kind, where, told, text) {
    if (item in names) return names[item]
    names[item] = ""
    if (item in stops) return ""
    file = file_of(item)
    for (i = from[item]; i <= until[item]; i++) {
        n = split(code[file, i], token, " ")
        left = 0
        if ((file, i) in is_clause) { where = ""; while (left < n && token[left + 1] != "=") left++ }
        for (at = 1; at <= n; at++) {
            # what stands before a colon is declared there
            if (at < n && token[at + 1] == ":") continue
            named = item_of(file, token[at])
            if (named == "" || named == item) continue
            if (named in kind_type) {
                told["\titem\t" named] = 1
                kind = last_part(token[at])
                if (at <= left) { where = named " " kind; continue }
                if (kind == kind_type[named] && (file, i) in is_signature) continue
                if (kind == kind_type[named]) kind = "any"
                told[where "\tkind\t" named " " kind] = 1
            } else told[where "\titem\t" named] = 1
        }
    }
    if (item in trait_of) told["\titem\t" trait_of[item]] = 1
    for (text in told) names[item] = names[item] (names[item] == "" ? "" : "\n") text
    return names[item]
}

# The item that a word leads to in a file, or nothing. Of `a.b` that is `b` where `a` is a module; else `b` is a field of `a`.
function item_of(file, word,    head, rest) {
    sub(/\.+$/, "", word)
    if ((file, word) in scope) return scope[file, word]
    head = word
    if (index(word, ".") > 1) head = substr(word, 1, index(word, ".") - 1)
    if ((file, head) in scope) return scope[file, head]
    if (!((file, head) in module)) return ""
    rest = substr(word, length(head) + 2)
    sub(/\..*/, "", rest)
    load(module[file, head])
    return scope[module[file, head], rest]
}

# Reads a file: its code without comments, its items, and what the names in it lead to.
function load(file,    line, more, nr, item, above, is_code, in_signature, is_data) {
    if (file in loaded) return
    loaded[file] = 1
    is_code = file ~ /\.rt$/
    while ((getline line < file) > 0) {
        nr++
        if (line ~ /^ *((pub|ghost) )*use /) {
            while (line !~ (is_code ? ";" : "^[^{]*$|}") && (getline more < file) > 0) { line = line more; nr++ }
            use(file, line)
            above = 0
        } else if (line ~ /^(--|\/\/\/|#\[|infix)/) {
            # what stands directly above an item is read with it
            if (!above) above = nr
        } else if (line ~ /^ *$/) {
            above = 0
        } else {
            if (begins_item(file, line)) {
                item = file SUBSEP declared_name(line)
                from[item] = above ? above : nr
                in_signature = !is_code
                is_data = line ~ /^(pub )?data /
                if (line !~ /^pub fn /) scope[item] = item
            } else if (is_code && line ~ /^[^ })]/) {
                item = ""
            } else if (!is_code && line ~ /^[^ ]/) {
                is_clause[file, nr] = 1
                in_signature = 0
            }
            above = 0
            if (item == "") continue
            until[item] = nr
            code[file, nr] = words_in(line, is_code)
            if (in_signature) is_signature[file, nr] = 1
            if (line ~ / where$/) in_signature = 0
            if (is_data && line ~ /^  [^ ]+ :/) scope[file, first_word(line)] = item
            if (is_code && line ~ /^[^ ].*[;}]$|^}/) item = ""
        }
    }
    close(file)
    if (!nr) stop("there is no file " file)
}

# Definitions begin at the left margin with their signature; their clauses follow.
function begins_item(file, line) {
    if (file !~ /\.rt$/) return line !~ /^pub mod / && line ~ /^(abbrev|unfoldable|pub|record|data) |^[^ ]+ :( |$)/
    if (line ~ /^pub fn /) return clause_in[declared_name(line)] == file
    return line ~ /^pub (struct|enum|const|trait|type) /
}

function first_word(line) {
    sub(/^ +/, "", line)
    sub(/ .*/, "", line)
    return line
}

function words_in(line, is_code) {
    sub(is_code ? "//.*" : "-- .*", "", line)
    gsub(/"[^"]*"/, "", line)
    if (is_code) {
        gsub(/::/, " ", line)
        gsub(/[<>&!?|=-]/, " ", line)
        gsub(/:/, " : ", line)
    }
    gsub(/[][(){},;]/, " ", line)
    return line
}

# What a line of `use` brings into a file: names, or a module.
function use(file, line,    path, given, part, name, n, i) {
    sub(/^ *((pub|ghost) )*use /, "", line)
    sub(/; *$/, "", line)
    if (line !~ /^Rattle\./) { use_of_code(file, line); return }
    path = line
    sub(/\.\{.*| as .*/, "", path)
    if (split(path, part, /\.specs\./) != 2 || part[1] !~ /^Rattle\.pd_/) return
    sub(/^Rattle\./, "crates/", part[1])
    if (line ~ /\{/) {
        given = line
        gsub(/.*\{|\}.*|◌/, "", given)
        n = split(given, name, / *, */)
        for (i = 1; i <= n; i++) scope[file, name_here(name[i])] = target(part[1], part[2], name_there(name[i]))
    } else if (part[2] ~ /^declared\./) {
        scope[file, last_part(name_here(line))] = target(part[1], part[2], "")
    } else module[file, last_part(name_here(line))] = specs_file(part[1], part[2])
}

# `a as b` is `b` here and `a` there.
function name_here(name) {
    sub(/.* as /, "", name)
    return name
}

function name_there(name) {
    sub(/ as .*/, "", name)
    return name
}

function specs_file(crate, path) {
    gsub(/\./, "/", path)
    return crate "/specs/" path ".antt"
}

# The item of a name of a module. What code declares stands in `declared`: a type by its name or by its variants, and constants.
function target(crate, path, name,    part) {
    if (path !~ /^declared\./) return specs_file(crate, path) SUBSEP name
    split(path, part, ".")
    return crate "/src/" part[2] ".rt" SUBSEP (part[3] == "TheConstants" ? name : part[3])
}

# `use a::{B, C}` and `use a::B` of code: the types that a crate declares.
function use_of_code(file, line,    crate, name, n, i) {
    crate = line
    sub(/::.*/, "", crate)
    if (crate == "crate") crate = crate_of(file)
    sub(/^.*::/, "", line)
    gsub(/[{} ]/, "", line)
    n = split(line, name, ",")
    for (i = 1; i <= n; i++)
        if ((crate, name[i]) in declared_in) scope[file, name[i]] = declared_in[crate, name[i]] SUBSEP name[i]
}
