# Takes the files of crates/ apart. One line for each thing found, its fields parted by tabs:
#   kind, crate, file, name, lines, text
# kind: definition (a name of specs/), law (a name of proofs/), proof (a file of a function's proof: Proof.antt as FUNCTION, Invariants.antt and
# Answers.antt as FUNCTION/Invariants and FUNCTION/Answers), promise (a function's contract), case (a case of a data type, its text the type's name),
# type (a struct or enum of src/), use (an import).
# The text has no comments, and its white space is single spaces; lines are those with text.
# Run by tools/landing and tools/believe with LC_ALL=C, on crates/*/specs/*.antt, crates/*/proofs/**/*.antt and crates/*/src/*.rt.

function emit(what, called, count, said) {
    gsub(/[ \t]+/, " ", said)
    sub(/^ /, "", said)
    sub(/ $/, "", said)
    print what "\t" crate "\t" file "\t" called "\t" count "\t" said
}

function flush() {
    if (name != "") emit(sort, name, lines, text)
    name = ""; text = ""; lines = 0
}

# What a new file is, from its path.
function begin_file(    parts, n) {
    n = split(FILENAME, parts, "/")
    for (i = 1; i < n && parts[i] != "crates"; i++) {}
    crate = parts[i + 1]
    folder = parts[i + 2]
    file = folder "/" parts[i + 3]
    for (i = i + 4; i <= n; i++) file = file "/" parts[i]
    depth = 0; opening = 0; in_function = 0; in_type = 0
    skip = (parts[n] == "Lib.antt")
    sort = (folder == "specs") ? "definition" : "law"
    if (file ~ /^proofs\/.+\/(Proof|Invariants|Answers)\.antt$/) {
        sort = "proof"
        name = substr(file, length("proofs/") + 1)
        sub(/(\/Proof)?\.antt$/, "", name)
    }
}

# The name that a line declares, or "".
function declared(line,    words, n, i) {
    n = split(line, words, " ")
    i = 1
    while (words[i] == "abbrev" || words[i] == "unfoldable" || words[i] == "opaque" || words[i] == "pub") i++
    if (words[i] == "record" || words[i] == "data") return words[i + 1]
    if (words[i + 1] == ":") return words[i]
    return ""
}

FNR == 1 { flush(); begin_file() }
skip { next }

# ---- antt

folder != "src" {
    sub(/^ *--.*/, "")
    sub(/ -- .*/, "")
    if ($0 ~ /^ *$/) next
    if ($1 == "use") { emit("use", "", 1, $0); if (sort != "proof") flush(); next }
    if (sort == "proof") { text = text " " $0; lines++; next }
    if ($1 == "pub" && $2 == "mod") next
    indent = match($0, /[^ ]/) - 1
    if (opening || $1 == "module") {
        if (!opening) { flush(); depth = indent / 2 + 1; header[depth] = "" }
        header[depth] = header[depth] " " $0
        opening = ($NF != "where")
        next
    }
    found = (indent <= 2 * depth) ? declared($0) : ""
    if (found != "") {
        flush()
        depth = indent / 2
        name = found
        for (i = 1; i <= depth; i++) text = text header[i]
    }
    else if (text ~ /^ *(pub )?data / && match($0, /^ +[^:]* :/)) {
        n = split(substr($0, 1, RLENGTH - 1), words, " ")
        for (i = 1; i <= n; i++) emit("case", words[i], 1, name)
    }
    text = text " " $0
    lines++
    next
}

# ---- src

{ sub(/\/\/.*/, "") }
/^ *$/ { next }
/^(ghost )?use / { emit("use", "", 1, $0); next }
!in_function && /^ *(pub(\([a-z]+\))? )?(extern "C" )?fn / {
    in_function = 1
    promises = 0
    said = ""; count = 0
    called = $0
    sub(/^.*fn /, "", called)
    sub(/[(<].*/, "", called)
    module = substr(file, length("src/") + 1)
    sub(/\.rt$/, "", module)
    if (module != "lib" && module != "main") called = module "::" called
}
in_function {
    if ($1 == "requires" || $1 == "ensures") promises = 1
    if ($0 !~ /^ *\{$/) { said = said " " $0; count++ }
    if ($0 ~ /^ *\{$/ || (!promises && $0 ~ /\{$/)) {
        if (promises) emit("promise", called, count, said)
        in_function = 0
    }
    next
}
!in_type && /^(pub(\([a-z]+\))? )?(struct|enum) / {
    in_type = 1
    said = ""; count = 0
    called = $0
    sub(/^.*(struct|enum) /, "", called)
    sub(/[^A-Za-z0-9_].*/, "", called)
}
in_type {
    said = said " " $0
    count++
    if ($0 ~ /^\}/ || $0 ~ /;$/) { emit("type", called, count, said); in_type = 0 }
}

END { flush() }
