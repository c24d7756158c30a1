# What wrong/check asks of one .edit file. Prints the number of its programs, or each fault, and exits with 1 if there is one.

function fault(text) { print text; faults++ }

# The lines of a file as one text.
function contents(file,    text, line) {
    while ((getline line < file) > 0) text = text line "\n"
    close(file)
    return text
}

# The line number of a place in a text.
function line_of(text, at) {
    text = substr(text, 1, at - 1)
    return gsub(/\n/, "&", text) + 1
}

# A type as the prover spells it in a name: each word with a capital, an array after the word `Array`, lifetimes left out.
function spelled(type,    words, count, i, name) {
    gsub(/'[a-z]+/, "", type)
    gsub(/\[/, " array ", type)
    gsub(/[^A-Za-z0-9_]+/, " ", type)
    count = split(type, words, " ")
    for (i = 1; i <= count; i++) name = name toupper(substr(words[i], 1, 1)) substr(words[i], 2)
    return name
}

# The name that an `impl` block has in the places of proofs: its type, and the trait behind it if it is one's.
function impl_name(line,    at) {
    sub(/^impl(<[^>]*>)? /, "", line)
    sub(/ [{]$/, "", line)
    at = index(line, " for ")
    if (at) return spelled(substr(line, at + 5)) spelled(substr(line, 1, at - 1))
    sub(/[^A-Za-z0-9_].*/, "", line)
    return line
}

# For each line of a source file that belongs to a function, its attributes among them: `owner` is the place of the function's proof,
# and `body` tells whether the line stands behind the contract.
function find_functions(text,    lines, count, i, line, type, name, inside, opened, indent, above) {
    count = split(text, lines, "\n")
    split("", owner)
    split("", body)
    for (i = 1; i <= count; i++) {
        line = lines[i]
        if (line ~ /^impl[ <]/) type = impl_name(line)
        if (line ~ /^}/) type = ""
        if (line ~ /^(    )?(pub(\([a-z]+\))? )?fn [a-z0-9_]+/) {
            match(line, /^ */)
            indent = substr(line, 1, RLENGTH)
            name = line
            sub(/^.*fn /, "", name)
            sub(/[^a-z0-9_].*/, "", name)
            name = "proofs/" (indent == "" ? "" : type "/") name
            inside = 1
            opened = 0
            for (above = i - 1; above > 0 && lines[above] ~ /^ *#\[/; above--) { owner[above] = name; body[above] = 0 }
        }
        if (!inside) continue
        owner[i] = name
        body[i] = opened
        if (line ~ /[{]$/) opened = 1
        if (opened && line == indent "}") inside = 0
    }
}

# For each line of a source file that belongs to a constant: `constant` is its name as the code writes it.
function find_constants(text,    lines, count, i, line, type, name, inside) {
    count = split(text, lines, "\n")
    split("", constant)
    for (i = 1; i <= count; i++) {
        line = lines[i]
        if (line ~ /^impl[ <]/) type = impl_name(line)
        if (line ~ /^}/) type = ""
        if (line ~ /^(    )?(pub(\([a-z]+\))? )?const [A-Z0-9_]+:/) {
            name = line
            sub(/^.*const /, "", name)
            sub(/:.*/, "", name)
            if (line ~ /^ /) name = type "::" name
            inside = 1
        }
        if (!inside) continue
        constant[i] = name
        if (line ~ /;$/) inside = 0
    }
}

# Whether a line names a constant.
function names_it(line, name,    at, before, after) {
    sub(/ *\/\/.*/, "", line)
    while (at = index(line, name)) {
        before = substr(line, at - 1, at > 1)
        after = substr(line, at + length(name), 1)
        if (before !~ /[A-Za-z0-9_:]/ && after !~ /[A-Za-z0-9_]/) return 1
        line = substr(line, at + length(name))
    }
    return 0
}

# Adds to `reach` the places of the functions that a constant goes into, by itself or by another constant; returns 0 if it stands
# elsewhere, as in a type or a contract.
function follow(text, name,    lines, count, i, others, other, held) {
    if (name in followed) return 1
    followed[name] = 1
    find_functions(text)
    find_constants(text)
    count = split(text, lines, "\n")
    for (i = 1; i <= count; i++) {
        if (constant[i] == name || !names_it(lines[i], name)) continue
        if (body[i]) reach[owner[i]] = 1
        else if (i in constant) others[constant[i]] = 1
        else return 0
    }
    held = 1
    for (other in others) held = held && follow(text, other)
    return held
}

# Notes that a program changes a body.
function note(p, place) {
    if (place in changed_by && changed_by[place] != p) fault(name[p] ": " place " is changed by " name[changed_by[place]] " too")
    else changed_by[place] = p
}

# Makes a replacement, as `rt` does, and notes which bodies the program changes by it.
function replace(p, file, old, new,    at, rest, line, place) {
    if (file !~ /^(src|specs)\//) { fault(name[p] ": it changes a file that is neither in src/ nor in specs/"); return }
    if (!(file in text)) text[file] = contents(ENVIRON["HOME_DIR"] "/" file)
    at = old == "" ? 0 : index(text[file], old)
    rest = substr(text[file], at + length(old))
    if (!at || index(rest, old)) { fault(name[p] ": `" old "` does not stand in " file " just once"); return }
    find_functions(text[file])
    find_constants(text[file])
    line = line_of(text[file], at)
    split("", reach)
    split("", followed)
    if (file ~ /^src\// && body[line]) reach[owner[line]] = 1
    else if (file !~ /^src\// || !(line in constant) || !follow(text[file], constant[line])) further[p] = 1
    for (place in reach) note(p, place)
    text[file] = substr(text[file], 1, at - 1) new rest
}

/^wrong: / {
    name[++programs] = substr($0, 8)
    for (p = 1; p < programs; p++) if (name[p] == name[programs]) fault(name[p] ": the name stands twice")
    file = ""
    next
}
/^falls: / {
    if (programs in falls) fault(name[programs] ": it names two places")
    falls[programs] = substr($0, 8)
    next
}
/^file: / { file = substr($0, 7); next }
/^old: / { old = substr($0, 6); next }
/^new:/ {
    new = substr($0, 5)
    sub(/^ /, "", new)
    if (!programs) fault("a replacement stands before the first `wrong:` line")
    replace(programs, file, old, new)
    replaced[programs]++
    next
}
/./ { said[programs]++ }

# The place of an error in a file of proofs/: a function's proof, or a theorem by its file and name.
function place_of(path, name) {
    if (path ~ /\/(Invariants|Answers|Proof)\.antt$/) { sub(/\/[A-Za-z]*\.antt$/, "", path); sub(/\+/, "", path); return path }
    sub(/\.antt$/, "", path)
    return path " " name
}

# Whether a message says that a proof names what is not there.
function lacks_name(line) {
    gsub(/`[^`]*`/, "`", line)
    return line ~ /: error: .*(is not in scope|has no field|has no `|is no name|can be named from here)/
}

# Reads what the prover said: sets `refused` for each place where it could not prove a fact.
function read_log(file,    line, path, name, seen, at) {
    while ((getline line < file) > 0) {
        seen = 1
        if (line ~ /error\[[a-z-]+\]/ || (line ~ /^rattle: / && line !~ /^rattle: no verdict/)) fault("the prover did not begin, so nothing is shown: " substr(line, 1, 200))
        if (lacks_name(line)) fault("a proof names what is not there, so nothing is shown: " substr(line, 1, 200))
        if (line ~ /^note: src\/[a-z_]*\.rt:[0-9]+:[0-9]+: it is not proved that /) {
            path = line
            sub(/^note: /, "", path)
            sub(/: it is not proved that .*/, "", path)
            sub(/:[0-9]+$/, "", path)
            match(path, /:[0-9]+$/)
            at = substr(path, RSTART + 1) + 0
            path = substr(path, 1, RSTART - 1)
            find_functions(path in text ? text[path] : contents(ENVIRON["HOME_DIR"] "/" path))
            if (at in owner) refused[owner[at]] = 1
        }
        if (line !~ /^\.\/proofs\/[^ ]*\.antt:[0-9]+:[0-9]+: error: `/ || line ~ /was not admitted/) continue
        path = line
        sub(/:[0-9]+:[0-9]+: error: .*/, "", path)
        sub(/^\.\//, "", path)
        name = line
        sub(/^[^`]*`/, "", name)
        sub(/`.*/, "", name)
        refused[place_of(path, name)] = 1
    }
    close(file)
    if (!seen) fault("no log of it was left: " file)
}

# Writes the files that the programs change below TO, and prints the words by which `rattle check` looks at their places alone.
function apply(    file, p, place, words) {
    for (file in text) {
        printf "%s", text[file] > (ENVIRON["TO"] "/" file)
        close(ENVIRON["TO"] "/" file)
    }
    for (p = 1; p <= programs; p++) {
        if (falls[p] ~ / /) return ""
        place = substr(falls[p], length("proofs/") + 1)
        gsub(/\//, "::", place)
        words = words " --only " place
    }
    return words
}

END {
    if (!programs) fault("it names no wrong program")
    if (said[0]) fault("words stand before the first `wrong:` line")
    for (p = 1; p <= programs; p++) {
        if (!said[p]) fault(name[p] ": no sentence says what it would do")
        if (!(p in falls)) fault(name[p] ": it does not say where it falls")
        if (!replaced[p]) fault(name[p] ": it changes nothing")
        if (programs == 1) continue
        if (p in further) fault(name[p] ": it changes more than bodies, and has its file to itself")
        else if (changed_by[falls[p]] != p) fault(name[p] ": " falls[p] " is not the proof of what it changes")
    }
    if (ENVIRON["MODE"] == "refused") {
        read_log(ENVIRON["LOG"])
        for (p = 1; p <= programs; p++) if (!(falls[p] in refused)) fault(name[p] ": no fact was refused at " falls[p])
    }
    if (faults) exit 1
    if (ENVIRON["MODE"] == "apply") print apply()
    else print programs
}
