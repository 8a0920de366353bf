# SPDX-License-Identifier: MIT
# Changes a unit of GNARL, and prints it: awk -v parts=FOLDER -f change.awk UNIT.edit UNIT
# UNIT.edit has comments, which begin with #, and these words, each at the beginning of a line:
#   with: NAME               a with clause that the unit gets before its own
#   in: NAME                 the subprogram in which the changes after this are
#   rename: NAME             its new name, which it has for the changes after this
#   old: TEXT new: TEXT      a text, and what takes its place
#   before: TEXT new: TEXT   a text, and what is put before it
#   after: TEXT new: TEXT    a text, and what is put after it
#   drop: TEXT               a text that is taken out
# A TEXT is whole lines as they stand in the unit; blank lines at its ends don't count. In a new text, `part: FILE` stands for the
# lines of that file of FOLDER. Changes are made in their order. The first text of each has to be in its subprogram once; if one
# isn't, this says so, goes on with the others, and ends with status 1. With status 2 something is wrong in UNIT.edit.

# Says something about a line of UNIT.edit.
function say(line, what) { print "pobj ada: " ARGV[1] ":" line ": " what > "/dev/stderr" }

# Says what is wrong with the line, and ends.
function refuse(line, what) {
    say(line, what)
    exit status = 2
}

# Says how many times there is what the line looks for, and goes on.
function miss(line, what, found, text) {
    say(line, ARGV[2] ", " what ": found " found " times instead of once" text)
    status = 1
}

# Ends the text that is read, which has to have a line.
function end_text() {
    if (reads == "") return
    if (texts[changes, reads] == "") refuse(line_of[changes], reads ": has no text")
    sub(/\n+$/, "\n", texts[changes, reads])
    reads = ""
}

# Ends the change that is read, which has to have all of its texts.
function end_change() {
    end_text()
    if (how[changes] ~ /old|before|after/ && !((changes, "new") in texts)) refuse(line_of[changes], how[changes] ": has no new:")
}

# Begins a change of the subprogram that was named last.
function begin_change(word) {
    if (name == "") refuse(FNR, word ": follows no in:")
    how[++changes] = word
    line_of[changes] = FNR
    name_of[changes] = name
}

# Begins the new text of the change that is read.
function begin_new() {
    if (how[changes] !~ /old|before|after/ || (changes, "new") in texts) refuse(FNR, "new: follows no old:, before: or after:")
    reads = "new"
}

# Adds a line to the text that is read, unless it is a blank one at its beginning.
function add_line(line) {
    if (reads == "" && line != "") refuse(FNR, "this text follows no word")
    if (reads != "" && (line != "" || texts[changes, reads] != "")) texts[changes, reads] = texts[changes, reads] line "\n"
}

# Adds the lines of a file of the parts.
function add_part(file,   line, some) {
    if (reads != "new") refuse(FNR, "part: is in no new text")
    while ((getline line < (parts "/" file)) > 0) { add_line(line); some = 1 }
    close(parts "/" file)
    if (!some) refuse(FNR, "there are no lines in " parts "/" file)
}

# Notes a with clause, and the line of the first one.
function add_clause(unit_name) {
    if (clauses == "") line_of[0] = FNR
    clauses = clauses "with " unit_name ";\n"
}

# Carries out a word with a value.
function take_value(word, value) {
    if (word == "part") { add_part(value); return }
    end_change()
    if (word == "with") add_clause(value)
    else if (word == "in") name = value
    else if (word == "rename") { begin_change(word); texts[changes, "new"] = name = value }
    else refuse(FNR, "no such word with a name: " word ":")
}

# Carries out a word that a text follows.
function take_word(word) {
    if (word == "new") { end_text(); begin_new(); return }
    end_change()
    if (word !~ /^(old|before|after|drop)$/) refuse(FNR, "no such word with a text: " word ":")
    begin_change(word)
    reads = word
}

# Reads a line of UNIT.edit.
function read_line(line) {
    if (line ~ /^#/) end_text()
    else if (line ~ /^[^ ]*: ./) take_value(substr(line, 1, index(line, ":") - 1), substr(line, index(line, ":") + 2))
    else if (line ~ /^[^ ]*:$/) take_word(substr(line, 1, length(line) - 1))
    else if (line ~ /^[^ ]/) refuse(FNR, "neither a word nor a comment, nor a text, which is indented: " line)
    else add_line(line)
}

# Puts the with clauses before the first one of the unit.
function put_clauses(   at) {
    at = index(unit, "\nwith ")
    if (at == 0) miss(line_of[0], "a with clause", 0)
    else unit = substr(unit, 1, at) clauses substr(unit, at + 1)
}

# Returns how many bodies a subprogram has, and sets `from` and `to` to the beginnings of the last one and of what follows it.
function bodies(name,   head, lines, count, number, at, begun, found) {
    head = "^   (overriding )?(procedure|function|task body) " name "( |;|$)"
    count = split(unit, lines, "\n")
    for (number = at = 1; number <= count; number++) {
        if (lines[number] ~ head) begun = at
        at += length(lines[number]) + 1
        if (begun && lines[number] == "   end " name ";") { found++; from = begun; to = at; begun = 0 }
    }
    return found + 0
}

# Returns how many times a text is in a body.
function times(text, body,   at, found) {
    for (found = 0; (at = index(body, "\n" text)) > 0; found++) body = substr(body, at + 1)
    return found
}

# Returns the body with another name.
function renamed(body, name, new) {
    sub(" " name, " " new, body)
    return substr(body, 1, length(body) - length(name ";\n")) new ";\n"
}

# Returns the body with a change made, whose first text is in it.
function changed(body, number,   old, new, at) {
    old = texts[number, how[number]]
    new = texts[number, "new"]
    if (how[number] == "before") new = new old
    if (how[number] == "after") new = old new
    at = index(body, "\n" old)
    return substr(body, 1, at) new substr(body, at + 1 + length(old))
}

# Makes a change, if there is one place for it.
function make(number,   name, body, text, found) {
    name = name_of[number]
    text = texts[number, how[number]]
    found = bodies(name)
    if (found != 1) { miss(line_of[number], "the body of " name, found); return }
    body = "\n" substr(unit, from, to - from)
    if (how[number] == "rename") body = renamed(body, name, texts[number, "new"])
    else if ((found = times(text, body)) == 1) body = changed(body, number)
    else miss(line_of[number], name, found, ":\n" substr(text, 1, length(text) - 1))
    unit = substr(unit, 1, from - 1) substr(body, 2) substr(unit, to)
}

FILENAME == ARGV[1] { read_line($0); next }
FNR == 1 { end_change(); unit = "\n" }
{ unit = unit $0 "\n" }

END {
    if (status) exit status
    if (clauses != "") put_clauses()
    for (number = 1; number <= changes; number++) make(number)
    if (status) exit status
    printf "%s", substr(unit, 2)
}
