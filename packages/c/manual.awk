# Writes the manual page of the library from target_lexicon.h with the header that it includes: the comment at its
# start, its structs and calls with their comments, and the statuses.
# usage: awk -f manual.awk HEADER

function escaped(line) {
    gsub(/\\/, "\\\\e", line)
    gsub(/-/, "\\-", line)
    gsub(/(LEXICON|lexicon)_/, "\\%&", line) # no line ends within a name
    sub(/^[.']/, "\\\\\\&&", line)
    return line
}

# Adds a line of a comment to `text`, where a line with four more blanks is one of an example.
function say(line) {
    is_shown = line ~ /^    ./
    if (is_shown != in_example) text = text (is_shown ? ".EX\n" : ".EE\n")
    in_example = is_shown
    text = text (line == "" ? ".PP\n" : escaped(is_shown ? substr(line, 5) : line) "\n")
}

# Ends a comment, and what it is about.
function finish() {
    if (calls != "") body = body ".PP\n.nf\n" calls ".fi\n.RS 4\n" text ".RE\n"
    calls = text = ""
}

function code(line) { calls = calls "\\fB" escaped(line) "\\fR\n" }

# Adds the name of a call to those of the page.
function list(name) { names = names (names == "" ? "" : ",\n") name }

/^#define LEXICON_VERSION "/ { version = $3; gsub(/"/, "", version) }
/^enum lexicon_status \{/ { in_statuses = 1; next }
/^struct lexicon_[a-z_]* \{/ { in_struct = 1 }
in_struct { code($0) }
/^};/ { in_statuses = in_struct = 0 }
in_struct { next }
in_statuses {
    while (/\/\*/ && !/\*\// && (getline line) > 0) {
        sub(/^ */, "", line)
        $0 = $0 " " line
    }
    split($0, parts, /\/\* | \*\//)
    statuses = statuses ".TP\n" escaped($1 " (" ($3 + 0) ")") "\n" (parts[2] == "" ? "\\&" : escaped(parts[2])) "\n"
    next
}
/^\/\* / { finish(); in_comment = 1; $0 = substr($0, 4) }
in_comment {
    in_comment = !/ \*\/$/
    line = $0
    sub(/ \*\/$/, "", line)
    sub(/^   /, "", line)
    if (line !~ /^SPDX/) say(line)
    if (!in_comment && in_example) say("")
    if (!in_comment && introduction == "") { introduction = text; text = "" }
    next
}
/^LEXICON_NAMES\(/ {
    sub(/^LEXICON_NAMES\(/, "")
    sub(/,.*/, "")
    list($0)
    code("const char *" $0 "(uint32_t number);")
    next
}
/^#define LEXICON_MAX_GROWTH/ || in_call ||
/^(static inline )?(enum lexicon_[a-z]*|const char \*|bool) ?lexicon_[a-z0-9_]*\(/ {
    if (match($0, /lexicon_[a-z0-9_]*\(/) && !in_call) list(substr($0, RSTART, RLENGTH - 1))
    sub(/^static inline /, "")
    in_call = /[^;{]$/ && !/^#/
    sub(/ \{$/, ";")
    code($0)
}

BEGIN { in_example = 0 }
END {
    finish()
    printf ".TH LEXICON 3 \"\" \"target\\-lexicon %s\" \"Library functions\"\n", version
    printf ".ad l\n.SH NAME\n%s\n\\- target triples: parsing, printing, queries, and the names of other tools\n", names
    print ".SH SYNOPSIS\n.B #include <target_lexicon.h>"
    print ".PP\nLink with \\fB\\-ltarget_lexicon\\fR; the flags are those of"
    print "\\fBpkg\\-config \\-\\-cflags \\-\\-libs target\\-lexicon\\fR."
    printf ".SH DESCRIPTION\n%s.SH CALLS\n%s", introduction, body
    printf ".SH RETURN VALUE\n%s", statuses
    print ".SH ATTRIBUTES\nThe calls are thread\\-safe and async\\-signal\\-safe."
    print "They allocate nothing and keep nothing."
    print ".SH SEE ALSO\n.BR target\\-lexicon (1),\nand in \\fBtarget_lexicon.h\\fR the structs"
    print "and in \\fBtarget_lexicon_values.h\\fR the names of numbers"
}
