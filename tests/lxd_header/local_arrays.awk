# Finds local arrays in Rattle source: prints FILE:LINE: and the line, for each line that has one.
#
# A list that a function keeps, and that is not lent to it, comes from one of these:
#   an array type     [u8; 32]          of a local, a parameter or a static; of a result, a field or an alias, where it is declared
#   an array value    [0; 32], [a, b]
#   a byte string     b"..."            which stands in the function's own memory
#   a table           let t = TABLE;    a constant, copied; TABLE[i], TABLE.len() and f(&TABLE) only read it, unless its entries are arrays
#   an array by std   n.to_be_bytes()   a number's bytes; std::array, std::simd, try_into, and a slice's chunks, which can be copied whole
#   a list elsewhere  alloc: Global     an allocator, which a function has to be handed; or what holds one: Vec, String, Box, and what collects into them
# Constants, `use` items, comments, contracts and the insides of texts are passed over. The layout of the source is that of `rt fmt`: a line that
# excepts something from it is named too, and so is one from which the search cannot read on.

BEGIN {
    made_by_std = "(^|[^A-Za-z0-9_])([a-z]*alloc|Alloc[A-Za-z]*|Global|Vec|String|Box|vec!|format!|collect|array|simd|try_into|to_[bln]e_bytes|[a-z_]*_chunks?)[^A-Za-z0-9_]"
}

FNR == 1 {
    file[++files] = FILENAME
    source[files] = "\n"
}
{ source[files] = source[files] $0 "\n" }

END {
    for (f = 1; f <= files; f++) {
        code[f] = without_items(without_texts(source[f]))
    }
    follow_renamed()
    for (f = 1; f <= files; f++) {
        print_arrays()
    }
}

function print_arrays(    count, line, shown, found, i) {
    split("", found)
    find_tables(found)
    split(source[f], shown, "\n")
    count = split(code[f], line, "\n")
    for (i = 2; i <= count; i++) {
        if (i in found || has_array(line[i])) {
            sub(/^ */, "", shown[i])
            print file[f] ":" i - 1 ": " shown[i]
        }
    }
}

# `[` after a name, `)` or `]` is an index, after `#` an attribute, and around a number's type behind `: &` or `-> &` a slice.
function has_array(line) {
    gsub(/#!?\[/, "", line)
    gsub(/(:|->) &('[a-z_]+ )?(mut )?\[([iu](8|16|32|64|size)|f32|f64|bool)\]/, "", line)
    return line ~ /(^|[^]A-Za-z0-9_)])\[|b""|rattlefmt/ || line " " ~ made_by_std
}

function find_tables(found,    name, before, after) {
    for (name in table) {
        before = ""
        after = code[f]
        while (match(after, "[^A-Za-z0-9_]" name "[^A-Za-z0-9_]")) {
            before = before substr(after, 1, RSTART)
            after = substr(after, RSTART + RLENGTH - 1)
            if (table[name] == "of arrays" || !is_read(before, after)) {
                found[1 + length(line_ends(before))]
            }
            before = before name
        }
    }
}

# One entry, the length, or a part of a call's arguments. A range of entries could be lent to be written to.
function is_read(before, after) {
    gsub(/[ \n]+/, " ", before)
    sub(/([A-Za-z0-9_]+::)+$/, "", before)
    sub(/^[ \n]+/, "", after)
    if (sub(/^\[/, "", after)) {
        return substr(after, 1, nested_size(after, "\\[", "\\]")) !~ /\.\./
    }
    return after ~ /^\.len\(\)/ || before ~ /([A-Za-z0-9_]\(|,) ?&$/
}

# The code without constants and `use` items. What they say of tables is kept.
function without_items(rest,    kept, item, size) {
    kept = ""
    while (match(rest, /[^A-Za-z0-9_](const[ \n]+[A-Za-z0-9_]+[ \n]*:|use[ \n])/)) {
        kept = kept substr(rest, 1, RSTART)
        rest = substr(rest, RSTART + 1)
        size = item_size(rest)
        item = substr(rest, 1, size)
        kept = kept line_ends(item)
        rest = substr(rest, size + 1)
        gsub(/[ \n]+/, " ", item)
        keep_table(item)
        keep_renamed(item)
    }
    return kept rest
}

function keep_table(item,    type, word, brackets) {
    if (item ~ /^const /) {
        type = substr(item, 1, index(item, "=") - 1)
        brackets = gsub(/\[/, "", type)
        split(type, word, /[ :]+/)
        if (brackets > 0) {
            call_table(word[2], brackets > 1 ? "of arrays" : "of numbers")
        }
    }
}

function keep_renamed(item) {
    while (match(item, /[A-Za-z0-9_]+ as [A-Za-z0-9_]+/)) {
        renamed[substr(item, RSTART, RLENGTH)]
        item = substr(item, RSTART + RLENGTH)
    }
}

# Tables of one name are all taken for what any of them is. Whether that is news.
function call_table(name, kind) {
    if (table[name] == kind || table[name] == "of arrays") {
        return 0
    }
    table[name] = kind
    return 1
}

function follow_renamed(    pair, name, more) {
    do {
        more = 0
        for (pair in renamed) {
            split(pair, name, " as ")
            if (name[1] in table) {
                more += call_table(name[2], table[name[1]])
            }
        }
    } while (more)
}

# Up to the first `;` that no bracket holds.
function item_size(rest,    size, depth, mark) {
    size = depth = 0
    do {
        if (!match(substr(rest, size + 1), /[][(){};]/)) {
            return cannot_read(rest)
        }
        size += RSTART
        mark = substr(rest, size, 1)
        depth += mark ~ /[[({]/ ? 1 : mark ~ /[])}]/ ? -1 : 0
    } while (depth > 0 || mark != ";")
    return size
}

# The source without comments and contracts, and with nothing in its texts. Lines keep their numbers.
function without_texts(rest,    kept, begins, size) {
    kept = ""
    while (match(rest, /\/\/|\/\*|b'|b?r?#*"|[^A-Za-z0-9_](requires|ensures|ghost)[^A-Za-z0-9_]/)) {
        begins = substr(rest, RSTART, RLENGTH)
        kept = kept substr(rest, 1, RSTART - 1)
        rest = substr(rest, RSTART + RLENGTH)
        kept = kept line_ends(begins) (begins ~ /^b.*"/ ? "b\"\"" : " ")
        size = text_size(begins, rest)
        kept = kept line_ends(substr(rest, 1, size))
        rest = substr(rest, size + 1)
    }
    return kept rest
}

# How much more there is of the text that begins so.
function text_size(begins, rest,    ends) {
    if (begins ~ /requires|ensures|ghost/) {
        return begins ~ /[ \n]$/ ? clause_size(begins, rest) : cannot_read(rest)
    }
    if (begins == "/*") {
        return nested_size(rest, "/\\*", "\\*/")
    }
    ends = "^[^\n]*"
    if (begins == "b'") {
        ends = "^(\\\\.|[^\\\\'])[^']*'"
    } else if (begins == "\"" || begins == "b\"") {
        ends = "^([^\"\\\\]|\\\\.|\\\\\n)*\""
    } else if (begins ~ /"/) {
        gsub(/[^#]/, "", begins)
        ends = "\"" begins
    }
    return match(rest, ends) ? RSTART + RLENGTH - 1 : cannot_read(rest)
}

# A contract, a fact that a type carries or a trait's member is said to hold, or what is imported for these. They are in a language of their own, of
# which the comments and texts are not known here.
function clause_size(begins, rest,    size) {
    if (begins ~ /ghost/ && rest ~ /^use /) {
        size = match(rest, /^use [^;]*;/) ? RLENGTH : cannot_read(rest)
    } else if (match(rest, begins ~ /ghost/ ? "^[A-Za-z0-9_]+( =|:) \\{" : "^([A-Za-z0-9_]+ )?\\{")) {
        size = RLENGTH
        size += nested_size(substr(rest, size + 1), "\\{", "\\}")
    } else {
        size = cannot_read(rest)
    }
    return substr(rest, 1, size) ~ /--|\{-|\/\/|\/\*|"/ ? cannot_read(rest) : size
}

# Up to where it closes; in between others may open and close.
function nested_size(rest, opens, closes,    size, depth) {
    size = 0
    depth = 1
    while (depth > 0) {
        if (!match(substr(rest, size + 1), opens "|" closes)) {
            return cannot_read(rest)
        }
        depth += substr(rest, size + RSTART, RLENGTH) ~ opens ? 1 : -1
        size += RSTART + RLENGTH - 1
    }
    return size
}

# The rest of the file is not searched.
function cannot_read(rest) {
    print file[f] ":" length(line_ends(source[f])) - length(line_ends(rest)) ": cannot read on from here"
    return length(rest)
}

function line_ends(text) {
    gsub(/[^\n]/, "", text)
    return text
}
