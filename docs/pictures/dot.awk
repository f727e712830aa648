# Turns the last graph among the replies of a script into the language of Graphviz: a box a block, an arrow a pointer.
# A line of a graph is a label, a kind and fields NAME=VALUE; no other reply looks so. Ends with 1 where there is no graph.

BEGIN {
    name = "[A-Za-z_][A-Za-z0-9_]*"
    field = name "(\\[[0-9]+\\])?"
    label = "^(#[0-9]+|" name ")$"
    part = "^" field "=(-?[0-9]+|(#[0-9]+|" name ")(\\." field ")?)$"
    kind = "^" name "$"
}

function is_block(    at) {
    if (NF < 2 || $1 !~ label || $2 !~ kind) return 0
    for (at = first_field(); at <= NF; at++)
        if ($at !~ part) return 0
    return 1
}

# A block with one modifiable has two words for its kind.
function first_field() { return $2 == "mod" ? 4 : 3 }

# The part of a box that a field has: an element of a row has another one than a field of any name.
function port(field,    cut) {
    cut = index(field, "[")
    return cut ? "row_" substr(field, cut + 1, length(field) - cut - 1) "_" substr(field, 1, cut - 1) : "field_" field
}

# Keeps the box, with a part for each field, and the arrows that begin in it.
function draw(    at, cut, field, value, row) {
    row = "<block> " $1 "\\n" ($2 == "mod" ? $2 " " $3 : $2)
    for (at = first_field(); at <= NF; at++) {
        cut = index($at, "=")
        field = substr($at, 1, cut - 1)
        value = substr($at, cut + 1)
        if (value ~ /^-?[0-9]+$/ || value == "null") {
            row = row "|<" port(field) "> " field " = " value
            continue
        }
        row = row "|<" port(field) "> " field
        cut = index(value, ".")
        value = cut ? "\"" substr(value, 1, cut - 1) "\":" port(substr(value, cut + 1)) : "\"" value "\":block"
        arrow[++arrows] = "  \"" $1 "\":" port(field) " -> " value ";"
    }
    box[++boxes] = "  \"" $1 "\" [label=\"" row "\"];"
}

is_block() {
    if (!is_open) boxes = arrows = 0
    is_open = 1
    draw()
    next
}
{ is_open = 0 }

END {
    if (!boxes) exit 1
    print "digraph memory {\n  rankdir=LR;\n  node [shape=record, fontname=\"monospace\"];"
    for (at = 1; at <= boxes; at++) print box[at]
    for (at = 1; at <= arrows; at++) print arrow[at]
    print "}"
}
