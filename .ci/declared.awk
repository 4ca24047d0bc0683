# Prints LINE NAME FILE for each declaration of the .antt files that it is given; for a field of a record or a constructor NAME is OUTER.FIELD.
# A declaration stands at the left edge of its file, or at that of a section (`module _ .. where`, `mutual`) which itself stands at such an edge. It is
# `NAME : ..`, `NAME {..} : ..`, `record NAME ..` or `data NAME ..`, with marks (`unfoldable abbrev pub`) before it. What is indented further belongs
# to the declaration above it: clauses that run on, and all of a `where` block. A `use` line is printed as the name `use`, which no declaration has.
FNR == 1 { edge[depth = 1] = 0; heading = entered = 0; owner = "" }
/^ *(--.*)?$/ { next }
{
    indent = match($0, /[^ ]/) - 1
    if (entered) { if (indent > edge[depth]) edge[++depth] = indent; entered = 0 }
    if (!heading) while (indent < edge[depth]) depth--
    for (k = 1; $k ~ /^(unfoldable|abbrev|pub|axiom)$/; k++) {}
    if (indent == edge[depth] && $k ~ /^(module|mutual)$/) { heading = 1; owner = "" }
    if (heading) { if ($NF ~ /^(where|mutual)$/) { heading = 0; entered = 1 } next }
    if (indent == edge[depth]) {
        if ($k ~ /^(use|mod|open)$/) { print FNR, "use", FILENAME; owner = "" }
        else if ($k ~ /^(record|data)$/) { owner = $(k + 1); inner = 0; print FNR, owner, FILENAME }
        else if (signs(k)) { print FNR, $k, FILENAME; owner = "" }
    } else if (owner != "" && signs(k) && (!inner || indent == inner)) { inner = indent; print FNR, owner "." $k, FILENAME }
}
# Whether the words from k on are a name and a colon, with arguments in braces between them.
function signs(k) {
    if ($k ~ /^[({=|]/) return 0
    for (k++; $k ~ /^\{/; k++) while ($k !~ /\}$/ && k < NF) k++
    return $k == ":"
}
