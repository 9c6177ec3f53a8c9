# Writes a changed copy of a source for each change of a list, and prints its name, the word breaks or equal, and the
# options of compare: awk -v folder=FOLDER -f copies.awk SOURCE LIST
function stop(what) {
    print FILENAME ":" FNR ": " name ": " what >"/dev/stderr"
    stopped = 1
    exit 1
}

function joined(text, line) {
    return text == "" ? line : text "\n" line
}

function places(part, text, count, at) {
    text = source
    while ((at = index(text, part)) > 0) {
        count++
        text = substr(text, at + 1)
    }
    return count + 0
}

function write_copy(at, file) {
    at = index(source, old)
    file = folder "/" name ".c"
    printf "%s", substr(source, 1, at - 1) new substr(source, at + length(old)) >file
    close(file)
}

function end_change() {
    if (name == "" || name in seen)
        stop("no name of its own")
    if (kind == "" || (kind == "breaks") != (part != "") || old == "" || new == "")
        stop("a line is missing or too many")
    if (places(old) != 1)
        stop("the old text stands " places(old) " times in the source")
    seen[name] = 1
    write_copy()
    print name, kind (part == "" ? "" : " --part " part)
    name = kind = part = old = new = ""
    open = 0
}

NR == FNR {
    source = source $0 "\n"
    next
}
/^#/ { next }
/^$/ {
    if (open)
        end_change()
    next
}
!/^(name|breaks|equal|part|old|new): ./ { stop("no such line") }
{
    open = 1
    value = substr($0, index($0, ": ") + 2)
}
/^name:/ { name = value }
/^breaks:/ { kind = "breaks" }
/^equal:/ { kind = "equal" }
/^part:/ { part = value }
/^old:/ { old = joined(old, value) }
/^new:/ { new = joined(new, value) }
END {
    if (open && !stopped)
        end_change()
}
