# The measured figures as tables of a page.

# Starts a table when a new kind of figure begins.
function begin(columns, rule) {
    if ($1 == kind)
        return
    kind = $1
    rule = columns
    gsub(/[^|]+/, "---", rule)
    print "\n" columns "\n" rule
}

$1 == "calls" {
    begin("| instructions of one call | proved | second | ratio |")
    printf "| %s | %d | %d | %.2f |\n", $2, $3, $4, $3 / $4
}

$1 == "growth" {
    begin("| instructions of the proved library | 1,024 bytes | 2,048 bytes | 4,096 bytes | last to first |")
    printf "| %s | %d | %d | %d | %.2f |\n", $2, $3, $4, $5, $5 / $3
}

$1 == "stack" {
    begin("| most bytes of stack | proved | second |")
    printf "| %s | %d | %d |\n", $2, $3, $4
}

$1 == "bytes" {
    begin("| bytes | proved | second |")
    printf "| %s | %d | %d |\n", $2, $3, $4
}

END { print "" }
