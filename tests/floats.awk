# Fails if objdump's instructions compute with floats, or do not have the functions:
# objdump -d --no-show-raw-insn FILE | awk -v functions='NAME..' -f floats.awk
# Vector registers are for moves, shuffles, bits and whole numbers, which no float mode changes; any other use is refused.
function fail(what) {
    print what
    bad = 1
}

/^[0-9a-f]+ <.*>:$/ {
    name = substr($2, 2, length($2) - 3)
    next
}
$1 !~ /^[0-9a-f]+:$/ { next }
{
    present[name]
    instruction = substr($0, index($0, "\t") + 1)
    sub(/ *[#<].*/, "", instruction)
}
# where a jump goes is a hexadecimal number, which may look like an instruction
instruction ~ /(^| )(j[a-z]+|call|loop[a-z]*)[, ]/ { next }
# f is x87; a conversion from memory names no vector register
instruction ~ /(^| )(f|v?cvt|v?(ld|st)mxcsr|\(bad\))/ ||
(instruction ~ /%[xyz]?mm/ && instruction !~ /(^| )v?(mov|p[^f]|(andn?|x?or|shuf|unpck[lh])p[sd] )/) {
    fail(name " computes with floats: " instruction)
}
END {
    count = split(functions, wanted)
    for (i = 1; i <= count; i++)
        if (!(wanted[i] in present))
            fail("there is no " wanted[i])
    exit bad || count == 0
}
