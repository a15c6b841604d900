# From the first line of `work WHAT stores` and a trace of its instructions and stores, in the form of valgrind's lackey: for each call its size,
# its instructions, the bytes that it stores in the message, how many of the message's bytes those are, and the bytes that it stores elsewhere.
# What the code of host/work.c itself does is not counted, nor is the return address of its call.
NR == 1 { mark = $1; from = hex($2); to = hex($3); first = hex($4); last = hex($5); next }
$1 == "S" && substr($2, 1, index($2, ",") - 1) == mark {
    if (within) {
        print size, instructions, stored, different, elsewhere
        size = size == 256 ? 4096 : size + 1
    }
    within = !within
    instructions = stored = different = elsewhere = 0
    split("", times)
    next
}
!within { next }
$1 == "I" { own = hex($2) >= from && hex($2) < to; instructions += !own }
($1 == "S" || $1 == "M") && !own {
    at = hex($2)
    split($2, parts, ",")
    for (i = 0; i < parts[2]; i++)
        if (at + i < first || at + i >= last) elsewhere++
        else {
            stored++
            if (times[at + i]++ == 0) different++
        }
}
BEGIN { size = within = 0 }

# The number in hexadecimal that a text begins with.
function hex(text,    i, n, d) {
    n = 0
    for (i = 1; (d = index("0123456789abcdef", substr(text, i, 1))) > 0 && i <= length(text); i++) n = 16 * n + d - 1
    return n
}
