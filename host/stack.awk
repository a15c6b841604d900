# From `objdump -dr` of the archive, the stack of each exported call: its return address, what it pushes and reserves or uses below its
# stack pointer, and the deepest of what it calls.
/^[0-9a-f]+ <.*>:$/ { f = $2; gsub(/^<|>:$/, "", f); own[f] = below[f] = 0; next }
/\tpush / { own[f] += 8 }
/\tsub +\$0x[0-9a-f]+,%rsp/ { own[f] += hex($0, "[$]0x") }
/-0x[0-9a-f]+\(%rsp/ { n = hex($0, "-0x"); if (n > below[f]) below[f] = n }
/R_X86_64_PLT32/ { to = $3; sub(/^\.text\./, "", to); sub(/[-+]0x[0-9a-f]+$/, "", to); calls[f] = calls[f] " " to }
END { for (f in own) if (f ~ /^hexbus_/) print "code", f, 8 + deepest(f) }

function deepest(g,    list, n, i, most) {
    if (!(g in own)) return 0
    if (g in known) return known[g]
    if (g in open) { print "stack: " g " calls itself" > "/dev/stderr"; exit 1 }
    open[g] = 1
    most = below[g]
    n = split(calls[g], list, " ")
    for (i = 1; i <= n; i++) if (8 + deepest(list[i]) > most) most = 8 + deepest(list[i])
    return known[g] = own[g] + most
}

# The number in hexadecimal behind the last place that looks like this.
function hex(line, mark,    i, n) {
    sub(".*" mark, "", line)
    for (i = 1; (n = index("0123456789abcdef", substr(line, i, 1))) > 0 && i <= length(line); i++) known_hex = (i == 1 ? 0 : 16 * known_hex) + n - 1
    return known_hex
}
