# The calls of an archive for x86-64: awk -f listing.awk -f calls.awk reads what objdump prints of it (listing.awk says what).
#
# Prints a line for each exported function, parted by tabs: its name, its greatest call depth (the functions that are active at once, itself
# among them) and its greatest stack (the bytes from its return address down, those below the stack pointer that it uses among them).
#
# Every instruction that can be reached is followed with the bytes of stack at it. What is not understood fails, with its place: a cycle of
# calls, a call or a jump through a register or a table (save a jump into its own function by a table of offsets, as a compiler
# lays out a choice), a call of what is not in the archive (save those that -v also='NAME ..' names), a stack pointer that is set by anything but push, pop and constants, and an
# instruction that is reached with two sizes of the stack. Each failure is one line, and the exit status is then 1.

function fail(text) {
    print "calls: " text
    failed = 1
}

# Where instruction i is, in words.
function place(i) { return of[i] " at " at[i] ": " code[i] (operands[i] == "" ? "" : " " operands[i]) }

# ---- the stack at each instruction

# Instruction i is reached with so many bytes on the stack.
function reach(i, size, from) {
    if (i != from + 1) landed[i] = 1
    if (!(i in of) || of[i] != of[from])
        fail(place(from) " goes on outside its function")
    else if (!(i in bytes)) {
        bytes[i] = size
        waiting[++waiters] = i
    } else if (bytes[i] != size)
        fail(place(i) " is reached with " bytes[i] " and with " size " bytes of stack")
}

# What a relocation names, and whether it is one of the functions of the C library that may be called: leaves, of which a return address is counted alone.
function called(text) {
    sub(/[-+]0x[0-9a-f]+$/, "", text)
    return text
}
function is_leaf(name,    k, names, n) {
    n = split(also, names, " ")
    for (k = 1; k <= n; k++)
        if (names[k] == name) {
            own[name] = 8
            return 1
        }
    return 0
}

# The function of instruction i calls what i names, with so many bytes on the stack.
function calls(i, size,    to, name) {
    if (i in moved) {
        to = base(moved[i])
        name = to in known ? to : entry[to, added(moved[i]) + 4]
    } else
        name = entry[home[of[i]], number(operands[i])]
    if (!(name in first) && (i in moved) && is_leaf(called(moved[i]))) name = called(moved[i])
    else if (!(name in first)) {
        fail(place(i) " " moved[i] ": what is called is not in the archive")
        return
    }
    callees[of[i]]++
    callee[of[i], callees[of[i]]] = name
    below[of[i], callees[of[i]]] = size
}

# The last instruction before the jump i that is no load of another register; up to three of those may stand between.
function before_loads(i,    k) {
    for (k = i - 1; k > i - 4 && code[k] ~ /^movq?$/ && operands[k] ~ /,%r([abcd]x|[sd]i|bp|[0-9]+)$/ && !ends(operands[k], "," substr(operands[i], 2)); k--);
    return k
}

# Whether instruction k and the two before it make i a jump by a table of offsets: lea TABLE(%rip),T; movslq (T,I,4),R; add T,R; then jmp *R.
function by_table(i, k,    r, t, source) {
    r = substr(operands[i], 2)
    t = operands[k]
    sub(/,.*/, "", t)
    source = operands[k - 1]
    sub(/^0x0/, "", source)
    return code[k - 2] ~ /^leaq?$/ && operands[k - 2] ~ /^(0x0)?\(%rip\),/ && ends(operands[k - 2], "," t) && base(moved[k - 2]) ~ /^\.rodata/ &&
        code[k - 1] ~ /^movslq?$/ && index(source, "(" t ",") == 1 && ends(source, ",4)," r) &&
        code[k] ~ /^addq?$/ && operands[k] == t "," r
}
function ends(text, end) { return substr(text, length(text) - length(end) + 1) == end }

# A jump by a table: each of its offsets must lead into the function.
function choose(i, size,    table, start, k) {
    k = before_loads(i)
    if (!by_table(i, k)) {
        fail(place(i) ": an indirect jump")
        return
    }
    chosen[++choices] = i
    began[choices] = k - 1
    table = base(moved[k - 2])
    start = added(moved[k - 2]) + 4
    for (k = start; ((table, k) in offset) && (k == start || !((table, k) in table_start)); k += 4) {
        if (base(offset[table, k]) == home[of[i]])
            reach(here[home[of[i]], added(offset[table, k]) - (k - start)], size, i)
        else
            fail(place(i) ": its table leads to " offset[table, k])
    }
    if (k == start) fail(place(i) ": an indirect jump by no table")
}

function take(name, size) { if (size > own[name]) own[name] = size }

# Follows instruction i: the stack that it takes, whom it calls and where control goes from it.
function follow(i,    o, a, size, now) {
    o = code[i]
    a = operands[i]
    size = now = bytes[i]
    if (o ~ /^push(q|fq?)?$/) now += 8
    else if (o ~ /^pop(q|fq?)?$/ && a != "%rsp") now -= 8
    else if (o ~ /^(sub|add)q?$/ && a ~ /^\$0x[0-9a-f]+,%rsp$/) now += (o ~ /^sub/ ? 1 : -1) * number(substr(a, 2, index(a, ",") - 2))
    else if (a ~ /(^|,)%[re]?spl?$/ || (o ~ /^x(chg|add)/ && a ~ /%[re]?spl?,/) || o ~ /^(leave|enter)/) fail(place(i) ": where the stack pointer is then is not known")
    take(of[i], now)
    if (match(a, /-0x[0-9a-f]+\(%rsp/)) take(of[i], size + number(substr(a, RSTART + 1, RLENGTH - 6)))
    if (now < 8) fail(place(i) ": the return address is taken off the stack")
    if (o ~ /^call/) {
        if (a ~ /^\*/) fail(place(i) ": an indirect call")
        else calls(i, size)
    }
    if (o ~ /^ret/) {
        if (size != 8) fail(place(i) " returns with " size " bytes of stack")
    } else if (o ~ /^jmp/ && a ~ /^\*/) choose(i, size)
    else if (o ~ /^j/) {
        if (i in moved) calls(i, size - 8)
        else reach(here[home[of[i]], number(a)], size, i)
        if (o !~ /^jmp/) reach(i + 1, size, i)
    } else if (o !~ /^ud2/) reach(i + 1, now, i)
}

# ---- the calls of each function

# Measures a function after all that it calls; the chain is how it was come to.
function measure(name, chain,    k, to) {
    state[name] = "open"
    depth[name] = 1
    stack[name] = own[name]
    for (k = 1; k <= callees[name]; k++) {
        to = callee[name, k]
        if (state[to] == "open") {
            fail("a cycle: " chain " > " to)
            continue
        }
        if (state[to] == "") measure(to, chain " > " to)
        if (depth[to] + 1 > depth[name]) depth[name] = depth[to] + 1
        if (below[name, k] + stack[to] > stack[name]) stack[name] = below[name, k] + stack[to]
    }
    state[name] = "done"
}

END {
    for (f = 1; f <= function_count; f++) {
        i = first[functions[f]]
        own[functions[f]] = 8
        bytes[i] = 8
        waiting[++waiters] = i
    }
    while (waiters > 0) follow(waiting[waiters--])
    for (f = 1; f <= choices; f++) # the instructions of a jump by a table are passed through one after another
        for (i = began[f]; i <= chosen[f]; i++)
            if (i in landed) fail(place(i) ": a jump leads into a jump by a table")
    for (f = 1; f <= function_count; f++)
        if (state[functions[f]] == "") measure(functions[f], functions[f])
    if (exports == 0) fail("no exported function")
    if (failed) exit 1
    for (f = 1; f <= exports; f++)
        print exported[f] "\t" depth[exported[f]] "\t" stack[exported[f]]
}
