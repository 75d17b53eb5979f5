# The most stack that each entry of a library can take, from its machine code: objdump -d -r --no-show-raw-insn LIBRARY | awk -f stack.awk
#
# Prints a line 'NAME OCTETS' for each hub_ function: its return address, its frame and those of all it calls, the red zone where it is used;
# not what memcpy and memset take. Every way through a function is followed. Whatever cannot be told (a call through a pointer, recursion, a stack
# pointer that is computed, two depths at one place) ends with exit code 1 and the place.

function fail(what) {
    print "stack: " name (n ? " at " at[here] ": " op[here] " " arg[here] : "") ": " what > "/dev/stderr"
    bad = 1
    exit 1
}

# The value of hexadecimal digits; sixteen of them that begin with f are a number below zero.
function hex(digits,    value, i) {
    if (length(digits) == 16)
        return hex(substr(digits, 9)) - (substr(digits, 1, 8) == "ffffffff" ? 4294967296 : 1e18)
    value = 0
    for (i = 1; i <= length(digits); i++)
        value = 16 * value + index("0123456789abcdef", substr(digits, i, 1)) - 1
    return value
}

function most(a, b) {
    return a > b ? a : b
}

# The depth behind an instruction that is come to with a depth.
function after(i, depth) {
    if (op[i] == "push")
        return depth + 8
    if (op[i] == "pop")
        return depth - 8
    if (arg[i] ~ /^\$0x[0-9a-f]+,%rsp$/ && (op[i] == "sub" || op[i] == "add"))
        return depth + (op[i] == "sub" ? 1 : -1) * hex(substr(arg[i], 4, index(arg[i], ",") - 4))
    if (arg[i] ~ /,%[er]sp$/ && op[i] !~ /^(cmp|test)/ || op[i] ~ /^(enter|leave)/)
        fail("the stack pointer is computed")
    return depth
}

# Keeps that the function calls another at a depth, its return address included.
function calls(callee, depth) {
    if (callee == "")
        fail("a call that names no function")
    if (!((name, callee) in edge))
        callees[name] = callees[name] callee "\n"
    edge[name, callee] = most(edge[name, callee], depth)
}

# Follows the code from an instruction on, up to a return or to places that are known.
function follow(i, depth,    target) {
    for (; i <= n; i++) {
        here = i
        if (i in seen) {
            if (seen[i] != depth)
                fail("two depths, " seen[i] " and " depth)
            return
        }
        seen[i] = depth
        if (match(arg[i], /-0x[0-9a-f]+\(%rsp/))
            frame[name] = most(frame[name], depth + hex(substr(arg[i], RSTART + 3, RLENGTH - 8)))
        depth = after(i, depth)
        frame[name] = most(frame[name], depth)
        if (op[i] == "call")
            calls(symbol[i], depth + 8)
        if (op[i] ~ /^(ret|ud2|hlt)/)
            return
        if (op[i] ~ /^j/)
            jump(i, depth)
        if (op[i] == "jmp")
            return
    }
    fail("the code runs out of the function")
}

# A jump: to another function, by a table, or inside the function, where it is followed later.
function jump(i, depth,    target) {
    if (symbol[i] != "")
        return calls(symbol[i], depth)
    if (arg[i] ~ /^\*/) {
        if (tables++ && table_depth != depth)
            fail("tables at two depths")
        table_depth = depth
        return
    }
    target = arg[i]
    sub(/ .*/, "", target)
    if (!(target in place))
        fail("a jump out of the function")
    waiting[++waits] = place[target] " " depth
}

# Follows all that waits.
function drain(    two) {
    while (waits > 0) {
        split(waiting[waits--], two, " ")
        follow(two[1] + 0, two[2] + 0)
    }
}

# The function that was read: from its first instruction, then from what only a table of jumps can come to.
function finish(    i) {
    if (name == "" || n == 0)
        return
    follow(1, 0)
    drain()
    for (i = 1; i <= n; i++)
        if (!(i in seen) && op[i] !~ /^(nop|xchg|data16|cs|int3)/) {
            here = i
            if (!tables)
                fail("code that nothing comes to")
            follow(i, table_depth)
            drain()
        }
}

# What a function takes below its return address, all that it calls included.
function cost(f,    i, count, list, worst) {
    if (f in known)
        return known[f]
    if (!(f in frame))
        return outside[f] = 0
    if (f in open)
        fail(f " calls itself")
    open[f] = 1
    worst = frame[f]
    count = split(callees[f], list, "\n") - 1
    for (i = 1; i <= count; i++)
        worst = most(worst, edge[f, list[i]] + cost(list[i]))
    delete open[f]
    return known[f] = worst
}

/^[0-9a-f]+ <.*>:$/ {
    finish()
    name = substr($2, 2, length($2) - 3)
    frame[name] = n = tables = waits = 0
    split("", at); split("", op); split("", arg); split("", symbol); split("", place); split("", seen)
    next
}

/^\t+[0-9a-f]+: R_X86_64_/ {
    if (op[n] ~ /^(call|j)/) {
        symbol[n] = $3
        sub(/[-+]0x[0-9a-f]+$/, "", symbol[n])
        sub(/^\.text\./, "", symbol[n])
    }
    next
}

/^ +[0-9a-f]+:\t/ {
    at[++n] = substr($1, 1, length($1) - 1)
    place[at[n]] = n
    op[n] = $2
    arg[n] = $0
    sub(/^ +[0-9a-f]+:\t[^ ]+ */, "", arg[n])
    symbol[n] = ""
}

END {
    if (bad)
        exit 1
    finish()
    n = 0
    for (f in frame)
        if (f ~ /^hub_/)
            print f, 8 + cost(f)
    for (f in outside)
        if (f !~ /^(memcpy|memset)$/)
            fail(f " is not in the library")
}
