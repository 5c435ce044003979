# Reads LLVM's text of a module that clang's -fsanitize=thread instrumented, with compound calls, and looks for two things:
# - accesses that aren't instrumented and aren't a local variable's own: each line is told once, and 10 is added to the status;
# - a read that has no call of its own since a write of the same memory follows, in another line: 20 is added to the status.

function bits(type, n, of) {
    if (type ~ /\*$/ || type == "ptr" || type == "double") return 64
    if (type == "float") return 32
    if (type == "half" || type == "bfloat") return 16
    if (type == "x86_fp80") return 80
    if (type == "fp128") return 128
    if (type ~ /^i[0-9]+$/) return substr(type, 2) + 0
    if (match(type, /^<[0-9]+ x .*>$/)) {
        n = substr(type, 2) + 0
        of = substr(type, index(type, " x ") + 3)
        return n * bits(substr(of, 1, length(of) - 1))
    }
    return 0 # a struct or an array: not instrumented either
}

function instrumented(type, bytes) {
    bytes = int((bits(type) + 7) / 8)
    return bytes == 1 || bytes == 2 || bytes == 4 || bytes == 8 || bytes == 16
}

function location() {
    return match($0, /!dbg ![0-9]+/) ? substr($0, RSTART + 5, RLENGTH - 5) : ""
}

function note(what) {
    found[location()] = what
    any = 1
}

# The last operand, which is the pointer with its type: what follows the first comma that isn't within brackets.
function operand(text, depth, i, c) {
    depth = 0
    for (i = 1; i <= length(text); i++) {
        c = substr(text, i, 1)
        if (c ~ /[<{[(]/) depth++
        else if (c ~ /[>}\])]/) depth--
        else if (c == "," && !depth) break
    }
    return substr(text, i + 2)
}

# The type to which it points.
function type_of(pointer) {
    return match(pointer, /\* ([%@]|getelementptr|bitcast|inttoptr)/) ? substr(pointer, 1, RSTART - 1) : ""
}

function pointer_of(text) {
    return match(text, /\* [%@][-a-zA-Z0-9._"$]+/) ? substr(text, RSTART + 2, RLENGTH - 2) : ""
}

/^define / { delete local }
/^[^ ]+:/ { delete reads } # a block begins
/^  %[^ ]+ = alloca / { local[$1] = 1 }
/^  %[^ ]+ = (getelementptr|bitcast) / { if (pointer_of($0) in local) local[$1] = 1 }
/^  (%[^ ]+ = load|store) / {
    text = $0
    sub(/^  (%[^ ]+ = load|store) /, "", text)
    while (sub(/^(volatile|atomic) /, "", text)) {}
    text = operand(text)
    pointer = pointer_of(text)
    if (!instrumented(type_of(text)) && !(pointer in local)) note(type_of(text))
    if (/ = load /) {
        if (before !~ /@__tsan_/) reads[pointer] = reads[pointer] " " location()
    } else if (before ~ /@__tsan_(unaligned_)?read_write/) {
        split(reads[pointer], of, " ")
        for (i in of) pairs[of[i] " " location()] = 1
        if (!(pointer in reads)) apart = 1
    }
    if (/ store /) delete reads[pointer]
}
/ call .*@llvm\.masked\./ { note("masked") }
/ call .* asm .*\*m/ { note("assembler") }
{ before = $0 }
/^![0-9]+ = (distinct )?!DILocation\(line: / {
    match($0, /line: [0-9]+/)
    line[$1] = substr($0, RSTART + 6, RLENGTH - 6)
}
END {
    for (at in found) told[line[at] + 0] = found[at]
    for (at in told) print "swordcc: " file ":" at ": an access that isn't recorded: " told[at]
    for (pair in pairs) {
        split(pair, of, " ")
        if (!line[of[1]] || line[of[1]] != line[of[2]]) apart = 1
    }
    exit 10 * any + 20 * apart
}
