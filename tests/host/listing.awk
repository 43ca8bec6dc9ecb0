# Reads what objdump prints of an archive for x86-64: objdump -t, then -r, then -d -r --no-show-raw-insn. Used by calls.awk.
#   exported[1 .. exports]      the exported functions;   known[name]   every function of the symbol table
#   entry[section, address]     the function that begins there
#   functions[1 .. function_count], first[name], home[name]   the functions in the listing, their first instruction and section
#   code[i], operands[i], at[i], of[i]   instruction i, its address in words, its function;   here[section, address]   its number
#   moved[i]                    the name that instruction i refers to, where the linker puts it in
#   offset[section, address]    the same of a table of offsets;   table_start[section, address]   a place that an instruction refers to

# A number in hexadecimal; one of 64 bits that begins with 32 ones is negative.
function number(hex,    n, i) {
    sub(/^0x/, "", hex)
    if (length(hex) == 16 && hex ~ /^ffffffff/) return number(substr(hex, 9)) - 4294967296
    n = 0
    for (i = 1; i <= length(hex); i++)
        n = 16 * n + index("0123456789abcdef", substr(hex, i, 1)) - 1
    return n
}

# The name of a relocation, and what is added to it.
function base(value) {
    sub(/[-+]0x[0-9a-f]+$/, "", value)
    return value
}
function added(value,    sign) {
    if (!match(value, /[-+]0x[0-9a-f]+$/)) return 0
    sign = substr(value, RSTART, 1) == "-" ? -1 : 1
    return sign * number(substr(value, RSTART + 1))
}

/^Disassembly of section / { section = $4; sub(/:$/, "", section); part = "code"; next }
/^RELOCATION RECORDS FOR / { section = $4; gsub(/^\[|\]:$/, "", section); part = "relocations"; next }
/^SYMBOL TABLE:/ { part = "symbols"; next }

part == "symbols" && / F / {
    entry[$(NF - 2), number($1)] = $NF
    if ($2 == "g") exported[++exports] = $NF
    known[$NF] = 1
}

part == "relocations" && /^[0-9a-f]+ +R_/ && section ~ /^\.rodata/ { offset[section, number($1)] = $3 }

part == "code" && /^[0-9a-f]+ <.*>:$/ {
    name = $0
    sub(/^[0-9a-f]+ </, "", name)
    sub(/>:$/, "", name)
    functions[++function_count] = name
    first[name] = count + 1
    home[name] = section
    next
}

part == "code" && /^ *[0-9a-f]+:\t/ {
    line = $0
    sub(/ *#.*/, "", line)
    sub(/ +<.*>$/, "", line)
    split(line, fields, "\t")
    count++
    at[count] = fields[1]
    gsub(/[ :]/, "", at[count])
    text = fields[2]
    while (text ~ /^(notrack|bnd|repz|rep|data16|cs) /) sub(/^[a-z0-9]+ +/, "", text)
    code[count] = text
    sub(/ .*/, "", code[count])
    operands[count] = text
    if (!sub(/^[^ ]+ +/, "", operands[count])) operands[count] = ""
    of[count] = name
    here[section, number(at[count])] = count
    next
}

part == "code" && /^\t+[0-9a-f]+: R_/ {
    moved[count] = $3
    table_start[base($3), added($3) + 4] = 1
}
