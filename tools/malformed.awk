# Says of a malformed line of a script which word is wrong. The line is the only one of the input; `name` is the
# program's name. docs/MACHINE.md has the form of a line, and the program alone decides which lines have it.
#     awk -v name=tower -f tools/malformed.awk

BEGIN {
    operands["load"] = "ADDR SIZE"; operands["store"] = "ADDR SIZE VALUE"; operands["map"] = "PAGE RIGHT"
    operands["unmap"] = "PAGE"; operands["protect"] = "PAGE RIGHT"; operands["info"] = "PAGE"
    operands["offer"] = "PAGE process RIGHT"; operands["withdraw"] = "PAGE process"
    operands["accept"] = "process PAGE PAGE"; operands["spawn"] = "N"; operands["fork"] = "N"
    operands["exit"] = ""; operands["quota"] = ""
    calls = "load, store, map, unmap, protect, info, offer, withdraw, accept, spawn, fork, exit or quota"
}

# A word as it is shown: at most 40 bytes, and what isn't printable as an escape.
function shown(word,    cut) {
    cut = length(word) > 40 ? substr(word, 1, 40) ".." : word
    gsub(/\r/, "\\r", cut); gsub(/\t/, "\\t", cut); gsub(/[^ -~]/, "?", cut)
    return "'" cut "'"
}

function is_decimal(word, most) {
    return word ~ /^[0-9]+$/ && length(word) <= 10 && word + 0 <= most
}

function is_hexadecimal(word) {
    return word ~ /^[0-9A-Fa-f]+$/ && length(word) <= 8
}

# What a word has to be for an operand; "" if it is that.
function wanted(operand, word) {
    if (operand == "CPU") return is_decimal(word, 7) ? "" : "no CPU, which is 0 to 7"
    if (operand == "process") return is_decimal(word, 63) ? "" : "no process, which is 0 to 63"
    if (operand == "N") return is_decimal(word, 4294967295) ? "" : "no number of 32 bits in decimal digits"
    if (operand == "SIZE") return word ~ /^[124]$/ ? "" : "no size, which is 1, 2 or 4"
    if (operand == "RIGHT") return word == "ro" || word == "rw" ? "" : "no right, which is ro or rw"
    if (is_hexadecimal(word)) return ""
    if (word ~ /^0[xX]/) return "written with 0x: it takes 1 to 8 hexadecimal digits only"
    return "no " (operand == "PAGE" ? "page" : operand == "ADDR" ? "address" : "value") ", 1 to 8 hexadecimal digits"
}

# The first thing that is wrong of a line.
function problem(line,    count, words, forms, list, k, why) {
    if (length(line) > 100) return "it has more than 100 bytes"
    if (line ~ /\r$/) return "it ends in a carriage return: lines end in a line feed only"
    if (line ~ /\t/) return "a tab is no space"
    count = split(line, words, / +/)
    if (words[1] == "") { for (k = 1; k < count; k++) words[k] = words[k + 1]; count-- }
    if (count && words[count] == "") count--
    for (k = 1; k <= 2 && k <= count; k++) {
        why = wanted(k == 1 ? "CPU" : "process", words[k])
        if (why != "") return shown(words[k]) " is " why
    }
    if (count < 3) return "it ends before the call: a line is CPU, process, call, operands"
    if (!(words[3] in operands)) return shown(words[3]) " is no call, which is " calls
    list = split(operands[words[3]], forms, / /)
    for (k = 1; k <= list; k++) {
        if (k + 3 > count) return "it ends before the " forms[k] " of " shown(words[3])
        why = wanted(forms[k], words[k + 3])
        if (why != "") return shown(words[k + 3]) " is " why
    }
    return count > list + 3 ? shown(words[list + 4]) " is one word too many after " shown(words[3]) : ""
}

NR == 1 {
    why = problem($0)
    text = length($0) > 100 ? substr($0, 1, 60) : $0
    gsub(/\r/, "\\r", text); gsub(/\t/, "\\t", text); gsub(/[^ -~]/, "?", text)
    print name ": '" text (length($0) > 100 ? "..'" : "'") (why == "" ? "" : ": " why)
}
