# Joins the lines of decode_bench (first file) with those of objdump -D -w -M intel (second file).
# An operation of objdump's by the name of the decoder's Op; the empty string where the decoder has none.
function operation(mnemonic, operands,    n) {
    if (mnemonic in named) return named[mnemonic]
    if (mnemonic == "imul") {
        n = gsub(/,/, ",", operands)
        return n == 0 ? "Imul1" : n == 1 ? "Imul2" : "Imul3"
    }
    if (mnemonic ~ /^(j|set|cmov)n?p$|^j[er]cxz$/) return ""
    if (mnemonic ~ /^j[a-z]+$/) return "Jcc"
    if (mnemonic ~ /^set[a-z]+$/) return "Setcc"
    if (mnemonic ~ /^cmov[a-z]+$/) return "Cmov"
    return ""
}
function note(class, at) {
    if (!(class in seen)) { seen[class] = 0; example[class] = at; order[++classes] = class }
    seen[class]++
}
BEGIN {
    split("add or adc sbb and sub xor cmp test mov lea movzx movsx not neg mul div idiv inc dec rol ror shl shr sar " \
        "push pop leave xchg bswap jmp call ret nop syscall hlt ud2 int3", plain, " ")
    for (k in plain) named[plain[k]] = toupper(substr(plain[k], 1, 1)) substr(plain[k], 2)
    named["movabs"] = "Mov"; named["movsxd"] = "Movsx"; named["sal"] = "Shl"; named["endbr64"] = "Nop"
    named["cbw"] = named["cwde"] = named["cdqe"] = "Widen"
    named["cwd"] = named["cdq"] = named["cqo"] = "Signs"
    prefix = "^(lock|rep|repz|repnz|bnd|notrack|data16|addr32|cs|ds|es|ss|fs|gs|rex(\\.[WRXB]+)?)$"
}
FNR == NR { len[$1] = $2; op[$1] = $3; next }
/^ *[0-9a-f]+:\t/ {
    split($0, part, "\t")
    at = part[1]; gsub(/[ :]/, "", at)
    bytes = part[2]; theirs = gsub(/[0-9a-f][0-9a-f]/, "", bytes)
    words = split(part[3], word, " ")
    k = 1; before = ""
    while (k < words && word[k] ~ prefix) { before = before word[k] " "; k++ }
    mnemonic = word[k]
    operands = ""; for (j = k + 1; j <= words; j++) operands = operands word[j]
    all++
    if (mnemonic == "(bad)" || mnemonic == "") {
        if (len[at] != "none") note("decoded where objdump finds nothing: " op[at], at); else bad++
    } else if (len[at] == "none") {
        note((operation(mnemonic, operands) == "" ? "not supported: " : "refused though its operation is supported: ") before mnemonic, at)
    } else if (len[at] != theirs) {
        note("DIFFERENT LENGTH: " op[at] " for " before mnemonic, at)
    } else {
        name = operation(mnemonic, operands)
        # 66 90 is listed as xchg ax,ax, and 90 with REX as a nop or as xchg r8,rax
        if (op[at] == "Nop" && mnemonic == "xchg" && operands == "ax,ax") name = "Nop"
        if (name == op[at]) same++; else note("DIFFERENT OPERATION: " op[at] " for " before mnemonic, at)
    }
}
END {
    printf "%d instructions, %d equal, %d listed as bad and refused\n", all, same, bad
    status = 0
    for (k = 1; k <= classes; k++) {
        class = order[k]
        printf "%7d  %s (first at .text + 0x%s)\n", seen[class], class, example[class]
        if (class ~ /^DIFFERENT|^decoded/) status = 1
    }
    exit status
}
