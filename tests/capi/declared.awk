# The declarations of C that a source stands for: a line for each struct and for each function, as the header has them but for its comments
# and line breaks. Input: crates/capi/src/*.rt and what it hands out of cursors, tables and stored counts, or what Rust declares of the boundary,
# bindings/rust/src/raw.rs.

function c_type(t) {
    sub(/<u/, "U", t) # Number<u64> of Rust is NumberU64
    sub(/<i/, "I", t)
    sub(/>/, "", t)
    if (t == "usize") return "size_t"
    if (t == "bool") return "bool"
    if (t ~ /^u[0-9]+$/) return "uint" substr(t, 2) "_t"
    if (t ~ /^i[0-9]+$/) return "int" substr(t, 2) "_t"
    return "grundavok_" snake(t)
}

# NumberU64 is number_u64
function snake(t,    out, i, ch) {
    for (i = 1; i <= length(t); i++) {
        ch = substr(t, i, 1)
        out = out (ch ~ /[A-Z]/ && i > 1 ? "_" : "") tolower(ch)
    }
    return out
}

# a parameter; a slice is a pointer and a length
function c_param(name, t,    element) {
    if (t ~ /^\*const /) return "const " c_type(substr(t, 8)) " *" name
    if (t ~ /^\*mut /) return c_type(substr(t, 6)) " *" name
    if (t !~ /^&/) return c_type(t) " " name
    if (t ~ /^&mut [A-Z]/) return c_type(substr(t, 6)) " *" name # one struct
    element = t
    gsub(/[&\[\] ]|mut/, "", element)
    return (t ~ /mut/ ? "" : "const ") c_type(element) " *" name ", size_t " name "_len"
}

# a field; an array has its length behind the name
function c_field(name, t,    part) {
    if (t !~ /^\[/) return c_type(t) " " name ";"
    gsub(/[\[\]]/, "", t)
    split(t, part, "; ")
    return c_type(part[1]) " " name "[" part[2] "];"
}

function pair(text,    at) {
    sub(/^ *(pub )?/, "", text)
    sub(/ *$/, "", text)
    at = index(text, ": ")
    name = substr(text, 1, at - 1)
    type = substr(text, at + 2)
    return at > 0
}

{ sub(/\/\/.*/, ""); text = text " " $0 }

END {
    gsub(/ +/, " ", text)
    n = split(text, item, /#\[unsafe\(no_mangle\)\] pub extern "C" fn |#\[repr\(C\)\] (#\[derive\([A-Za-z, ]*\)\] )?pub struct |; pub fn |extern "C" { pub fn /)
    for (i = 2; i <= n; i++) {
        if (item[i] ~ /^[A-Z][A-Za-z0-9]* /) struct(item[i])
        if (item[i] ~ /^grundavok_/) prototype(item[i])
    }
}

function struct(s,    fields, k, count, line) {
    count = split(substr(s, index(s, "{") + 1, index(s, "}") - index(s, "{") - 1), fields, ",")
    for (k = 1; k <= count; k++) if (pair(fields[k])) line = line " " c_field(name, type)
    print "typedef struct {" line " } grundavok_" snake(substr(s, 1, index(s, " ") - 1)) ";"
}

function prototype(s,    params, k, count, line, result) {
    count = split(substr(s, index(s, "(") + 1, index(s, ")") - index(s, "(") - 1), params, ",")
    for (k = 1; k <= count; k++) if (pair(params[k])) line = line (line == "" ? "" : ", ") c_param(name, type)
    result = substr(s, index(s, "-> ") + 3)
    sub(/[ ;].*/, "", result)
    print c_type(result) " " substr(s, 1, index(s, "(") - 1) "(" line ");"
}
