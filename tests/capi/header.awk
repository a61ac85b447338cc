# The declarations of a header, a line for each, without comments, constants and line breaks: what declared.awk writes of the source.

/^#ifdef __cplusplus/ { cplusplus = 1 }
!cplusplus && !/^#/ { text = text " " $0 }
/^#endif/ { cplusplus = 0 }

END {
    while ((at = index(text, "/*")) > 0) {
        rest = substr(text, at)
        text = substr(text, 1, at - 1) substr(rest, index(rest, "*/") + 2)
    }
    gsub(/[ \t]+/, " ", text)
    for (i = 1; i <= length(text); i++) {
        ch = substr(text, i, 1)
        depth += (ch == "{") - (ch == "}")
        line = line ch
        if (ch == ";" && depth == 0) {
            sub(/^ /, "", line)
            if (line !~ /^enum /) print line # constants
            line = ""
        }
    }
}
