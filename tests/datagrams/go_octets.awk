# Prints the byte literals that functions of a Go file return, a line each: the function's name and the octets in hex.
/^func [A-Za-z0-9_]+\(\) \[\]byte \{/ { name = $2; sub(/\(.*/, "", name); hex = ""; inside = 1; next }
inside && /^}/ { if (hex != "") print name, hex; inside = 0; next }
inside {
    line = $0
    sub(/\/\/.*/, "", line)
    while (match(line, /0x[0-9a-fA-F]+/)) {
        octet = tolower(substr(line, RSTART + 2, RLENGTH - 2))
        hex = hex (length(octet) == 1 ? "0" : "") octet
        line = substr(line, RSTART + RLENGTH)
    }
}
