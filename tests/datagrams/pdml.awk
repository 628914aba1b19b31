# Prints the fields of SNMP datagrams that tshark shows as PDML, a line each, in the words of fields.c.
function of(name,    at) {
    at = index($0, " " name "=\"")
    if (at == 0) return ""
    at += length(name) + 3
    return substr($0, at, index(substr($0, at), "\"") - 1)
}
/<proto name="snmp"/ { line = "" }
/<field name="snmp.version"/ { line = of("show") }
/<field name="snmp.(community|request_id|error_status|error_index|name)"/ { line = line "," of("show") }
/<field name="snmp.value.int"/ { line = line ",integer=" of("show") }
/<field name="snmp.value.g32"/ { line = line ",gauge=" of("show") }
/<field name="snmp.value.counter"/ { line = line ",counter=" of("show") }
/<field name="snmp.value.octets"/ { line = line ",octets=" of("value") }
/<field name="snmp.value.null"/ { line = line ",none=20" }
/<field name="snmp.noSuchObject"/ { line = line ",none=30" }
/<field name="snmp.noSuchInstance"/ { line = line ",none=31" }
/<field name="snmp.endOfMibView"/ { line = line ",none=32" }
/<\/packet>/ { print line }
