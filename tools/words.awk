# Behind tools/words: reads the table of refusals, then the words of the command line as numbers, and prints one line that says what is refused, and where.

NR == FNR {
    if ($1 ~ /^[0-9]+$/) {
        way[$1] = $2
        text[$1] = $0
        sub(/^[0-9]+ +[a-z]+ +/, "", text[$1])
    }
    next
}
$1 == "role" { role[++words] = $2; part = "name"; next }
$1 == "size" { size[words] = $2; part = "bytes"; next }
{ for (i = 1; i <= NF; i++) byte[words, part, ++count[words, part]] = $i + 0 }

END {
    last = split(ENVIRON["REFUSAL"], said, " ")
    number = said[last - 1]
    place = said[last] + 0
    which = said[2] == "second" ? 2 : 1
    where = place_of(way[number])
    print "senghovai: " (where == "" ? "" : where ": ") (number in text ? text[number] : "refusal " number)
}

function place_of(told) {
    if (told == "rows") return rows_told()
    if (told == "end") return end_told(pick("ARCHIVE"))
    if (told == "pair") return pair_told(pick("ARCHIVE"))
    if (told == "readout") return readout_told()
    if (told == "byte" && pick("READOUTS")) return readout_told() ", character " place + 1
    if (told == "byte") return pick("ROW") ? row_byte_told() : byte_told(pick("ARCHIVE"))
    if (told == "" || told == "none") return place ? "place " place : ""
    return line_told(told, pick("CIRCUIT"))
}

# The word of that role that is meant: the second of two where the refusal says so. 0 where there is none.
function pick(wanted,   k, found, seen) {
    for (k = 1; k <= words; k++)
        if (role[k] == wanted && ++seen <= which) found = k
    return found + 0
}

# Bytes as they can be shown: an octal number for what is no printed character.
function shown(k, section, from, to,   s, i, b) {
    for (i = from; i <= to && i < from + 60; i++) {
        b = byte[k, section, i]
        s = s (b >= 32 && b < 127 && b != 92 ? sprintf("%c", b) : sprintf("\\%03o", b))
    }
    return i <= to ? s "..." : s
}

function quoted(k, section, from, to) { return "\"" shown(k, section, from, to) "\"" }

function name(k) { return shown(k, "name", 1, count[k, "name"]) }

# A file's name, and which of two it is.
function file(k,   i, same) {
    for (i = 1; i <= words; i++) same += role[i] == role[k]
    return name(k) (same > 1 ? which == 2 ? ", the second file" : ", the first file" : "")
}

function readout_told() { return name(pick("READOUTS")) ", line " ENVIRON["LINE"] }

# ---- lines of a text

# Sets from and to, the bytes of a line of word k without its end byte.
function find_line(k, wanted,   i, line) {
    from = line = 1
    for (i = 1; i <= count[k, "bytes"]; i++)
        if (byte[k, "bytes", i] == 10) {
            if (line++ == wanted) break
            from = i + 1
        }
    to = i - 1
}

# The line as text, in which a byte that no line may hold is a question mark.
function plain(k,   s, i, b) {
    for (i = from; i <= to; i++) {
        b = byte[k, "bytes", i]
        s = s (b >= 32 && b < 127 ? sprintf("%c", b) : "?")
    }
    return s
}

# Whether s is the front of an allowed line.
function is_front(s) {
    if (place == 1) return s ~ /^Q( (0|[1-9][0-9]?[0-9]?)?)?$/
    if (s ~ /^C([XZ]( ((0|[1-9][0-9]?[0-9]?)( (0|[1-9][0-9]?[0-9]?)?)?)?)?)?$/) return 1
    return s ~ /^([HSXYZ]|MR?)( (0|[1-9][0-9]?[0-9]?)?)?$/
}

function misfit(s,   c) {
    for (c = 1; c <= length(s); c++)
        if (!is_front(substr(s, 1, c))) return c
    return c
}

# How many qubits there are, as line 1 says.
function qubits(k) {
    find_line(k, 1)
    return substr(plain(k), 3) + 0
}

function column(told, s, n,   word, c) {
    if (told == "misfit") return misfit(s)
    if (told == "number") return 3
    split(s, word, " ")
    c = length(word[1]) + 2
    if (told == "again" || (told == "qubit" && word[2] + 0 < n)) return c + length(word[2]) + 1
    return told == "qubit" ? c : 0
}

function line_told(told, k,   n, s, c) {
    if (!k) return "line " place
    n = told == "qubit" ? qubits(k) : 0
    find_line(k, place)
    s = plain(k)
    c = column(told, s, n)
    return file(k) ", line " place (c ? ", column " c : "") ", " \
        (told == "misfit" && c > length(s) ? "at the end of " : "") quoted(k, "bytes", from, to) \
        (told == "qubit" ? ", qubits are 0 to " n - 1 : "") (told == "coin" ? ", with the " size[pick("COINS")] + 0 " coin(s) of " name(pick("COINS")) : "")
}

# ---- bytes and rows of a record

# Sets, from the last 12 bytes of word k: wide (n), rows_back and start_back (the distances), is_marked. 0 where there are fewer bytes.
function read_end(k,   c) {
    c = count[k, "bytes"]
    if (c < 12) return 0
    rows_back = little(k, c - 11, 4)
    start_back = little(k, c - 7, 4)
    wide = little(k, c - 3, 2)
    is_marked = byte[k, "bytes", c - 1] == 83 && byte[k, "bytes", c] == 82
    return 1
}

function little(k, at, length_,   v) {
    while (length_ > 0) v = 256 * v + byte[k, "bytes", at + --length_]
    return v
}

function end_told(k,   right) {
    if (!read_end(k)) return file(k) ", which has " size[k] + 0 " byte(s), less than a record's 12 last"
    right = 12 + 2 * wide * (wide + 1)
    return file(k) ", last 12 bytes, " (!is_marked ? "of which the last two are not SR" : \
        wide < 1 || wide > most_qubits ? "where n is " wide ", not 1 to " most_qubits : \
        rows_back != right ? "where the rows' distance is " rows_back ", and with n = " wide " it is " right : \
        "where the start's distance is " start_back ", and has to be " right " to " right + most_operations " and within the file's " size[k] " bytes")
}

# A byte of the record, and the same byte of the file.
function both(k, at) { return "byte " at " of the last record (byte " size[k] - start_back + at " of the file)" }

function byte_told(k,   at, kind) {
    if (!read_end(k)) return file(k) ", byte " place
    at = place - (start_back - rows_back)
    kind = at < 0 ? "an outcome" : at % (wide + 1) ? "the letter of qubit " at % (wide + 1) - 1 " in row " int(at / (wide + 1)) : "the sign of row " at / (wide + 1)
    at = count[k, "bytes"] - start_back + place + 1
    return file(k) ", " both(k, place) ", " kind ", is " quoted(k, "bytes", at, at)
}

# Where row i begins in the record.
function row_at(i) { return start_back - rows_back + i * (wide + 1) }

# Whether rows i and j anticommute: an odd number of places hold two different letters, neither being I (73).
function is_odd(k, i, j,   first, q, a, b, odd) {
    first = count[k, "bytes"] - start_back + 1
    for (q = 1; q <= wide; q++) {
        a = byte[k, "bytes", first + row_at(i) + q]
        b = byte[k, "bytes", first + row_at(j) + q]
        if (a != b && a != 73 && b != 73) odd = !odd
    }
    return odd + 0
}

function pair_told(k,   j) {
    if (!read_end(k)) return file(k) ", row " place
    for (j = place + 1; j < 2 * wide; j++)
        if (is_odd(k, place, j) != (j == place + wide)) break
    return file(k) ", rows " place " and " j ", which begin at " both(k, row_at(place)) " and " both(k, row_at(j))
}

# ---- rows that are words

function row_byte_told(   at, k) {
    k = place < count[1, "name"] ? 1 : 2
    at = k == 1 ? place : place - count[1, "name"]
    return "the " (k == 1 ? "first" : "second") " row, byte " at ", is " quoted(k, "name", at + 1, at + 1)
}

function rows_told() {
    return quoted(1, "name", 1, count[1, "name"]) " of " count[1, "name"] + 0 " bytes and " quoted(2, "name", 1, count[2, "name"]) " of " count[2, "name"] + 0
}
