# Reads a layout file, of either form, and what the proved programs said of it; tools/words and tools/map go over it, nobody runs it by itself. The input is
# the lines of the program `mapper`, those of `layout`, and the bytes of the file as `od -An -v -tu1` writes them, any of them left out.
BEGIN {
    CONVFMT = OFMT = "%.15g"
    n = have = shown = blocks = 0
    fault = -1
    split("nothing,bank switch,label,constant,instruction,data,data of open size,reserve,align,addr,assert", kind_name, ",")
    for (i = 0; i <= 10; i++) kinds[i] = kind_name[i + 1]
}
$1 == "file" { form = $2; limit = $3; rows = $4; passes = $5; nodes = $6; have = 1; next }
$1 == "bank" { bank_lines++; split($0, w); take_bank(w); next }
$1 == "node" { split($0, w); take_node(w); next }
$1 == "fault" { fault = $2; next }
$1 == "accepted" || $1 == "refused" { verdict = $0; next }
$1 == "block" { block_from[blocks] = $2; block_size[blocks++] = $3; next }
$1 == "bits" { laid_bits = $2; built = 1; next }
$1 == "passes" { k = $2; next }
{ for (i = 1; i <= NF; i++) b[n++] = $i }

# `mapper`: bank I UNIT START SIZE OFFSET ALIGN FILL BIT PADDING UNITS
function take_bank(w,   i) {
    i = w[2] + 0
    unit[i] = w[3]; start[i] = w[4]; size[i] = w[5]; offset[i] = w[6]; align[i] = w[7]; fill[i] = w[8]; bit[i] = w[9]; padding[i] = w[10]
    whole_units[i] = w[11]; start_text[i] = w[4]
    banks = i + 1
}
# `mapper`: node I KIND BANK POSITION ADDRESS OUTPUT SIZE
function take_node(w,   i) {
    i = w[2] + 0
    kind[i] = w[3]; bank_of[i] = w[4]; position[i] = w[5]; address[i] = w[6]; output[i] = w[7]; bits[i] = w[8]
    shown = i + 1
}

function word(at, count,   v) { v = 0; while (count-- > 0) v = 256 * v + b[at++]; return v }
# eight bytes with a sign, as decimal digits: below zero the number is one past its complement; limbs of seven digits, since a sum would not be exact
function signed(at,   i, j, v, carry, below, limb, text) {
    below = b[at] >= 128
    for (j = 0; j < 3; j++) limb[j] = 0
    for (i = at; i < at + 8; i++) {
        carry = below ? 255 - b[i] : b[i]
        if (below && i == at + 7) carry++
        for (j = 0; j < 3; j++) { v = 256 * limb[j] + carry; carry = int(v / 10000000); limb[j] = v % 10000000 }
    }
    text = sprintf("%d%07d%07d", limb[2], limb[1], limb[0])
    sub(/^0+/, "", text)
    return (below ? "-" : "") (text == "" ? 0 : text)
}

# The fields in turn: form 2's head, banks, nodes, rows, values, limit. `broken` is the first at which no good file goes on, -1 where there is none.
function read_file(   at, tag, long, place, newest) {
    form = n && b[0] == 16 ? 2 : 1
    banks = nodes = rows = fields = at = newest = 0
    broken = -1
    if (n > longest()) { broken = 0; why = "the file is longer than " longest() " bytes, the most that a file of form " form " has"; return }
    while (newest != 5) {
        if (at + 3 > n) return breaks(at, at < n ? "is cut in its head" : "is missing: the file ends before its " (newest < 4 ? "values" : "pass limit"))
        tag = b[at]; long = word(at + 1, 2)
        if (at + 3 + long > n) return breaks(at, "is cut: it says " long " bytes, and " n - at - 3 " are left")
        if (form == 2 && !fields) {
            if (long != 1 || b[at + 3] != 2) return breaks(at, "is not form 2's head, one byte, 2")
        } else {
            place = tag == (form == 2 ? 17 : 1) ? 1 : tag >= 2 && tag <= 5 ? tag : 0
            if (!place) return breaks(at, "has tag " tag ", which is no field of form " form)
            if (newest < 4 ? place < newest || place > 4 : place != 5) return breaks(at, "is " named(place) " and out of order")
            if (place != 4 && long != wanted(place)) return breaks(at, "is " named(place) " of " long " bytes, and not " wanted(place))
            if (place == 1 && b[at + 25] > 15) return breaks(at, "is a bank with flags " b[at + 25] ", above 15")
            if (place == 1 && form == 2 && b[at + 26] > 1) return breaks(at, "is a bank with a fill bit of " b[at + 26] ", above 1")
            newest = place
            take_field(place, at + 3, long)
        }
        at += 3 + long
        fields++
    }
    if (at < n) breaks(at, "is one too many: the pass limit ends a file")
}
function longest() { return form == 2 ? 65536 : 65000 }
function wanted(place) { return place == 1 ? 22 + form : place == 2 ? 5 : place == 3 ? 5 * nodes : 1 }
function named(place) { return place == 1 ? "a bank" : place == 2 ? "a node" : place == 3 ? "a row" : place == 4 ? "the values" : "the pass limit" }
function breaks(at, what) { broken = fields; why = "field " fields ", at byte " at ", " what }
function take_field(place, at, long,   i, flags) {
    if (place == 1) {
        flags = b[at + 22]
        unit[banks] = word(at, 2); start_text[banks] = signed(at + 2); start[banks] = start_text[banks] + 0
        size[banks] = flags % 2 ? word(at + 10, 4) : "-"
        offset[banks] = int(flags / 2) % 2 ? word(at + 14, 4) : "-"
        align[banks] = int(flags / 4) % 2 ? word(at + 18, 4) : "-"
        fill[banks] = int(flags / 8); bit[banks] = form == 2 ? b[at + 23] : 0
        banks++
    } else if (place == 2) {
        kind[nodes] = b[at]; operand[nodes] = word(at + 1, 4)
        nodes++
    } else if (place == 3) {
        for (i = 0; i < nodes; i++) { number[rows, i] = word(at + 5 * i, 4); state[rows, i] = b[at + 5 * i + 4] }
        rows++
    } else if (place == 4) values = long
    else limit = b[at]
}
# The row that a pass reads, from 0: row n, or the last where there are fewer.
function row_of(pass) { return (pass < 1 ? 1 : pass > rows ? rows : pass) - 1 }
# "A field that isn't read isn't checked": kind 5's number is read in the first row, and kinds 0 to 2 have no state.
function reads_number(node, row) { return kind[node] == 4 || kind[node] == 6 || (kind[node] == 5 && row == 0) }
function number_at(node, row) { return number[kind[node] == 5 ? 0 : row, node] }

function is_written(node) { return kind[node] >= 4 && kind[node] <= 6 }
function is_placed(node) { return kind[node] >= 4 && kind[node] <= 7 }

# Words that both tools use: a number in decimal and hex, below 0 in decimal alone; a count.
function hex(v) { return "0x" (v < 16777216 ? sprintf("%x", v) : sprintf("%x%06x", int(v / 16777216), v % 16777216)) }
function both(v) { return v < 10 ? v "" : v " = " hex(v) }
# a start beyond 2^40 is refused, and not exact as a number
function is_beyond(bank) { return start[bank] > 1099511627776 || start[bank] < -1099511627776 }
function start_words(bank) { return is_beyond(bank) ? start_text[bank] : both(start[bank] + 0) }
function several(count, what) { return count " " what (count == 1 ? "" : "s") }
