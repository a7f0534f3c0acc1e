# What is drawn on each axis of a map, and on which lines; tools/awk/svg.awk draws it. An axis is the output (-1), or a bank that has no place in it.
# Kinds of area: i0 and i1 written items in turn, r reserve, p padding, z and o fill with zeros and ones, f free.

# What a tooltip says of a node, and of a stretch of a bank; a unit of 0 is refused, and drawn as 1.
function per(bank) { return unit[bank] > 0 ? unit[bank] : 1 }
function at_address(bank, from,   past) {
    past = from % per(bank)
    if (is_beyond(bank)) return "from address " start_text[bank]
    return "address " both(start[bank] + (from - past) / per(bank)) (past ? " and " several(past, "bit") : "")
}
function at_output(bank, from, long) {
    if (offset[bank] == "-") return ""
    from += offset[bank]
    return ", output bit" (long > 1 ? "s " : " ") range(from, long) " (byte" (long > 8 ? "s " : " ") bytes(from, long) ")"
}
function node_title(i,   text) {
    text = (called(i) == "" ? "" : called(i) ": ") "node " i ": " kinds[kind[i]] (is_mark(i) ? ", a mark" : "")
    text = text ", bank " bank_of[i] ", " at_address(bank_of[i], position[i])
    text = text at_output(bank_of[i], position[i], bits[i]) (is_placed(i) ? ", " several(bits[i], "bit") : "")
    return kind[i] == 7 && bits[i] > 0 ? text takes_fill(bank_of[i]) : text
}
function stretch_title(what, bank, from, long) {
    return what ", bank " bank ", " at_address(bank, from) at_output(bank, from, long) ", " several(long, "bit")
}
# reserved and skipped bits take the fill bit, except in bank 0, whose fill puts none
function takes_fill(bank) { return bank > 0 && is_filled(bank) ? ", filled with " (bit[bank] ? "ones" : "zeros") : "" }

# The areas and ticks of an axis.
function on_axis(bank, axis) { return axis < 0 ? offset[bank] != "-" : axis == bank }
function base_of(bank, axis) { return axis < 0 ? offset[bank] + 0 : 0 }
function put_area(from, to, class, title, text) {
    if (to <= from) return
    seg_from[segs] = from; seg_to[segs] = to; seg_class[segs] = class; seg_title[segs] = title; seg_text[segs] = text
    segs++
}
function gather(axis,   bank, i) {
    segs = ticks = 0
    axes++
    extent = axis < 0 ? bits_long : 0
    for (bank = 0; bank < banks; bank++) if (on_axis(bank, axis)) gaps(bank, base_of(bank, axis))
    for (i = 0; i < boxes; i++) if (box_what[i] == "p" && on_axis(box_bank[i], axis)) gather_box(i, base_of(box_bank[i], axis), "p")
    items = 0
    for (i = 0; i < boxes; i++)
        if (box_what[i] != "p" && on_axis(box_bank[i], axis)) gather_box(i, base_of(box_bank[i], axis), box_what[i] == "i" ? "i" items++ % 2 : "r")
    for (i = 0; i < shown; i++) if (on_axis(bank_of[i], axis) && i != fault) gather_tick(i, base_of(bank_of[i], axis))
    faulty = fault >= 0 && fault < shown && on_axis(bank_of[fault], axis)
    if (faulty) { fault_from = base_of(bank_of[fault], axis) + position[fault]; reach(fault_from + bits[fault]) }
    if (!extent && faulty) extent = axis < 0 ? 8 : per(axis)
    hit = axis < 0 && verdict ~ /^refused 12 /
    if (hit) { split(verdict, w, " "); hit_from = w[3] + 0; hit_to = hit_from + w[4] }
}
function gather_box(i, base, class,   title) {
    title = node_title(box_node[i])
    if (class == "p")
        title = stretch_title("padding, " called_or_number(box_node[i]), box_bank[i], box_from[i], box_to[i] - box_from[i]) takes_fill(box_bank[i])
    put_area(base + box_from[i], base + box_to[i], class, title, class == "p" ? "" : box_node[i])
    reach(base + box_to[i])
}
# symbols at one place have one tick, and so have marks
function gather_tick(i, base,   key) {
    if (kind[i] != 2 && kind[i] != 3 && !is_mark(i)) return
    key = axes SUBSEP base + position[i] SUBSEP is_mark(i)
    if (!(key in tick_of)) {
        tick_of[key] = ticks
        tick_at[ticks] = base + position[i]
        tick_class[ticks] = is_mark(i) ? "mark" : "constant"
        tick_title[ticks] = node_title(i)
        reach(tick_at[ticks++])
    } else tick_title[tick_of[key]] = tick_title[tick_of[key]] "\n" node_title(i)
    if (kind[i] == 2) tick_class[tick_of[key]] = "label"
}
function is_mark(i) { return is_placed(i) && bits[i] == 0 }
function reach(to) { if (to > extent) extent = to }
# what nothing stands on: the fill as far as the image goes, and free
function gaps(bank, base,   i, count, order, reached) {
    count = reached = 0
    for (i = 0; i < boxes; i++) if (box_bank[i] == bank && box_to[i] > box_from[i]) order[count++] = i
    by_key(order, count, box_from)
    for (i = 0; i < count; i++) {
        put_gap(bank, base, reached, box_from[order[i]])
        if (box_to[order[i]] > reached) reached = box_to[order[i]]
    }
    if (size[bank] == "-") return
    put_gap(bank, base, reached, size[bank] + 0)
    reach(base + size[bank])
}
function put_gap(bank, base, from, to,   filled) {
    if (size[bank] != "-" && to > size[bank]) to = size[bank] + 0
    filled = is_filled(bank) ? bits_long - offset[bank] : 0
    if (filled > to) filled = to
    if (filled > from) {
        put_area(base + from, base + filled, bit[bank] ? "o" : "z", stretch_title("fill with " fill_word(bank), bank, from, filled - from), "")
        from = filled
    }
    put_area(base + from, base + to, "f", stretch_title("free", bank, from, to - from), "")
}

# How many bits a line has: few lines are drawn, of whole bytes and addresses where that can be; where nothing begins or ends on three lines or more,
# those are left out.
function choose_line(axis,   base, whole) {
    line_bits = extent
    if (extent > 640) {
        whole = axis < 0 ? common_unit() : per(axis)
        for (base = 8; base % whole && base < 640; base += 8) continue
        if (base % whole) base = 8
        for (line_bits = base; line_bits < 640 || edge_lines() > 16; line_bits *= 2) continue
    }
    scale = wide / line_bits
    if (scale > 40) scale = 40
}
# the unit of the bank with the most areas
function common_unit(   i, count, best) {
    for (i = 0; i < boxes; i++) count[box_bank[i]]++
    best = 0
    for (i = 0; i < banks; i++) if (offset[i] != "-" && (offset[best] == "-" || count[i] > count[best])) best = i
    return per(best)
}
# the lines on which something begins or ends, in `edge_line`, ascending; the answer is how many are drawn
function edge_lines(   i, order, last, line, drawn) {
    edge_count = edges = drawn = 0
    for (i = 0; i < segs; i++) {
        add_edge(int(seg_from[i] / line_bits))
        if (seg_to[i] % line_bits && seg_to[i] < extent) add_edge(int(seg_to[i] / line_bits))
    }
    for (i = 0; i < ticks; i++) add_edge(line_at(tick_at[i]))
    if (faulty) {
        fault_line = line_at(fault_from)
        fault_last = bits[fault] > 0 ? int((fault_from + bits[fault] - 1) / line_bits) : fault_line
        add_edge(fault_line)
        add_edge(fault_last)
    }
    for (i = 0; i < edge_count; i++) order[i] = i
    by_key(order, edge_count, edge)
    last = -1
    for (i = 0; i < edge_count; i++) {
        line = edge[order[i]]
        if (line == last) continue
        drawn += line - last < 4 ? line - last : 1
        edge_line[edges++] = last = line
    }
    return drawn
}
function add_edge(line) { edge[edge_count++] = line }
# a thing without size at the very end stands on the last line
function line_at(at,   line) {
    line = int(at / line_bits)
    return at && at == extent && at % line_bits == 0 ? line - 1 : line
}
