# The map of a layout as a drawing; tools/map has the call, tools/awk/file.awk what is read, tools/awk/figures.awk what is reckoned from it, and
# tools/awk/axis.awk what stands where. The output is drawn on lines of equal length, banks above it and a scale below; then, each on a scale of its
# own, the banks that have no place in it. Kinds of area are told apart by pattern, so that they are in black and white too.

function esc(text) { gsub(/&/, "\\&amp;", text); gsub(/</, "\\&lt;", text); gsub(/>/, "\\&gt;", text); gsub(/"/, "\\&quot;", text); return text }
function emit(text) { body = body text "\n" }
function px(v,   text) { text = sprintf("%.2f", v); sub(/\.?0+$/, "", text); return text }
function as(name, value) { return value == "" ? "" : " " name "=\"" value "\"" }
function write(x, y, text, class) { return "<text" as("x", px(x)) as("y", px(y)) as("class", class) ">" esc(text) "</text>" }
function area(x, y, w, h, class, title) {
    return "<rect" as("x", px(x)) as("y", px(y)) as("width", px(w)) as("height", px(h)) as("class", class) titled("rect", title)
}
function shape(path, class, title) { return "<path" as("d", path) as("class", class) titled("path", title) }
function stroke(x, y, x2, y2, class) { return shape("M" px(x) " " px(y) "L" px(x2) " " px(y2), class, "") }
function titled(name, title) { return title == "" ? "/>" : "><title>" esc(title) "</title></" name ">" }

function draw_axis(axis, heading,   i, line, next_) {
    gather(axis)
    if (!extent) return
    choose_line(axis)
    edge_lines()
    assign_lanes(axis)
    y += 22
    emit(write(left, y, heading, "head"))
    y += 8
    if (extent > line_bits && axis < 0) draw_overview()
    next_ = 0
    for (i = 0; i < edges; i++) {
        up_to(axis, next_, edge_line[i])
        draw_line(axis, edge_line[i])
        next_ = edge_line[i] + 1
    }
    up_to(axis, next_, int((extent + line_bits - 1) / line_bits))
}
function up_to(axis, from, to) {
    if (to - from >= 3) leave_out(from, to)
    else while (from < to) draw_line(axis, from++)
}
function leave_out(from, to,   i, text, a, z) {
    a = from * line_bits
    z = to * line_bits < extent ? to * line_bits : extent
    text = "in no bank"
    for (i = 0; i < segs; i++) if (seg_from[i] <= a && seg_to[i] >= z) text = seg_title[i]
    sub(/, (address|output).*/, "", text)
    emit(write(left, y + 11, "bits " range(a, z - a) ": " text, "out"))
    emit(stroke(left, y + 18, left + wide, y + 18, "out"))
    y += 26
}

# Banks that share a bit of the output, or bank 0 under others, stand in lanes above each other.
function assign_lanes(axis,   i, bank, lane) {
    lanes = 1
    for (i = 1; i <= banks; i++) {
        bank = i % banks
        if (!on_axis(bank, axis)) continue
        for (lane = 0; is_taken(lane, bank, axis, i); lane++) continue
        lane_of[bank] = lane
        if (lane >= lanes) lanes = lane + 1
    }
}
function bank_end(bank, axis) { return size[bank] == "-" ? extent : base_of(bank, axis) + size[bank] }
function is_taken(lane, bank, axis, upto,   i) {
    for (i = 1; i < upto; i++) {
        if (!on_axis(i, axis) || lane_of[i] != lane) continue
        if (base_of(i, axis) < bank_end(bank, axis) && base_of(bank, axis) < bank_end(i, axis)) return 1
    }
    return 0
}

function draw_line(axis, line,   from, to, i, top) {
    from = line * line_bits
    to = from + line_bits < extent ? from + line_bits : extent
    for (i = 0; i < banks; i++) if (on_axis(i, axis)) draw_bank(i, axis, from, to)
    top = y + 15 * lanes + 9
    emit(area(left, top, (to - from) * scale, 26, "nobank", ""))
    for (i = 0; i < segs; i++) if (seg_from[i] < to && seg_to[i] > from) draw_area(i, from, to, top)
    if (hit && hit_from < to && hit_to >= from) draw_hit(from, to, top)
    for (i = 0; i < ticks; i++) if (line_at(tick_at[i]) == line) draw_tick(i, from, top)
    if (is_fault_line(line)) draw_fault(from, to, top)
    top += is_fault_line(line) ? 52 : has_mark(line) ? 35 : 26
    draw_scale(axis, from, to, top)
    y = top + (axis < 0 ? 36 : 25)
}
function x_of(at, from) { return left + (at - from) * scale }
function high(a, b) { return a > b ? a : b }
function low(a, b) { return a < b ? a : b }
# a name where it fits, else the number
function fits(text, w) { return w >= 6 * characters(text) + 3 }
function draw_area(i, from, to, top,   x, w, text) {
    x = x_of(high(seg_from[i], from), from)
    w = x_of(low(seg_to[i], to), from) - x
    emit(area(x, top, high(w, 0.7), 26, seg_class[i], seg_title[i]))
    if (seg_text[i] == "") return
    text = name_of[seg_text[i]] != "" && fits(name_of[seg_text[i]], w) ? name_of[seg_text[i]] : seg_text[i]
    if (fits(text, w)) emit(write(x + w / 2, top + 16.5, text, seg_class[i] == "r" ? "rn" : "n"))
}
function draw_hit(from, to, top,   x) {
    x = x_of(high(hit_from, from), from)
    if (hit_to == hit_from) emit(area(x - 6, top - 1, 12, 38, "hit", ""))
    else emit(area(x, top, x_of(low(hit_to, to), from) - x, 26, "hit", ""))
}
function draw_tick(i, from, top,   x) {
    x = px(x_of(tick_at[i], from))
    if (tick_class[i] == "mark") emit(shape("M" x " " px(top + 27) "l4 8h-8z", "mark", tick_title[i]))
    else if (tick_class[i] == "label") emit(shape("M" x " " px(top) "v-9l5 3.5-5 3.5", "label", tick_title[i]))
    else emit(shape("M" x " " px(top) "v-6", "constant", tick_title[i]))
}
function is_fault_line(line) { return faulty && line >= fault_line && line <= fault_last }
function has_mark(line,   i) {
    for (i = 0; i < ticks; i++) if (tick_class[i] == "mark" && line_at(tick_at[i]) == line) return 1
    return 0
}
# the node at fault below what stands already
function draw_fault(from, to, top,   x, x2, text) {
    text = called_or_number(fault) " at fault"
    x = x_of(high(fault_from, from), from)
    x2 = high(x_of(low(fault_from + bits[fault], to), from), x + 6)
    emit(area(x, top + 36, x2 - x, 14, "fault", "at fault: " node_title(fault)))
    if (x2 < left + wide - high(90, 7 * characters(text))) emit(write(x2 + 5, top + 47, text, "b"))
    else emit(write(x - 5, top + 47, text, "be"))
}
# A bank's bar with its number and addresses.
function draw_bank(bank, axis, from, to,   base, a, z, x, x2, top, text) {
    base = base_of(bank, axis)
    a = high(base, from)
    z = low(bank_end(bank, axis), to)
    if (z < a || (z == a && (base < from || bank_end(bank, axis) > base))) return
    top = y + 15 * lane_of[bank]
    x = x_of(a, from)
    x2 = x_of(z, from)
    emit(area(x, top, high(x2 - x, 1), 13, clash[bank] ? "clash" : "bank", bank_title(bank)))
    text = "bank " bank ((a - base) % per(bank) ? "" : ", " short_address(bank, a - base))
    if (x2 - x < 6 * length(text) + 6) text = bank
    if (x2 - x < 12) return
    emit(write(x + 3, top + 10, text, "b"))
    draw_addresses(bank, base, a, z, x - a * scale, x + 6 * length(text) + 14, top)
}
function draw_addresses(bank, base, a, z, zero, free_from, top,   step, t, x) {
    for (step = per(bank); step * scale < 72; step *= 2) continue
    for (t = step * int((a - base + step - 1) / step); base + t < z; t += step) {
        x = zero + (base + t) * scale
        if (x < free_from || x + 6 * length(short_address(bank, t)) + 4 > zero + z * scale) continue
        emit(stroke(x, top, x, top + 13))
        emit(write(x + 3, top + 10, short_address(bank, t)))
    }
}
function short_address(bank, from,   v) { v = start[bank] + from / per(bank); return is_beyond(bank) ? "" : v < 0 ? v "" : hex(v) }
function bank_title(bank,   text) {
    text = "bank " bank ": unit " unit[bank] ", " (size[bank] == "-" ? "no size" : "size " size[bank]) ", from address " start_words(bank)
    if (offset[bank] != "-") text = text ", output from bit " offset[bank] + 0
    text = text ", used " used[bank] ", padding " padding[bank] (size[bank] == "-" ? "" : ", free " unused[bank])
    return text (fill[bank] ? ", fill " fill_word(bank) : "")
}
# Bits, and for the output bytes, below a line.
function draw_scale(axis, from, to, top,   step, t, last, apart) {
    apart = high(6.6 * length(extent "") + 18, 40)
    for (step = 1; step * scale < apart; step *= 2) continue
    emit(stroke(left, top + 3, x_of(to, from), top + 3))
    last = from - apart / scale
    for (t = step * int((from + step - 1) / step); t < to; t += step) { scale_mark(axis, t, from, top); last = t }
    if (to == extent && (to - last) * scale >= apart) scale_mark(axis, to, from, top)
    emit(write(left - 38, top + 18, axis < 0 ? "bit" : "position", "e"))
    if (axis < 0) emit(write(left - 38, top + 28, "byte", "e"))
}
function scale_mark(axis, t, from, top,   x) {
    x = x_of(t, from)
    emit(stroke(x, top + 3, x, top + 8))
    emit(write(x, top + 18, t, "m"))
    if (axis < 0) emit(write(x, top + 28, byte_at(t, 0), "m"))
}
# The whole output in one bar, areas of a kind joined.
function draw_overview(   i, order, class, from, to, seg, kept) {
    kept = scale
    scale = wide / extent
    for (i = 0; i < banks; i++) if (on_axis(i, -1)) draw_bank(i, -1, 0, extent)
    y += 15 * lanes
    for (i = 0; i < segs; i++) order[i] = i
    by_key(order, segs, seg_from)
    class = ""
    for (i = 0; i < segs; i++) {
        seg = order[i]
        if (class != "" && substr(seg_class[seg], 1, 1) == class && seg_from[seg] <= to) to = high(to, seg_to[seg])
        else {
            if (class != "") draw_run(from, to, class)
            class = substr(seg_class[seg], 1, 1); from = seg_from[seg]; to = seg_to[seg]
        }
    }
    if (class != "") draw_run(from, to, class)
    if (faulty) emit(area(x_of(fault_from, 0) - 1, y - 2, high(bits[fault] * scale, 3), 16, "fault", "at fault: " called_or_number(fault)))
    draw_scale(-1, 0, extent, y + 12)
    y += 56
    scale = kept
}
function draw_run(from, to, class) { emit(area(x_of(from, 0), y, high((to - from) * scale, 0.5), 12, class == "i" ? "i0" : class, "")) }

function style() {
    return "<style>text{font:10px \"DejaVu Sans\",Verdana,Arial,sans-serif;fill:#000;pointer-events:none}.head{font-size:13px;font-weight:bold}" \
        ".top{font-size:16px;font-weight:bold}.b,.be{font-weight:bold}.n,.rn,.m{text-anchor:middle}.e,.be{text-anchor:end}.n{fill:#fff}" \
        ".rn{font-weight:bold;stroke:#fff;stroke-width:3px;paint-order:stroke}.out{font-style:italic}" \
        "path{stroke:#000;stroke-width:.8;fill:none}path.out{stroke-dasharray:2 6}.mark{fill:#000}.label{fill:#000;stroke-width:1.1}" \
        ".constant{stroke-dasharray:1.5 1}rect{stroke:#000;stroke-width:.4}.i0{fill:#2b2b2b}.i1{fill:#6b6b6b}.r{fill:url(#r)}.p{fill:url(#p)}" \
        ".z{fill:url(#z)}.o{fill:url(#o)}.f{fill:#fff;stroke-dasharray:3 2}.bank{fill:#f4f4f4;stroke-width:.8}.clash{fill:#fff;stroke-width:2.5}" \
        ".nobank{fill:none;stroke:#bbb}.fault{fill:url(#x);stroke-width:2}.hit{fill:none;stroke-width:3.5}</style>"
}
# A pattern: its name, its side, what it stands on, and what is drawn over that.
function pattern(name, side, ground, over, turned) {
    return "<pattern" as("id", name) as("width", side) as("height", side) as("patternUnits", "userSpaceOnUse") as("patternTransform", turned) ">" \
        "<rect" as("width", side) as("height", side) as("style", "fill:" ground ";stroke:none") "/>" over "</pattern>"
}
function patterns() {
    return "<defs>" pattern("r", 6, "#fff", "<path d=\"M1 0v6\" style=\"stroke-width:2\"/>", "rotate(45)") \
        pattern("p", 5, "#fff", "<circle cx=\"2.5\" cy=\"2.5\" r=\"1.2\"/>") pattern("z", 6, "#ececec", "<path d=\"M0 3h6\" style=\"stroke:#999\"/>") \
        pattern("o", 6, "#d4d4d4", "<path d=\"M3 0v6\" style=\"stroke:#555;stroke-width:1.4\"/>") \
        pattern("x", 7, "#fff", "<path d=\"M0 0l7 7M7 0l-7 7\" style=\"stroke-width:2\"/>") "</defs>"
}
function legend(   x, i, count, parts, pair, asked) {
    asked = "i0=item,r=reserve,p=padding,z=fill with zeros,o=fill with ones,f=free"
    if (fault >= 0 && fault < shown) asked = asked ",fault=node at fault"
    if (verdict ~ /^refused 12 /) asked = asked ",hit=what it hits"
    count = split(asked, parts, ",")
    x = left
    for (i = 1; i <= count; i++) {
        split(parts[i], pair, "=")
        emit(area(x, y, 28, 14, pair[1], ""))
        if (pair[1] == "i0") emit(area(x + 14, y, 14, 14, "i1", ""))
        emit(write(x + 34, y + 11, pair[2]))
        x += 54 + 5.6 * length(pair[2])
    }
    emit(shape("M" px(x + 4) " " px(y + 12) "v-9l5 3.5-5 3.5", "label") write(x + 13, y + 11, "label"))
    emit(shape("M" px(x + 56) " " px(y + 13) "v-6", "constant") write(x + 63, y + 11, "constant"))
    emit(shape("M" px(x + 128) " " px(y + 3) "l4 8h-8z", "mark") write(x + 138, y + 11, "mark of 0 bits"))
    y += 14
}
# a line of text for each bank, and the refusal's words, cut at spaces
function figures_text(   i, words_, count, line) {
    for (i = 0; i < banks; i++) { y += 14; emit(write(left, y, bank_title(i))) }
    if (reason == "") return
    y += 4
    count = split("refused: " reason, words_, " ")
    line = ""
    for (i = 1; i <= count; i++) {
        if (length(line) + length(words_[i]) > 170) { y += 14; emit(write(left, y, line, "b")); line = "" }
        line = line (line == "" ? "" : " ") words_[i]
    }
    y += 14
    emit(write(left, y, line, "b"))
}

END {
    reason = ENVIRON["map_reason"]
    if (!figures()) exit 3
    if (split(verdict, w, " ") == 4 && w[2] == 3) clash[w[3] + 0] = clash[w[4] + 0] = 1
    left = 88; wide = 1080; y = 24
    emit(write(left, y, name ": " (built ? image_words() (full ? ", full fill" : "") : verdict), "top"))
    y += 12
    legend()
    y += 4
    figures_text()
    draw_axis(-1, "The output")
    for (bank = 0; bank < banks; bank++) if (offset[bank] == "-") draw_axis(bank, "Bank " bank ", which has no place in the output")
    across = left + wide + 34
    down = px(y + 6)
    print "<svg xmlns=\"http://www.w3.org/2000/svg\"" as("width", across) as("height", down) as("viewBox", "0 0 " across " " down) ">"
    print "<title>" esc(name) ", the map of a layout</title>"
    print style()
    print patterns()
    print "<rect width=\"100%\" height=\"100%\" style=\"fill:#fff;stroke:none\"/>"
    printf "%s", body
    print "</svg>"
}
