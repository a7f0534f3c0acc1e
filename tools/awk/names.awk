# Reads a names file (docs/FORMAT.md): what a node is called and where it stands in the source. `names_file` in the environment is its path, empty where there
# is none; the command has looked at it before. Under LC_ALL=C, so that text is bytes.
BEGIN {
    bad_names = ENVIRON["names_file"] == "" ? "" : read_names(ENVIRON["names_file"])
}
function read_names(file,   line, text, above, parts, state) {
    above = -1
    while ((state = (getline text < file)) > 0) {
        line++
        sub(/\r$/, "", text)
        if (line == 1 && text ~ /^form\t[0-9]+\t[0-9]+$/) continue
        if (split(text, parts, "\t") != 3 || parts[1] !~ /^[0-9]+$/ || !is_plain(parts[2] parts[3]))
            return "line " line " is not a number, a name and a place with tabs between"
        if (parts[1] + 0 <= above) return "the node in line " line " is not above that of the line before"
        above = parts[1] + 0
        name_of[above] = parts[2]
        source_of[above] = parts[3]
    }
    close(file)
    return state < 0 ? "it cannot be read" : ""
}
# text in UTF-8 without control characters
function is_plain(text) {
    if (text ~ /[\001-\037\177]|\302[\200-\237]/) return 0
    gsub(/[\302-\337][\200-\277]|\340[\240-\277][\200-\277]|[\341-\354\356\357][\200-\277][\200-\277]|\355[\200-\237][\200-\277]/, "", text)
    gsub(/\360[\220-\277][\200-\277][\200-\277]|[\361-\363][\200-\277][\200-\277][\200-\277]|\364[\200-\217][\200-\277][\200-\277]/, "", text)
    return text !~ /[\200-\377]/
}
# "clamp_force, tables.asm:12"; empty where the node has no name
function called(node,   name, place) {
    if (!((node + 0) in name_of)) return ""
    name = name_of[node + 0]
    place = source_of[node + 0]
    return name (name != "" && place != "" ? ", " : "") place
}
function called_or_number(node,   text) {
    text = called(node)
    return text == "" ? "node " node : text
}
# how many characters a text has, which may be fewer than its bytes
function characters(text) {
    gsub(/[\200-\277]/, "", text)
    return length(text)
}
