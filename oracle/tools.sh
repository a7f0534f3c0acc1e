#!/bin/sh
# The tools' statuses and outputs, on files of examples/ and on what they wrote themselves: oracle/tools.sh. Programs that are not built yet are built first.
set -u
. "$(dirname "$(readlink -f -- "$0")")/../tools/start.sh"
words_at_most 0 "$@"
cd "$home" || exit 2
make_room
wrong=0
# a status, and a tool's call that is to end with it; refused and failed calls say why, and print nothing
is() {
    wanted=$1
    shift
    "$@" >"$room/out" 2>"$room/err" </dev/null
    got=$?
    if [ "$got" -ne "$wanted" ] || { [ "$wanted" -ne 0 ] && { [ ! -s "$room/err" ] || [ -s "$room/out" ]; }; }; then
        echo "$*: status $got and not $wanted: $(cat "$room/err")"
        wrong=1
    fi
}
same() {
    cmp -s "$1" "$2" || {
        echo "$3"
        wrong=1
    }
}
# a tool's call that is refused, with its last line and a pattern for what it says on standard error
refused() {
    last=$1 said=$2
    shift 2
    "$@" >"$room/out" 2>"$room/err" </dev/null
    got=$?
    if [ "$got" -ne 1 ] || [ "$(tail -n 1 "$room/out")" != "$last" ] || ! grep -q "$said" "$room/err"; then
        echo "$*: status $got, '$(tail -n 1 "$room/out")' for '$last', '$(cat "$room/err")' for '$said'"
        wrong=1
    fi
}
has() {
    grep -qx "$2" "$1" || {
        echo "$3: no line '$2'"
        wrong=1
    }
}
for tool in ihex srec rehex bench convert layout map; do
    is 0 "tools/$tool" --help
    is 2 "tools/$tool" --nothing
    is 2 "tools/$tool" examples
    is 2 "tools/$tool" "$room/none"
    is 2 "tools/$tool" ''
    is 0 "tools/$tool" --nothing --help
    is 2 "tools/$tool" README.md README.md README.md
done
for tool in ihex srec; do
    is 0 "tools/$tool" examples/banks.form
    is 0 "tools/$tool" --load 0x1000 examples/banks.form
    is 1 "tools/$tool" examples/worked.form
    is 1 "tools/$tool" examples/clamp-mark-after.form
    is 1 "tools/$tool" README.md
    is 1 "tools/$tool" examples/banks.form --load 4294967295
    is 2 "tools/$tool" examples/banks.form --load 4294967296
    is 2 "tools/$tool" examples/banks.form --load 0x
    # an image whose words stand off byte edges, as whole bytes; a layout for a device with pages
    is 1 "tools/$tool" examples/sequencer.form
    is 0 "tools/$tool" examples/sequencer.form --whole
    is 0 "tools/$tool" examples/paged.form --page 128
    is 1 "tools/$tool" examples/paged-unit.form --page 128
    is 0 "tools/$tool" examples/paged-unit.form --whole
    is 2 "tools/$tool" examples/banks.form --page
    is 2 "tools/$tool" examples/banks.form --fill all
    # a file of its own: whole, or not at all
    is 0 "tools/$tool" examples/banks.form -o "$room/own"
    [ ! -s "$room/out" ] || {
        echo "tools/$tool -o: printed too"
        wrong=1
    }
    "tools/$tool" examples/banks.form >"$room/printed"
    same "$room/printed" "$room/own" "tools/$tool -o writes another file than it prints"
    is 1 "tools/$tool" examples/worked.form -o "$room/own"
    same "$room/printed" "$room/own" "tools/$tool -o changed a file where the layout was refused"
    is 2 "tools/$tool" examples/banks.form -o "$room"
    is 2 "tools/$tool" examples/banks.form -o "$room/none/own"
    is 2 "tools/$tool" examples/banks.form -o ''
    is 2 "tools/$tool" examples/banks.form -o
done
# the whole image, gaps and fill too, and nothing past its last byte, whose unused bits are zero: 9 bits, and 40,960
tools/ihex examples/lock.form --whole --fill full >"$room/whole.hex" || wrong=1
has "$room/whole.hex" ':02000000A50059' 'tools/ihex examples/lock.form --whole --fill full'
tools/ihex examples/sequencer.form --whole >"$room/whole.hex" || wrong=1
tools/layout examples/sequencer.form | sed -n 's/^image //p' | tr 'a-f' 'A-F' | tr -d '\n' >"$room/digits"
sed -n 's/^:..[0-9A-F]\{4\}00\(.*\)..$/\1/p' "$room/whole.hex" | tr -d '\n' >"$room/held"
same "$room/digits" "$room/held" "tools/ihex --whole has other bytes than tools/layout"
is 1 tools/srec examples/banks.form --width 2 --load 65535
is 2 tools/srec examples/banks.form --width 3
tools/ihex examples/banks.form --load 256 >"$room/banks.hex" && tools/srec examples/banks.form --load 256 >"$room/banks.s37" || wrong=1
tools/rehex "$room/banks.hex" --to srec >"$room/s37" && tools/rehex --to hex - <"$room/banks.s37" >"$room/hex" || wrong=1
same "$room/banks.s37" "$room/s37" "S-records from Intel HEX are not those from the layout"
same "$room/banks.hex" "$room/hex" "Intel HEX from S-records is not that from the layout"
is 1 tools/rehex "$room/banks.hex" --to srec --load 257
is 2 tools/rehex "$room/banks.hex" --to hex --width 2
is 2 tools/rehex "$room/banks.s37" --width 2
# the kind by the first character, and the other one without --to; a file of its own kind comes back as it was
tools/rehex "$room/banks.hex" >"$room/s37" && tools/rehex "$room/banks.s37" -o "$room/hex" || wrong=1
same "$room/banks.s37" "$room/s37" "S-records from Intel HEX without --to are others"
same "$room/banks.hex" "$room/hex" "Intel HEX from S-records without --to is another"
tools/rehex "$room/banks.hex" --to hex >"$room/hex" && tools/rehex "$room/banks.s37" --to srec >"$room/s37" || wrong=1
same "$room/banks.hex" "$room/hex" "Intel HEX does not come back from Intel HEX"
same "$room/banks.s37" "$room/s37" "S-records do not come back from S-records"
# far above 1,048,576: the lowest address that the file gives is the load address unless it is said
tools/ihex examples/banks.form --load 0xFFFF0000 >"$room/far.hex" && tools/srec examples/banks.form --load 0xFFFF0000 >"$room/far.s37" || wrong=1
tools/rehex "$room/far.hex" >"$room/s37" && tools/rehex "$room/far.s37" >"$room/hex" || wrong=1
same "$room/far.s37" "$room/s37" "S-records from Intel HEX at a high address are others"
same "$room/far.hex" "$room/hex" "Intel HEX from S-records at a high address is another"
is 1 tools/rehex "$room/far.hex" --load 0
printf 'S\n' >"$room/broken"
is 1 tools/rehex "$room/broken"
printf '' >"$room/broken"
is 1 tools/rehex "$room/broken"
is 0 tools/bench "$room/banks.hex" "$room/banks.hex"
is 0 tools/bench "$room/banks.hex" "$room/banks.hex" --range 0x100 5
is 1 tools/bench "$room/banks.hex" "$room/banks.hex" --range 0x100 6
is 1 tools/bench "$room/banks.hex" "$room/banks.s37"
is 2 tools/bench "$room/banks.hex"
is 2 tools/bench - -
# one of the two from standard input, and the address in hex as well
released=crates/prog_overlay/data/released.hex overlay=crates/prog_overlay/data/overlay.hex
tools/bench "$released" "$overlay" >"$room/runs" && tools/bench "$released" - <"$overlay" >"$room/out" || wrong=1
same "$room/runs" "$room/out" "tools/bench - prints other runs than for the file"
has "$room/runs" 'run 264 0x00000108 2 0809 aabb' 'tools/bench released.hex overlay.hex'
has "$room/runs" 'alone 288 0x00000120' 'tools/bench released.hex overlay.hex'
# a range that is refused names the file that does not give it, and the address
is 0 tools/bench "$released" "$overlay" --range 0x108 8
is 0 tools/bench "$released" "$overlay" --range 0x110 16
for asked in '0x118 0x10 released.hex.*0x00000120' '0x120 2 released.hex.*0x00000120' '0x100 0 empty' '0x10e 4 overlay.hex.*0x00000110'; do
    # shellcheck disable=SC2086
    set -- $asked
    is 1 tools/bench "$released" "$overlay" --range "$1" "$2"
    grep -q "$3" "$room/err" || {
        echo "tools/bench --range $1 $2 says: $(cat "$room/err")"
        wrong=1
    }
done
# a file of its own: whole, or not at all
is 0 tools/bench "$released" "$overlay" -o "$room/own"
same "$room/runs" "$room/own" "tools/bench -o writes another file than it prints"
is 1 tools/bench "$released" README.md -o "$room/own"
same "$room/runs" "$room/own" "tools/bench -o changed a file where a file was refused"
for tool in layout map; do
    "tools/$tool" examples/banks.form >"$room/printed" || wrong=1
    is 0 "tools/$tool" examples/banks.form -o "$room/own"
    same "$room/printed" "$room/own" "tools/$tool -o writes another file than it prints"
    refused 'refused 12 0 128' overlaps "tools/$tool" examples/clamp-mark-after.form -o "$room/own"
    same "$room/printed" "$room/own" "tools/$tool -o changed a file where the layout was refused"
done
is 0 tools/convert examples/banks.form --to 2 -o "$room/own"
is 1 tools/convert examples/erased.form --to 1 -o "$room/none-made"
[ ! -e "$room/none-made" ] || {
    echo "tools/convert -o made a file where it was refused"
    wrong=1
}
tools/convert examples/banks.form --to 2 >"$room/two" && tools/convert --to 1 "$room/two" >"$room/one" || wrong=1
same examples/banks.form "$room/one" "a file comes back changed from form 2"
# the one-bank file of meets_convert's theorems `example-to-form2` and `example-to-form1`, by the bytes that stand in their text
worked() { # NAME
    awk -v name="$1" '$1 == name && $2 == "=" { on = 1; next }
        on && NF == 0 { exit }
        on { gsub(/[^0-9]+/, " "); for (i = 1; i <= NF; i++) printf "\\%03o", $i }' crates/meets_convert/specs/Theorems/Example.antt >"$room/octal"
    # shellcheck disable=SC2059
    printf "$(cat "$room/octal")"
}
worked in_form1 >"$room/worked1" && worked in_form2 >"$room/worked2" || wrong=1
[ "$(wc -c <"$room/worked1") $(wc -c <"$room/worked2")" = '75 120' ] || {
    echo "the worked file has not 75 bytes in form 1 and 120 in form 2"
    wrong=1
}
tools/convert "$room/worked1" --to 2 >"$room/out" && tools/convert "$room/worked2" --to 1 >"$room/back" || wrong=1
same "$room/worked2" "$room/out" "the worked file is not in form 2 what its theorem says"
same "$room/worked1" "$room/back" "the worked file is not in form 1 what its theorem says"
is 1 tools/convert examples/banks.form --to 1
is 1 tools/convert "$room/two" --to 2
is 2 tools/convert "$room/two" --to 3
refused '' 'bank 1 .* has a fill bit of one' tools/convert examples/erased.form --to 1
refused '' 'field 0, at byte 0, ' tools/convert README.md --to 2
refused '' 'the file is of form 2 already' tools/convert examples/erased.form --to 2
is 0 tools/layout "$room/two"
is 0 tools/layout examples/banks.form --fill full --page 64
# the node at which a refusal was met, and what it hits, in the words of each tool
hit='node 7 (data, bank 1, position 64, address 32776 = 0x8008, 32 bits at output bit 64) overlaps .* from bit 0 on, 128 bits: node 2 (data, bank 1, '
refused 'refused 12 0 128' "$hit" tools/layout examples/clamp-mark-after.form
refused 'refused 12 0 128' "$hit" tools/map examples/clamp-mark-after.form
has "$room/out" ' *7  data  .*  at fault' 'tools/map examples/clamp-mark-after.form'
refused '</svg>' "$hit" tools/map --svg examples/clamp-mark-after.form
refused '</html>' "$hit" tools/map --html examples/clamp-mark-after.form
refused 'refused 12 32 0' 'node 5 (data, .*) would have the mark at bit 32 .*: node 2 (reserve, ' tools/map examples/mark-then-table.form
refused 'refused 10 3' 'node 3 (data, .*) ends at bit 41, 1 bit past the size of bank 1 ' tools/map examples/past-the-end.form
refused 'refused 9 0' 'node 0 (label, bank 0, .*) uses bank 0' tools/map examples/alone.form
# words: the layout is looked at first, and a refusal that it does not have is not explained; those of other calls are said in general
for said in 'refused 1 0' 'refused 2 1' 'refused 4 0' 'refused 8 0' 'refused 9 0' 'refused 12 1 2' 'refused 14 0' 'refused 18 0' 'refused 19 1 2'; do
    is 2 tools/words examples/sequencer.form "$said"
done
for said in 'refused 14 1' 'refused 15 0' 'refused 16 0' 'refused 17 0'; do
    is 0 tools/words examples/sequencer.form "$said"
done
for form in examples/*.form; do
    said=$(tools/layout "$form" 2>"$room/words" | tail -n 1)
    case $said in
    refused*) is 0 tools/words "$form" "$said" && sed 's/^denkumari layout: //' "$room/words" | cmp -s - "$room/out" || wrong=1 ;;
    esac
done
is 1 tools/map README.md
is 2 tools/map examples/banks.form examples/banks.form
is 2 tools/map examples/banks.form --fill all
is 2 tools/map examples/banks.form --page
is 0 tools/map examples/paged.form --page 128
refused 'refused 19 5 2' 'its unit, 32, is neither 8 nor 16' tools/map examples/paged-unit.form --page 128
is 0 tools/map examples/paged-unit.form
is 0 tools/map --fill full --svg examples/lock.form
is 0 tools/map examples/banks.form
has "$room/out" ' *1 *8  256..287 *0x100..0x11f *0..255 *0..31 *256 *64 *24 *3 *168  zeros' 'tools/map examples/banks.form'
has "$room/out" ' *21  instruction *1 *64 *264 *0x108  64..87 *8..10 *24' 'tools/map examples/banks.form'
has "$room/out" ' *3  320..335 *40..41 *16' 'tools/map examples/banks.form'
tools/map --svg examples/sequencer.form >"$room/drawn" || wrong=1
same docs/sequencer.svg "$room/drawn" "docs/sequencer.svg is not what tools/map --svg draws of examples/sequencer.form"
# the page with the layout in it: the built page but for that line, whole, and never over an input
tools/map --html -o "$room/page" --fill full examples/sequencer.form || wrong=1
grep -v 'id="given"' "$room/page" >"$room/drawn_too"
grep -v 'id="given"' web/denkumari.html >"$room/plain"
same "$room/plain" "$room/drawn_too" "tools/map --html writes another page than web/denkumari.html"
sed -n 's/.*id="given">.*"form":"\([^"]*\)","names":"","fill":"full","page":"".*/\1/p' "$room/page" | base64 -d >"$room/within"
same examples/sequencer.form "$room/within" "tools/map --html has another layout in its page"
refused '' 'field 0, at byte 0, ' tools/map --html README.md
cp examples/banks.form "$room/over.form"
is 2 tools/map --html "$room/over.form" -o "$room/over.form"
same examples/banks.form "$room/over.form" "tools/map --html wrote over its input"
printf '1\treset\tmain.asm:4\n' >"$room/over.names"
cp "$room/over.names" "$room/over.kept"
is 2 tools/map --html "$room/over.form" -o "$room/over.names"
is 2 tools/map --svg "$room/over.form" --names "$room/over.names" -o "$room/over.names"
same "$room/over.kept" "$room/over.names" "tools/map wrote over its names"
is 2 tools/map --html --svg examples/banks.form
is 2 tools/map --svg --html=1 examples/banks.form
is 0 tools/map --svg --fill=full --room 0x5000 -- examples/lock.form
is 2 tools/map --html --lines examples/banks.form
# names, given and beside the file, in the words of each tool; a names file that is none
cp examples/clamp-mark-after.form "$room/clamp.form"
printf '2\tclamp_force\ttables.asm:12\n4\ta|b\t\n7\t<wear>\ttables.asm:19\n4096\tnothing\t\n' >"$room/given.names"
hit='<wear>, tables.asm:19 (node 7, data, bank 1, .* from bit 0 on, 128 bits: clamp_force, tables.asm:12 (node 2, data, bank 1, '
refused 'refused 12 0 128' "$hit" tools/layout --names "$room/given.names" "$room/clamp.form"
refused 'refused 12 0 128' 'node 7 (data' tools/layout "$room/clamp.form"
cp "$room/given.names" "$room/clamp.names"
refused 'refused 12 0 128' "$hit" tools/layout "$room/clamp.form"
refused '' "$hit" tools/ihex "$room/clamp.form"
refused 'refused 12 0 128' "$hit" tools/map "$room/clamp.form"
has "$room/out" ' *7  <wear>  *tables.asm:19  data  .*  at fault' 'tools/map with names'
has "$room/out" ' *4  a|b  *reserve .*  a mark' 'tools/map with names'
has "$room/out" 'refused at <wear>, tables.asm:19, and the map ends there' 'tools/map with names'
refused '</svg>' "$hit" tools/map --svg "$room/clamp.form"
has "$room/out" '.*>clamp_force</text>' 'tools/map --svg with names'
has "$room/out" '.*>&lt;wear&gt;, tables.asm:19 at fault</text>' 'tools/map --svg with names'
for bad in '1\ta' '1\ta\tb\tc' 'x\ta\tb' '\ta\tb' '2\ta\t\n2\tb\t' '2\ta\t\n1\tb\t' '1\ta\033\t' '1\t\377\t' '1\t\302\205\t' '1\ta\t\n\n'; do
    # shellcheck disable=SC2059
    printf "$bad\n" >"$room/clamp.names"
    is 2 tools/map --names "$room/clamp.names" "$room/clamp.form"
    is 2 tools/words "$room/clamp.form" 'refused 9 0' --names "$room/clamp.names"
    refused 'refused 12 0 128' 'are left out: .*line [12] ' tools/layout "$room/clamp.form"
    grep -q 'node 7 (data' "$room/err" || wrong=1
done
is 2 tools/layout --names "$room/none" "$room/clamp.form"
is 2 tools/layout --names '' "$room/clamp.form"
# a call that says what differs, status 1
differs() {
    "$@" >"$room/out" 2>"$room/err" </dev/null
    got=$?
    if [ "$got" -ne 1 ] || [ -s "$room/err" ]; then
        echo "$*: status $got and not 1: $(cat "$room/err")"
        wrong=1
    fi
}
# two layouts, node by node: without names, and by them with two tables in the other order
compared() {
    # banks.form with another first value, without its second instruction, with a longer reserve and less data
    tools/form --make - >"$room/new.form" <<'WORDS' || wrong=1
bank unit 8
bank unit 8 start 256 size 256 offset 0 fill
bank unit 16 start 16384 size 128 offset 256 align 32 fill
bank unit 8 start 32 size 64
bank unit 8 start -8 size 64
rows 1
switch 1
label
instruction at 0: 24
constant
switch 3
label
reserve: 24
label
reserve: 8
switch 2
label
data at 40: 32
label
open at 88: 16
switch 4
label
reserve: 64
switch 1
align: 64
label
instruction at 104: 24
values 0f004012340010004600b40168aaaa7f0001
limit 10
WORDS
    is 0 tools/compare examples/banks.form examples/banks.form
    has "$room/out" 'banks, blocks and image are the same' 'tools/compare of a layout with itself'
    is 0 tools/compare --svg --fill full examples/sequencer.form examples/sequencer.form
    differs tools/compare examples/banks.form "$room/new.form"
    has "$room/out" 'banks.form -> new.form: 7 the same, 5 moved, 1 grown, 1 shrunk, 1 other contents, 1 gone' tools/compare
    has "$room/out" 'other contents: node 2 (instruction, 24 bits): bank 1, address 256 = 0x100, output bit 0' tools/compare
    has "$room/out" 'gone: node 3 (instruction, 16 bits): bank 1, .*' tools/compare
    has "$room/out" 'grown: node 6 (reserve, 24 bits): 16 -> 24 bits' tools/compare
    has "$room/out" 'shrunk: node 11 (data, 32 bits): 48 -> 32 bits' tools/compare
    has "$room/out" 'moved: node 13 (data of open size, 16 bits): address 16388 = 0x4004 -> 16386 = 0x4002, output bit 320 -> 288' tools/compare
    has "$room/out" 'bank 2: padding 16 -> 0, padding in units 1 -> 0, used 64 -> 48' tools/compare
    has "$room/out" '  new  bits 0..23' tools/compare
    has "$room/out" '  .* bytes differ: 0, 3..4, .*' tools/compare
    printf 'form 2\nbank unit 8\nbank unit 8 size 64 offset 0\nswitch 1\nlabel\ndata at 0: 8\nlabel\ndata at 8: 16\nvalues 112233\nlimit 1\n' |
        tools/form --make - >"$room/a.form" || wrong=1
    printf 'form 2\nbank unit 8\nbank unit 8 size 64 offset 0\nswitch 1\nlabel\ndata at 8: 16\nlabel\ndata at 0: 8\nvalues 112233\nlimit 1\n' |
        tools/form --make - >"$room/b.form" || wrong=1
    printf '1\tone\ta.asm:1\n3\ttwo\ta.asm:2\n' >"$room/a.names"
    printf '1\ttwo\ta.asm:1\n3\tone\ta.asm:2\n' >"$room/b.names"
    differs tools/compare "$room/a.form" "$room/b.form"
    has "$room/out" 'a.form -> b.form: 4 moved' 'tools/compare by name'
    has "$room/out" 'moved: one, a.asm:2 (node 3, label): address 0 -> 2, output bit 0 -> 16' 'tools/compare by name'
    has "$room/out" 'moved: node 4 (data, 8 bits, behind one): address 0 -> 2, output bit 0 -> 16' 'tools/compare by name'
    differs tools/compare --svg --names "$room/a.names" "$room/b.names" "$room/a.form" "$room/b.form"
    has "$room/out" '.*class="moved"><title>moved: node 4 .*' 'tools/compare --svg'
    has "$room/out" '</svg>' 'tools/compare --svg'
    differs tools/compare --svg -o "$room/drawn.svg" "$room/a.form" "$room/b.form"
    is 2 tools/compare --svg -o "$room/b.form" "$room/a.form" "$room/b.form"
    has "$room/drawn.svg" '</svg>' 'tools/compare --svg -o'
    is 2 tools/compare --names "$room/a.form" "$room/b.names" "$room/a.form" "$room/b.form"
    is 2 tools/compare "$room/a.form" examples/clamp-mark-after.form
    is 2 tools/compare "$room/a.form"
}
# the picture of a read-back: what verify says, to scale (oracle/pictures.py), whole or not at all, whatever the files are called and the locale is
verified() {
    oracle/pictures.py 30 || wrong=1
    tools/ihex examples/banks.form --load 0x8000 >"$room/read.hex" || wrong=1
    is 0 tools/verify --svg examples/banks.form "$room/read.hex" --load=0x8000 -o "$room/same.svg"
    has "$room/same.svg" '.*>words 0x100..0x11f: nothing is wrong</text>' 'tools/verify --svg of the same'
    cp examples/banks.form "$room/odd.form"
    printf '2\tcurve <1> & "2"\ttables.asm:3\n' >"$room/odd.names"
    odd=$(printf '%s/\303\251 \377<&>.hex' "$room")
    sed '1s/0E00401234E7$/0F00401234E6/' "$room/read.hex" >"$odd"
    for locale in LC_ALL=C LC_ALL=C.UTF-8 PYTHONIOENCODING=latin-1; do
        differs env "$locale" tools/verify --svg "$room/odd.form" "$odd" --load 0x8000
        has "$room/out" '.*<title>curve &lt;1&gt; &amp; &quot;2&quot;, tables.asm:3 (node 2, instruction), word 0x100: 0f, should be 0e (0x.*' \
            "tools/verify --svg in $locale"
        has "$room/out" '<title>.*\\xff&lt;&amp;&gt;.hex: 1 byte differs, of 16 bytes</title>' "tools/verify --svg in $locale"
    done
    differs tools/verify --svg --names "$room/odd.names" --load 0x8000 -o "$room/read.svg" -- "$room/odd.form" "$odd"
    has "$room/read.svg" '</svg>' 'tools/verify --svg -o'
    # a refusal draws nothing, and inputs are not written over
    is 1 tools/verify --svg examples/clamp-mark-after.form "$room/read.hex" -o "$room/none.svg"
    has "$room/err" '.*refused with 12: .*' 'tools/verify --svg of a refused layout'
    is 1 tools/verify --svg examples/worked.form "$room/read.hex" -o "$room/none.svg"
    for call in "examples/banks.form $room/nothere" "examples/banks.form" "- -" "examples/banks.form $room/read.hex --json" \
        "examples/banks.form $room/read.hex --load x" \
        "examples/banks.form $room/read.hex --whole --nothing"; do
        # shellcheck disable=SC2086
        is 2 tools/verify --svg $call -o "$room/none.svg"
    done
    for out in odd.names odd.form read.hex .; do
        is 2 tools/verify --svg "$room/odd.form" "$room/read.hex" -o "$room/$out"
    done
    [ ! -e "$room/none.svg" ] || {
        echo "tools/verify --svg: made a file where nothing was drawn"
        wrong=1
    }
    # from a pipe too, either of them, which is called what it is
    tools/verify --svg examples/banks.form - <examples/README.md >"$room/piped" 2>"$room/err" && wrong=1
    grep -q '^tools/verify_svg: refused with 4: standard input: line 1' "$room/err" || {
        echo "tools/verify --svg of a bad file from standard input: $(cat "$room/err")"
        wrong=1
    }
    tools/verify --svg examples/banks.form - --load 0x8000 <"$room/read.hex" >"$room/piped" || wrong=1
    has "$room/piped" '<title>standard input: the same, 16 bytes</title>' 'tools/verify --svg of standard input'
    tools/verify --svg - "$room/read.hex" --load 0x8000 <examples/banks.form | cmp -s - "$room/same.svg" || {
        echo "tools/verify --svg: another picture of a layout from standard input"
        wrong=1
    }
}
if command -v python3 >/dev/null 2>&1; then
    compared
    verified
else
    echo "skipped: tools/compare, tools/form and the picture of tools/verify, for want of python3"
fi
# the recipes of docs/RECIPES.md, where their tools are installed: each file that its option makes good is read, and the one without is not
recipes() {
    tools/srec examples/banks.form --load 0x8000 --width 4 >"$room/made.s37" && tools/ihex examples/banks.form --load 0x8000 >"$room/made.hex" || wrong=1
    if command -v srec_cat >/dev/null 2>&1; then
        for out in 1.hex 2.s37 3.bin 4.hex 5.s37; do
            set -- "$room/made.hex" -intel -o "$room/$out"
            case $out in
            1.hex) set -- "$@" -intel -execution-start-address=0x8000 -disable=exec-start-address ;;
            2.s37) set -- "$@" -motorola -address-length=4 -disable=data-count -execution-start-address=0 ;;
            3.bin) set -- "$room/made.hex" -intel -offset -0x8000 -fill 0xff 0 64 -o "$room/3.bin" -binary ;;
            4.hex) set -- "$@" -intel -execution-start-address=0x8000 ;;
            5.s37) set -- "$@" -motorola -address-length=4 -execution-start-address=0 ;;
            esac
            srec_cat "$@" 2>"$room/err" || {
                echo "srec_cat $*: $(cat "$room/err")"
                wrong=1
            }
        done
        tools/rehex "$room/1.hex" --to srec --load 0x8000 >"$room/back.s37" && tools/rehex "$room/2.s37" --to hex --load 0x8000 >"$room/back.hex" || wrong=1
        same "$room/made.s37" "$room/back.s37" "what srec_cat wrote as Intel HEX is read as something else"
        same "$room/made.hex" "$room/back.hex" "what srec_cat wrote as S-records is read as something else"
        is 1 tools/rehex "$room/4.hex" --to srec --load 0x8000
        is 1 tools/rehex "$room/5.s37" --to hex --load 0x8000
        [ "$(wc -c <"$room/3.bin")" -eq 64 ] || wrong=1
        # a read-back in plain bytes, alone and cut from a dump of more
        srec_cat "$room/3.bin" -binary -offset 0x8000 -o "$room/6.hex" -intel -disable=exec-start-address || wrong=1
        is 0 tools/verify examples/banks.form "$room/6.hex" --load 0x8000
        srec_cat "$room/6.hex" -intel -fill 0xff 0 0x9000 -o "$room/7.bin" -binary &&
            srec_cat "$room/7.bin" -binary -crop 0x8000 0x8030 -o "$room/7.hex" -intel -disable=exec-start-address || wrong=1
        is 0 tools/verify examples/banks.form "$room/7.hex" --load 0x8000
    else
        echo "left out: the recipes for srec_cat, which is not installed"
    fi
    if command -v objcopy >/dev/null 2>&1; then
        objcopy -I ihex -O binary --gap-fill 0xff "$room/made.hex" "$room/o.bin" &&
            objcopy -I binary -O ihex --change-section-address .data=0x8000 "$room/o.bin" "$room/o.hex" &&
            objcopy -I binary -O srec --srec-forceS3 --change-section-address .data=0x8000 "$room/o.bin" "$room/o.s37" &&
            objcopy -I binary -O ihex --change-addresses 0x8000 "$room/o.bin" "$room/o5.hex" || wrong=1
        tools/rehex "$room/o.hex" --to srec --load 0x8000 >"$room/back.s37" && tools/rehex "$room/o.s37" --to hex --load 0x8000 >"$room/back.hex" &&
            tools/rehex "$room/back.hex" --to srec --load 0x8000 >"$room/again.s37" || wrong=1
        same "$room/back.s37" "$room/again.s37" "what objcopy wrote as S-records and as Intel HEX is not read as the same"
        is 1 tools/rehex "$room/o5.hex" --to srec --load 0x8000
        is 0 tools/verify examples/banks.form "$room/o.hex" --load 0x8000
    else
        echo "left out: the recipes for objcopy, which is not installed"
    fi
}
recipes
# the words of tools/form: a wrong line is named with what is wrong in it
wrong_words() {
    # shellcheck disable=SC2059
    printf "$2" >"$room/wrong.words"
    is 2 tools/form --make "$room/wrong.words"
    grep -q "$1" "$room/err" || {
        echo "tools/form --make of '$2' says '$(cat "$room/err")', without '$1'"
        wrong=1
    }
}
words_of_form() {
    for words in 'limit 1 2\n' 'form 3\n' 'bank unit 8 (size 40\n' 'bank unit 8 size 40)\n' 'bank unit 8 unit 8\n' 'bank unit 8 size 8 (size 8)\n' \
        'bank unit 8 fill fill\n' 'bank size 8\n' 'bank unit 8 fill ones\n' '\357\273\277form 2\n' 'data at 0:\n' 'data at 0: 1~?\n' 'values abc\n' \
        'values xy\n'; do
        wrong_words 'line 1[:,]' "$words"
    done
    for words in 'form 2\nform 2\n' 'bank unit 8\nform 2\n' 'limit 1\nlimit 1\n' 'rows 1\nrows 1\n'; do
        wrong_words 'line 2[:,]' "$words"
    done
    wrong_words 'line 2[:,].*label' '# a remark\nlable\n'
    # a number without its colon, a colon where none belongs, and a number that is missing never stand for 0
    for node in 'reserve 32' 'reserve' 'align 16' 'addr 16' 'data 8' 'data' 'data at 8' 'instruction 16' 'open 8' 'switch: 1' 'switch' 'label: 1' 'nothing: 1' \
        'nothing 1' 'assert 1' 'constant: 5' 'mark: 8' 'mark 8' 'kind 7' 'kind 7: 8' 'kind 7 32'; do
        wrong_words 'line 4[:,]' "bank unit 8\nbank unit 8 size 64 offset 0\nrows 1\n$node\nlimit 1\n"
    done
    # nothing but a line feed ends a line: not a form feed, not U+0085, U+2028 or another character that some editor shows so
    for end in '\014' '\013' '\034' '\302\205' '\342\200\250' '\342\200\251' '\r'; do
        wrong_words 'line 3[:,]' "bank unit 8\nrows 1\nlabel # a remark${end}switch 0\nlimit 1\n"
    done
    printf 'bank unit 8\nrows 1\nmark\nreserve: 0\nkind 7 32: 0\nkind 1 1: 5\nswitch 1\nlimit 1\n' >"$room/words"
    tools/form --make "$room/words" >"$room/back.form" && tools/form "$room/back.form" >"$room/words2" || wrong=1
    sed 's/^reserve: 0$/mark/' "$room/words" >"$room/words1"
    same "$room/words1" "$room/words2" "marks and nodes by their numbers come back changed"
    for form in examples/*.form; do
        tools/form "$form" >"$room/words" && tools/form --make "$room/words" >"$room/back.form" || wrong=1
        same "$form" "$room/back.form" "$form comes back changed from its words"
    done
    printf 'bank unit 8 (size 40) (offset 8) (align 3)\nrows 1\nlimit 1\n' >"$room/words"
    tools/form --make "$room/words" >"$room/back.form" && tools/form "$room/back.form" >"$room/words2" || wrong=1
    same "$room/words" "$room/words2" "numbers in brackets come back changed"
    # what a node is called is a remark, and says nothing of the file
    printf '2\tclamp_force\ttables.asm:12\n' >"$room/clamp.names"
    is 0 tools/form "$room/clamp.form"
    has "$room/out" 'data .*  # clamp_force, tables.asm:12' 'tools/form with names'
    tools/form --make "$room/out" >"$room/back.form" || wrong=1
    same "$room/clamp.form" "$room/back.form" "a file comes back changed from its words with names"
    is 2 tools/form --names "$room/clamp.form" "$room/clamp.form"
    refused 'refused 4 0' 'it looks like words for a layout file' tools/layout "$room/words"
}
if command -v python3 >/dev/null 2>&1; then
    words_of_form
fi
refused 'refused 4 0' 'it looks like Intel HEX' tools/layout "$room/made.hex"
refused '' 'it looks like S-records' tools/map "$room/made.s37"
# a program is built by `rt run` in its crate's folder, whatever the program ends with, once for the same files; with a stand-in for rt that proves nothing.
# One that is not built is said, with the end of what rt said, and the next run tries again
mkdir -p "$room/first/crates/prog/src" "$room/first/bin" && cp -R tools "$room/first/" && : >"$room/first/crates/prog/src/main.rt" || wrong=1
mkdir "$room/first/crates/low" "$room/first/portable" && cp portable/PRINTED "$room/first/portable/" || wrong=1
printf 'low:\nlate staticlib: low\nprog: low # remark\n' >"$room/first/crates.txt"
cat >"$room/first/bin/rt" <<'RT'
#!/bin/sh
case $1 in
version) echo stand-in ;;
doc) echo /nowhere/START-HERE.md ;;
run)
    echo "$1 in ${PWD##*/}" >>"$calls/calls"
    [ ! -e "$calls/fails" ] || { echo "rt: prog NOT PROVED" && exit 1; }
    echo 'fn prog::main: proved'
    mkdir -p out && printf '#!/bin/sh\necho ran\n' >out/prog && chmod +x out/prog
    exit 5
    ;;
esac
RT
chmod +x "$room/first/bin/rt"
# shellcheck disable=SC2317
first() {
    env PATH="$room/first/bin:$PATH" calls="$room/first" "$room/first/tools/run" "$@"
}
: >"$room/first/fails"
is 2 first --build prog
has "$room/err" 'tools/run: the program prog was not built: .*' 'a first build that fails'
has "$room/err" 'rt: prog NOT PROVED' 'a first build that fails'
rm "$room/first/fails"
is 0 first --build prog
has "$room/err" 'building the program prog: .*' 'a first build'
has "$room/first/calls" 'run in prog' 'a first build'
is 0 first --build prog
[ ! -s "$room/err" ] || {
    echo "a program that is built is built again: $(cat "$room/err")"
    wrong=1
}
has "$room/first/target/bin/prog" 'echo ran' 'a program that was built'
echo changed >"$room/first/crates/low/file"
is 0 first --build prog
[ "$(wc -l <"$room/first/calls")" -eq 3 ] || {
    echo "a program is not built again where a crate below it changed"
    wrong=1
}
# a folder that crates.txt does not list is no crate
mkdir -p "$room/first/crates/late/src" && : >"$room/first/crates/late/src/main.rt" && sed -i '/^late/d' "$room/first/crates.txt" || wrong=1
is 2 first --build late
has "$room/err" 'tools/run: there is no crate late' 'a program that crates.txt does not list'
# what no program says is no refusal
for said in hello 'refused 12' 'refused 20 0' 'refused 12 a b'; do
    is 2 tools/words examples/clamp-mark-after.form "$said"
done
is 0 tools/words examples/clamp-mark-after.form --help
# a pipe gives what the file gives, but for the name
tools/map examples/clamp-mark-after.form 2>"$room/words" | tail -n +2 >"$room/drawn"
# shellcheck disable=SC2002
cat examples/clamp-mark-after.form | tools/map - 2>"$room/err" | tail -n +2 >"$room/out"
same "$room/drawn" "$room/out" "tools/map - prints another map than for the file"
same "$room/words" "$room/err" "tools/map - has other words than for the file"
# shellcheck disable=SC2002
cat examples/clamp-mark-after.form | tools/map /dev/stdin 2>"$room/err" | tail -n +2 >"$room/out"
same "$room/drawn" "$room/out" "tools/map prints another map for a pipe than for the file"
same "$room/words" "$room/err" "tools/map has other words for a pipe than for the file"
# a disk that is full after 8 KiB, as a limit on the length of files whose signal is ignored, and the answer into a pipe, which has no limit: what was cut on
# that disk is not an answer, and no file is made of it
# shellcheck disable=SC2317
full_after() { # BLOCKS COMMAND ..
    {
        (
            trap '' XFSZ
            ulimit -f "$1"
            shift
            "$@"
        )
        echo "$?" >"$room/status"
    } | cat
    return "$(cat "$room/status")"
}
whole_room=$room/whole.hex
for call in "layout examples/sequencer.form -o $room/cut" "map --svg examples/sequencer.form" "map --html examples/sequencer.form" \
    "srec --whole examples/sequencer.form -o $room/cut" "convert examples/sequencer.form --to 2 -o $room/cut"; do
    # shellcheck disable=SC2086
    is 2 full_after 16 tools/$call
    [ ! -e "$room/cut" ] || {
        echo "tools/$call: made a file of an answer that was cut"
        wrong=1
    }
done
# no other answer needs a disk
for call in "layout examples/sequencer.form" "map examples/sequencer.form" "ihex --whole examples/sequencer.form" "convert examples/sequencer.form --to 2" \
    "rehex $whole_room" "bench $whole_room $whole_room --range 0 5120"; do
    # shellcheck disable=SC2086
    tools/$call >"$room/printed" || wrong=1
    # shellcheck disable=SC2086
    full_after 16 tools/$call | cmp -s - "$room/printed" || {
        echo "tools/$call: needs a disk"
        wrong=1
    }
done
# a write that fails is not an answer
[ ! -c /dev/full ] || for tool in ihex srec layout map; do
    "tools/$tool" examples/banks.form >/dev/full 2>"$room/err"
    [ $? -eq 2 ] || {
        echo "tools/$tool: an answer that could not be written has not status 2"
        wrong=1
    }
done
[ "$wrong" -eq 0 ] && echo "tools: all as they should be"
exit "$wrong"
