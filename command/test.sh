#!/bin/sh
# shellcheck disable=SC2016
# The command denkumari where files go wrong: command/test.sh. A full disk, a closed output, a pipe, a FIFO, 5 GB, any locale, names of any bytes, modes, an
# output that is an input, words on the command line: the right status each time, and nothing half-written. Then the words of refusals that were wrong once.
# The command is compiled first where it is not yet.
set -u
. "$(dirname "$(readlink -f -- "$0")")/../tools/start.sh"
. "$home/tools/native.sh"
words_at_most 0 "$@"
find_native
make_room
wrong=0 count=0
fault() {
    echo "$1"
    wrong=1
}
# ends STATUS SCRIPT: what a script ends with, in a folder of its own where $D is the command; one that does not end with 0 says why in a line
ends() {
    count=$((count + 1))
    timeout 20 sh -c "$2" 2>"$room/err" >"$room/out"
    got=$?
    [ "$got" -eq "$1" ] || fault "status $got and not $1: $2: $(head -n 2 "$room/err")"
    case $got:$2 in
    0:* | *'2>'*) ;;
    *) [ "$(grep -c '^denkumari' "$room/err")" -eq 1 ] || fault "not one line is said: $2: $(head -n 3 "$room/err")" ;;
    esac
}
# says PATTERN SCRIPT: the words of a refusal
says() {
    ends 1 "$2"
    grep -q -- "$1" "$room/err" || fault "$2 says '$(cat "$room/err")', and not '$1'"
}
# holds SCRIPT: something that is so
holds() {
    count=$((count + 1))
    sh -c "$1" >"$room/out" 2>&1 || fault "this is not so: $1: $(head -n 2 "$room/out")"
}
D=$native E=$home/examples
export D E
mkdir "$room/here" && cd "$room/here" || exit 2
cp "$E/worked.form" "$E/sequencer.form" "$E/clamp-mark-after.form" . || exit 2
"$D" ihex sequencer.form --whole >s.hex || wrong=1

# answers that cannot be written
for call in 'layout worked.form' 'map worked.form' 'map --lines worked.form' 'ihex sequencer.form --whole' 'srec sequencer.form --whole' 'rehex s.hex' \
    'bench s.hex s.hex --range 0 4' 'convert worked.form --to 2' 'compare worked.form worked.form' 'layout clamp-mark-after.form' \
    'words clamp-mark-after.form "refused 12 0 128"' '--help' 'layout --help' '--version'; do
    [ ! -c /dev/full ] || ends 2 "\"\$D\" $call >/dev/full"
    ends 2 "\"\$D\" $call >&-"
done
ends 0 '"$D" layout worked.form >/dev/null 2>&-'
ends 1 '"$D" layout clamp-mark-after.form >/dev/null 2>&-'
ends 2 '{ sleep .3; "$D" ihex sequencer.form --whole; echo $? >status; } | true; exit "$(cat status)"'
for call in 'layout sequencer.form' 'ihex sequencer.form --whole' 'srec sequencer.form --whole' 'convert sequencer.form --to 2' 'rehex s.hex'; do
    ends 2 "ulimit -f 4; \"\$D\" $call >big"
    ends 2 "ulimit -f 4; \"\$D\" $call -o big2"
    holds '[ ! -e big2 ] && [ -z "$(ls -A | grep "^\.denkumari")" ]'
done
# a disk that is full, where one can be made
if mkdir small && mount -t tmpfs -o size=8k none small 2>/dev/null; then
    ends 2 '"$D" ihex sequencer.form --whole >small/x.hex'
    rm -f small/x.hex && echo old >small/y.hex
    ends 2 '"$D" ihex sequencer.form --whole -o small/y.hex'
    holds '[ "$(cat small/y.hex)" = old ] && [ "$(ls -A small)" = y.hex ]'
    ends 0 'TMPDIR=small "$D" ihex sequencer.form --whole | cmp - s.hex'
    umount small
else
    echo "left out: a full disk, since none can be mounted here; a limit on files stands for it"
fi

# a system whose calls fail late, or do a part: what writes, closes, syncs and renames is asked whether it did
cat >faults.c <<'SOURCE'
#define _GNU_SOURCE
#include <errno.h>
#include <fcntl.h>
#include <stdlib.h>
#include <string.h>
#include <sys/stat.h>
#include <sys/syscall.h>
#include <unistd.h>
static int is(const char *call) { return getenv("FAULT") && strcmp(getenv("FAULT"), call) == 0; }
static int fails(const char *call, long done) { return is(call) ? (errno = EIO, -1) : (int)done; }
int fsync(int fd) { return fails("fsync", syscall(SYS_fsync, fd)); }
int fchmod(int fd, mode_t mode) { return fails("fchmod", syscall(SYS_fchmod, fd, mode)); }
int rename(const char *from, const char *to) { return is("rename") ? (errno = EIO, -1) : (int)syscall(SYS_renameat2, AT_FDCWD, from, AT_FDCWD, to, 0); }
int close(int fd) {
    int is_input = (fcntl(fd, F_GETFL) & O_ACCMODE) == O_RDONLY;
    return fails(is_input ? "close of an input" : "close", syscall(SYS_close, fd));
}
static ssize_t partly(long call, int fd, void *at, size_t n) {
    static int turn;
    if (is("interrupted") && turn++ % 2 == 0) return errno = EINTR, -1;
    return syscall(call, fd, at, is("part") && n > 7 ? 7 : n);
}
ssize_t read(int fd, void *at, size_t n) { return partly(SYS_read, fd, at, n); }
ssize_t write(int fd, const void *at, size_t n) { return partly(SYS_write, fd, (void *)at, n); }
SOURCE
if "${CC:-cc}" -shared -fPIC -o faults.so faults.c 2>/dev/null && sync s.hex && ! FAULT=fsync LD_PRELOAD=./faults.so sync s.hex 2>/dev/null; then
    cp s.hex late.hex
    for fault in fsync fchmod rename close 'close of an input'; do
        ends 2 "FAULT='$fault' LD_PRELOAD=./faults.so \"\$D\" ihex worked.form --whole -o late.hex"
        holds 'cmp s.hex late.hex && [ -z "$(ls -A | grep "^\.denkumari")" ]'
    done
    ends 2 'FAULT=close LD_PRELOAD=./faults.so "$D" ihex worked.form --whole >late'
    for fault in part interrupted; do
        ends 0 "FAULT=$fault LD_PRELOAD=./faults.so \"\$D\" ihex sequencer.form --whole >late && cmp late s.hex"
        ends 0 "FAULT=$fault LD_PRELOAD=./faults.so \"\$D\" rehex s.hex --to hex -o late.hex && cmp late.hex s.hex"
    done
else
    echo "left out: calls that fail late, since no library can be put ahead of the system's here"
fi

# -o: whole or not at all, mode kept, through links, never an input
for mode in 600 640 444 4755; do
    holds "rm -f m; cp s.hex m; chmod $mode m; \"\$D\" ihex worked.form --whole -o m; [ \"\$(stat -c %a m)\" = $mode ] && ! cmp -s m s.hex"
done
holds 'umask 027; "$D" layout worked.form -o new.txt; [ "$(stat -c %a new.txt)" = 640 ]'
holds 'rm -f m.hex; cp s.hex m.hex; ln -s m.hex l.hex; "$D" ihex worked.form --whole -o l.hex; [ -L l.hex ] && "$D" ihex worked.form --whole | cmp - m.hex'
holds 'ln -s nothere.hex d.hex; "$D" ihex worked.form --whole -o d.hex; [ -L d.hex ] && [ -s nothere.hex ]'
ends 2 'ln -s loop1 loop2; ln -s loop2 loop1; "$D" layout worked.form -o loop1'
cp s.hex s2.hex && ln worked.form w2.form && ln -s worked.form w3.form
for call in 'layout worked.form -o worked.form' 'layout worked.form -o w2.form' 'layout worked.form -o ./worked.form' 'layout - -o worked.form <worked.form' \
    'convert w3.form --to 2 -o w2.form' 'bench s.hex s2.hex -o s2.hex' 'bench s.hex s2.hex -o s.hex' 'compare worked.form sequencer.form -o sequencer.form' \
    'rehex s.hex -o s.hex'; do
    ends 2 "\"\$D\" $call"
done
holds 'cmp worked.form "$E/worked.form" && cmp sequencer.form "$E/sequencer.form" && cmp s.hex s2.hex'
mkdir dir
for out in dir nodir/x /dev/full /proc/x '""'; do
    ends 2 "\"\$D\" layout worked.form -o $out"
done
ends 1 '"$D" ihex clamp-mark-after.form -o refused.hex'
ends 1 'cp s.hex keep.hex; "$D" ihex clamp-mark-after.form -o keep.hex'
holds '[ ! -e refused.hex ] && cmp s.hex keep.hex'

# inputs: pipes and FIFOs are read once, and no more than the longest file and a byte
: >empty
for call in 'layout nothere' 'layout dir' 'layout ""' 'layout - <&-' 'bench s.hex - <&-' 'bench - -' 'compare - -' 'layout <dir' 'map'; do
    ends 2 "\"\$D\" $call"
done
for call in 'layout empty' 'map empty' 'rehex empty' 'convert empty --to 2' 'bench empty s.hex' 'ihex empty'; do
    ends 1 "\"\$D\" $call"
done
ends 0 'mkfifo ff; cat worked.form >ff & "$D" layout ff >a; "$D" layout worked.form | cmp - a'
ends 0 'cat s.hex >ff & "$D" rehex ff >a; "$D" rehex s.hex | cmp - a'
ends 1 'yes | head -c 9000000 >ff 2>/dev/null & "$D" rehex ff'
ends 1 'yes | "$D" layout -'
ends 1 '"$D" layout /dev/zero'
ends 0 '{ head -c 20 worked.form; sleep .2; tail -c +21 worked.form; } | "$D" layout >a; "$D" layout worked.form | cmp - a'
ends 0 '"$D" map - <worked.form >a'
truncate -s 5G sparse && printf S >s5 && truncate -s 5G s5 || wrong=1
for call in layout map ihex srec rehex 'convert --to 2' 'bench s.hex' 'rehex s5 --to'; do
    case $call in *--to) ends 1 '"$D" rehex s5' ;; *) ends 1 "\"\$D\" $call sparse" ;; esac
done
rm -f sparse s5

# no locale and no variable reaches an answer; any bytes of a name are shown escaped
for locale in tr_TR.UTF-8 de_DE.UTF-8 ja_JP.SJIS C POSIX none; do
    ends 0 "LC_ALL=$locale LANGUAGE=tr POSIXLY_CORRECT=1 TMPDIR=/nonexistent map_name=x fill=full load=7 page=3 every=1 output=zz \"\$D\" ihex sequencer.form \
--whole | cmp - s.hex"
    ends 1 "LC_ALL=$locale \"\$D\" map clamp-mark-after.form >a; status=\$?; LC_ALL=C \"\$D\" map clamp-mark-after.form >b 2>/dev/null; cmp a b && exit \$status"
done
# what cannot be asked for cannot be in the way, also where this machine has no other locale
if command -v nm >/dev/null 2>&1; then
    holds 'nm -u "$D" | grep -q "[ _]write"'
    holds '! nm -u "$D" | grep -E "[ _](setlocale|newlocale|uselocale|(secure_)?getenv|environ|system|popen|exec[a-z]*|fork|mkstemp|tmpfile)(@|$)"'
else
    echo "skipped: what the command asks of the system, for want of nm"
fi
odd=$(printf 'od\377d\033[31m\n\303\244.form')
cp worked.form "$odd" && cp clamp-mark-after.form "x$odd" || wrong=1
export odd
ends 0 '"$D" layout "$odd" -o "$odd.out" && "$D" map "$odd" >a && LC_ALL=C grep -q "^od.xffd.x1b\[31m.x0a" a'
ends 1 '"$D" map "x$odd" >/dev/null'
ends 2 '"$D" layout "no$odd"'
holds '! LC_ALL=C grep -q "[^ -~]" a || [ "$(LC_ALL=C tr -d "\303\244\n -~" <a | wc -c)" -eq 0 ]'
holds '[ "$(LC_ALL=C tr -d "\303\244\n -~" <"'"$room"'/err" | wc -c)" -eq 0 ]'

# the command line
for call in '' foo --foo 'layout --load 3 worked.form' 'layout --fill half worked.form' 'layout --page x worked.form' 'layout --page 4294967296 worked.form' \
    'layout a b' ihex 'ihex worked.form --load' 'ihex worked.form --whole=1' 'bench s.hex' 'bench s.hex s.hex --range 0' 'rehex s.hex --to hex --width 2' \
    'convert worked.form' 'convert worked.form --to 3' 'layout --names nothere worked.form' 'layout -- worked.form --fill' '--version x' \
    'words worked.form hello'; do
    ends 2 "\"\$D\" $call"
done
for call in 'ihex sequencer.form --whole --load=0x10 --fill=full' 'bench s.hex s.hex --range=0 4' 'layout -- worked.form' 'layout --nothing --help' \
    'layout --page=8 --page 16 --fill inherited worked.form'; do
    case $call in *--page=8*) ends 1 "\"\$D\" $call" ;; *) ends 0 "\"\$D\" $call" ;; esac
done

for word in --page --fill --foo; do
    ends 2 "\"\$D\" layout worked.form $word \"\$odd\""
    holds '[ "$(LC_ALL=C tr -d "\303\244\n -~" <"'"$room"'/err" | wc -c)" -eq 0 ] && [ "$(wc -l <"'"$room"'/err")" -eq 1 ]'
done

# names have the sum of their layout file: stale ones are told and not used, given ones refused; a conversion writes those of its result
printf '7\twear\tt.asm:19\n' >clamp-mark-after.names
says '^denkumari layout: wear, t.asm:19 (node 7, ' '"$D" layout clamp-mark-after.form'
printf 'form\t%s\n7\twear\tt.asm:19\n' "$(cksum <clamp-mark-after.form | tr ' ' '\t')" >clamp-mark-after.names
says '^denkumari layout: wear, t.asm:19 (node 7, ' '"$D" layout clamp-mark-after.form'
says '^denkumari ihex: refused with 12: wear, t.asm:19 (node 7, ' '"$D" ihex clamp-mark-after.form'
cp clamp-mark-after.names worked.names
ends 2 '"$D" layout --names worked.names worked.form'
ends 0 '"$D" map worked.form >a 2>err; grep -q "are left out: they belong to another layout file (cksum " err && ! grep -q wear a'
rm worked.names
# one bank of unit 8, a label, a row, no values, limit 1
{
    printf '\001\000\027\000\010\000\000\000\000\000\000\000\000\000\000\000\000\000\000\000\000\000\000\000\000\000\002\000\005\002\000\000\000\000'
    printf '\003\000\005\000\000\000\000\000\004\000\000\005\000\001\001'
} >one.form
printf '0\tfirst\tt.asm:1\n' >one.names
ends 0 '"$D" convert one.form --to 2 -o two.form && [ "$(sed -n 2p two.names)" = "$(printf "1\tfirst\tt.asm:1")" ]'
ends 0 '[ "$(sed -n 1p two.names)" = "$(printf "form\t%s" "$(cksum <two.form | tr " " "\t")")" ]'
ends 0 '"$D" convert two.form --to 1 -o three.form && cmp one.form three.form && [ "$(sed -n 2p three.names)" = "$(cat one.names)" ]'
rm -f ./*.names

# words that were not so once: the kind of records by a small s too; a pipe that was read; a refusal that the layout does not have; the first unresolved node
sed '1s/^S/s/' >lower.s37 <<RECORDS
$("$D" rehex s.hex)
RECORDS
ends 0 '"$D" rehex lower.s37 | cmp - s.hex'
sed '3s/.$/!/' s.hex >bad.hex
says 'line 3: .* is no hex digit' 'cat bad.hex >ff & "$D" bench ff s.hex'
says 'standard input: line 3: ' 'cat bad.hex | "$D" bench s.hex -'
for said in 'refused 9 0' 'refused 12 0 64' 'refused 4 0' 'refused 19 5 2' 'refused 18 0'; do
    ends 2 "\"\$D\" words clamp-mark-after.form '$said'"
    ends 2 "\"\$D\" words worked.form '$said'"
done
ends 0 '"$D" words clamp-mark-after.form "refused 12 0 128" >a; "$D" layout clamp-mark-after.form 2>b >/dev/null; sed "s/^denkumari layout: //" b | cmp - a'
ends 0 '"$D" words "$E/paged-unit.form" "refused 19 5 2" --page 128'
ends 0 '"$D" words "$E/erased.form" "refused 18 0" --to 1'
for said in 'refused 14 1' 'refused 15 3' 'refused 16 0' 'refused 17 0'; do
    ends 0 "\"\$D\" words worked.form '$said'"
done
# the manual page and the completion are those of help.def: every option of every command is in both
if "${CC:-cc}" -std=c99 -o "$room/pages" "$home/command/pages/pages.c" -I"$home/command"; then
    ends 0 '"'"$room"'/pages" | cmp - "'"$home"'/docs/denkumari.1"'
    ends 0 '"'"$room"'/pages" bash | cmp - "'"$home"'/command/denkumari.bash"'
    [ ! -c /dev/full ] || ends 2 '"'"$room"'/pages" >/dev/full 2>&1'
else
    fault "command/pages/pages.c is not compiled"
fi
if command -v bash >/dev/null 2>&1; then
    completed() {
        # shellcheck disable=SC2016
        bash -c '. "$1"; shift; COMP_WORDS=("$@"); COMP_CWORD=$(($# - 1)); _denkumari; echo "${COMPREPLY[*]}"' bash "$home/command/denkumari.bash" "$@"
    }
    holds '[ "'"$(completed denkumari la)"'" = layout ]'
    holds '[ "'"$(completed denkumari ihex --w)"'" = --whole ]'
    holds '[ "'"$(completed denkumari rehex --to '')"'" = "hex srec" ]'
    holds '[ -z "'"$(completed denkumari layout wor)"'" ]'
else
    echo "skipped: the completion for bash, for want of bash"
fi
# --json has the text's numbers, in any locale; what cannot be written is status 2 there too
if command -v python3 >/dev/null 2>&1; then
    python3 "$home/command/test_json.py" "$D" || wrong=1
else
    echo "skipped: --json beside the text, for want of python3"
fi
for call in 'layout worked.form' 'map worked.form' 'compare worked.form worked.form' 'bench s.hex s.hex' 'layout clamp-mark-after.form'; do
    [ ! -c /dev/full ] || ends 2 "\"\$D\" $call --json >/dev/full"
done
ends 1 '"$D" layout clamp-mark-after.form --json -o j'
holds '[ ! -e j ]'
ends 0 '"$D" layout worked.form --json -o j && LC_ALL=tr_TR.UTF-8 "$D" layout worked.form --json | cmp - j'
ends 2 '"$D" map worked.form --json --lines'
# bench's status with --check, and what its refusals name
"$D" ihex "$E/banks.form" --load 0x8000 >b.hex && "$D" ihex "$E/banks.form" >b0.hex && "$D" srec "$E/banks.form" >b.s37 || wrong=1
ends 0 '"$D" bench b.hex b.hex --check'
ends 1 '"$D" bench b.hex b0.hex --check 2>/dev/null'
ends 0 '"$D" bench b.hex b0.hex'
ends 2 '"$D" bench b.hex b0.hex --check --range 0 1'
says 'looks like S-records: .* denkumari rehex makes Intel HEX' '"$D" bench b.hex b.s37'
{ printf '\357\273\277' && cat b.hex; } >bom.hex
says 'line 1: the file begins with a byte order mark (EF BB BF)' '"$D" bench b.hex bom.hex'
says 'the file begins with a byte order mark' '"$D" rehex bom.hex'
says 'it begins with a byte order mark' '"$D" layout bom.hex'
printf '\357\273\2770\ta\tb\n' >bom.names
ends 0 '! "$D" layout --names bom.names worked.form 2>err && grep -q "names file: it begins with a byte order mark" err'
printf ':020000040010EA\n:0100000000FF\n:00000001FF\n' >far.hex
says 'lowest address is 0x100000, and --load 0x100000 would do' '"$D" bench far.hex far.hex --load 0'
# without --load: bench takes the lowest address that both files and the range have, and verify names that of a dump which gives none of the image
ends 0 '"$D" bench far.hex far.hex --check && "$D" bench far.hex far.hex --range 0x100000 1 | grep -qx "overlay 00"'
says 'gives no byte at 1048575 (0x000fffff)' '"$D" bench far.hex far.hex --range 0xfffff 2'
for call in 'b.hex b0.hex' 'b.hex b.hex --range 0x7ffe 4' 'b.hex b.hex --range 0x8000 2'; do
    holds "\"\$D\" bench $call >a 2>&1; \"\$D\" bench $call --load 0 2>&1 | cmp - a"
done
ends 0 '"$D" verify "$E/banks.form" b.hex >a 2>err; [ $? -eq 1 ] && grep -q "b.hex: its lowest address is 0x8000: if .* say --load 0x8000$" err'
ends 0 '"$D" verify "$E/banks.form" b.hex --load 0x8000 2>err && [ ! -s err ]'
says 'docs/RECIPES.md' 'printf ":020000021000EC\n:00000001FF\n" >seg.hex; "$D" rehex seg.hex'
# refusal 16 names the block; words that differ are shown with their addresses, old and new
says '16: block 0 (output bits 0..9, from node 2 on) does not begin and end on a whole byte' '"$D" ihex worked.form'
{ head -c 123 worked.form && printf '\377\200' && tail -c +126 worked.form; } >other.form
ends 0 '"$D" compare worked.form other.form >a; [ $? -eq 1 ] && grep -qx "  word 0x40: 3ff -> 3fe" a && grep -qx "  1 byte differs: 1" a'
ends 0 '"$D" map "$E/banks.form" | grep -q "2 passes run (layout.s .passes 1.; pass 2 confirmed it)$"'
# --room: the same records where the usual room does, and larger images where it does not
for call in 'ihex worked.form' 'ihex worked.form --whole --load 0x12345' 'srec sequencer.form --whole --width 2' \
    'srec "$E/banks.form" --width 2 --load 0xfff0' 'ihex "$E/paged.form" --page 128' 'ihex "$E/paged-unit.form" --page 128' 'srec clamp-mark-after.form --whole' 'ihex sequencer.form' 'ihex s.hex' \
    'map sequencer.form' 'map clamp-mark-after.form' 'map --json sequencer.form --fill full'; do
    holds "\"\$D\" $call >a 2>b; s=\$?; \"\$D\" $call --room 16384 >c 2>d; [ \$? -eq \$s ] && cmp a c && cmp b d"
done
for call in 'ihex worked.form --room 16777217' 'layout worked.form --room 1' 'ihex worked.form --room x' 'ihex worked.form --room'; do
    ends 2 "\"\$D\" $call"
done
says 'does not fit its room, 4 bytes or 32 bits: bank 1 (' '"$D" ihex worked.form --whole --room 4'
ends 0 '"$D" ihex worked.form --whole --room 5'
if command -v python3 >/dev/null 2>&1; then
    printf 'form 2\nbank unit 8\nbank unit 8 size 134217728 offset 0 fill\nswitch 1\ndata 8: 11\naddr: 8000000\ndata 8: 22\nlimit 1\n' >large.words
    ends 0 '"'"$home"'/tools/form" --make large.words >large.form'
    says 'does not fit its room, 16384 bytes .*--room BYTES' '"$D" ihex large.form'
    says 'does not fit its room' '"$D" map large.form'
    ends 0 '"$D" ihex large.form --room 16777216 >a && [ "$(cat a)" = "$(printf ":0100000011EE\n:02000004000FEB\n:01424000225B\n:00000001FF")" ]'
    ends 0 '"$D" map large.form --room 16777216 | grep -q "^image of 134217728 bits, 16777216 bytes$"'
    ends 0 '"$D" srec large.form --whole --room 16777216 >a && [ "$(wc -l <a)" -gt 500000 ]'
    rm -f a large.*
fi
# read-back: the same, not the same, not at all
if command -v python3 >/dev/null 2>&1; then
    python3 "$home/command/test_verify.py" "$D" || wrong=1
else
    echo "skipped: verify beside a model, for want of python3"
fi
ends 0 '"$D" verify "$E/banks.form" b.hex --load 0x8000 >a && [ "$(cat a)" = "b.hex: the same, 16 bytes" ]'
ends 0 '"$D" verify "$E/banks.form" b.s37 && "$D" verify sequencer.form s.hex --whole && tr A-F a-f <s.hex | "$D" verify sequencer.form - --whole'
ends 1 '"$D" verify "$E/banks.form" b.hex >a 2>/dev/null'
holds 'head -n 1 a | grep -qx "b.hex: 16 bytes are not given, of 16 bytes"'
sed 's/^:1000100000\(.*\)1D$/:1000100055\1C8/' s.hex >turned.hex
ends 1 '"$D" verify sequencer.form turned.hex --whole >a 2>/dev/null'
holds 'grep -q "^node [0-9]*, word 0x[0-9a-f]*: [0-9a-f]\{3\}, should be [0-9a-f]\{3\} (0x00000010" a'
printf '1\tfirst\tt.asm:1\n2\tcurve\tt.asm:3\n' >banks.names
sed '1s/1234E7$/1235E6/' b.hex >turned.hex
ends 1 '"$D" verify "$E/banks.form" turned.hex --load 0x8000 >a 2>/dev/null'
holds 'grep -qx "node 3, word 0x104: 35, should be 34 (0x00008004)" a'
sed '1s/0E00401234E7$/0F00401234E6/' b.hex >turned.hex
ends 1 '"$D" verify "$E/banks.form" turned.hex --load 0x8000 --names banks.names -o a 2>/dev/null'
holds 'grep -qx "curve, t.asm:3 (node 2), word 0x100: 0f, should be 0e (0x00008000)" a'
says 'verify: refused with 16: block 0 .*--whole' '"$D" verify worked.form s.hex'
says 'verify: refused with 12: ' '"$D" verify clamp-mark-after.form s.hex'
says 'verify: refused with 4: bad.hex: line 3: ' '"$D" verify worked.form bad.hex --whole'
says 'begins with a byte order mark' '"$D" verify worked.form bom.hex --whole'
says 'verify: refused with 14: the image does not fit its room, 4 bytes' '"$D" verify worked.form s.hex --whole --room 4'
says 'longer than 50331648 bytes' 'truncate -s 5G big5; "$D" verify worked.form big5 --whole'
rm -f big5 banks.names
for call in 'verify worked.form' 'verify - -' 'verify worked.form nothere' 'verify nothere s.hex' 'verify worked.form s.hex --load x' 'verify worked.form dir' \
    'verify sequencer.form s.hex --whole -o s.hex' 'verify sequencer.form s.hex --whole >&-' 'verify sequencer.form s.hex --whole --json >&-'; do
    ends 2 "\"\$D\" $call"
done
[ ! -c /dev/full ] || ends 2 '"$D" verify sequencer.form s.hex --whole >/dev/full'
ends 0 'cat s.hex >ff & "$D" verify sequencer.form ff --whole'
ends 1 '"$D" verify clamp-mark-after.form s.hex --json -o j2'
holds '[ ! -e j2 ] && cmp s.hex s2.hex'
[ "$wrong" -eq 0 ] && echo "the command: $count cases, all as they should be"
exit "$wrong"
