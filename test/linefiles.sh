#!/usr/bin/env bash
# Runs every command of ./linefiles on good and on bad input. What it prints and its exit status are compared with test/expected/, one file for each case.
# One line for each case, the last line is 'N passed, M failed'. It needs bash and the usual tools.
# With UPDATE=1 the files of test/expected/ are written anew: look them over before they are committed.
set -u
export LC_ALL=C
root=$(cd "$(dirname "$0")/.." && pwd) || exit 2
expected=$root/test/expected
"$root/linefiles" survey "$root/samples/one-page.dsk" >/dev/null || exit 2 # builds, if need be
work=$(mktemp -d) || exit 2
trap 'rm -rf "$work"' EXIT
cd "$work" || exit 2
ln -s "$root/samples" samples
passed=0
failed=0

pass() {
    echo "pass $1"
    passed=$((passed + 1))
}

fail() {
    echo "FAIL $1"
    failed=$((failed + 1))
}

# run ARGS..: standard output to `out`, standard error to `err`, the exit status to `status`.
run() {
    "$root/linefiles" "$@" >out 2>err
    status=$?
}

# same NAME ARGS..: what linefiles prints and its status, against expected/NAME.
same() {
    local name=$1
    shift
    run "$@"
    {
        printf '$ linefiles'
        [ $# -eq 0 ] || printf ' %q' "$@"
        echo
        cat out
        echo "--- standard error"
        cat err
        echo "--- status $status"
    } >answer
    if [ -n "${UPDATE:-}" ]; then cp answer "$expected/$name"; fi
    if diff "$expected/$name" answer >difference 2>&1; then pass "$name"; else
        fail "$name"
        sed 's/^/    /' difference
    fi
}

# holds NAME COMMAND..: the command succeeds.
holds() {
    local name=$1
    shift
    if "$@" >difference 2>&1; then pass "$name"; else
        fail "$name"
        sed 's/^/    /' difference
    fi
}

not() { ! "$@"; }

# patch FILE PLACE HEX..: puts bytes into a file.
patch() {
    local file=$1 place=$2 byte
    shift 2
    for byte in "$@"; do printf "\\x$byte"; done | dd of="$file" bs=1 seek="$place" conv=notrunc status=none
}

# damaged FILE FROM PLACE HEX..: a copy of a sample with bytes changed.
damaged() {
    local file=$1 from=$2
    shift 2
    cp "samples/$from" "$file"
    chmod u+w "$file"
    patch "$file" "$@"
}

# at TRACK SECTOR BYTE: a place on a flat disk of 16 sectors a track; at_13 the same on one of 13.
at() { echo $((4096 * $1 + 256 * $2 + $3)); }
at_13() { echo $((3328 * $1 + 256 * $2 + $3)); }

# nib TRACK SECTOR BYTE: a place in a stream, by address sector. The address is at byte 48, the data at byte 70 of 416.
nib() { echo $((416 * (16 * $1 + $2) + $3)); }

# nib_13 TRACK SECTOR BYTE: the same in the stream of 13, whose sectors lie ten apart. The address is at byte 40, the data at byte 66 of 480.
nib_13() { echo $((480 * (13 * $1 + 4 * $2 % 13) + $3)); }

# tidy: nothing but what is named lies in the folder `outs`.
tidy() { [ "$(ls -A outs | tr '\n' ' ')" = "$*" ]; }

# counted FILE: the sum of the counts under a map, those of the small letters left out.
counted() { sed -n 's/^ *\([0-9]*\)   [VCLDX.#]   .*/\1/p' "$1" | awk '{ n += $1 } END { print n }'; }

# pairs FILE TRACK SECTOR COUNT: that many pairs of a list on a disk of 16 sectors a track, a line each.
pairs() { dd if="$1" bs=1 skip="$(at "$2" "$3" 12)" count=$((2 * $4)) status=none | od -A n -v -t u1 -w2; }

# joined FILE: the sectors of the pairs on standard input, one behind the other.
joined() {
    local track sector
    while read -r track sector; do dd if="$1" bs=256 skip=$((16 * track + sector)) count=1 status=none; done
}

sum_is() { [ "$(sha256sum <"$1")" = "$2  -" ]; }

# body [FILE]: what is printed behind what was read.
body() { sed '0,/sectors a track/d' "$@" | sed '/^It holds a disk of /d'; }

# plain FILE: no byte that a terminal may act on, and no line over 80 columns.
plain() { [ "$(tr -d '\n -~' <"$1" | wc -c)" -eq 0 ] && [ "$(wc -L <"$1")" -le 80 ]; }

mkdir outs

# list: question four of the paper, and what was followed up to a refusal
same list-one-page list samples/one-page.dsk
holds list-one-page-plain plain out
sed -n '/^    samples\/one-page.dsk: /,/^    4 files/p' "$root/README.md" | sed 's/^    //' >shown
holds readme-shows-it diff shown out
same list-one-page-nibbles list samples/one-page.nib
same list-several-pages list samples/several-pages.dsk
holds list-several-pages-plain plain out
same list-full list samples/full.dsk
holds list-full-plain plain out
same list-overlong list samples/overlong.dsk
same list-ring list samples/ring.dsk
same list-ring-of-pages list samples/ring-of-pages.dsk
same list-cut-link list samples/cut-link.dsk
holds crate-data cmp "$root/crates/linefiles/data/one-page.dsk" samples/one-page.dsk

# list: one damaged disk for each other refusal, and links that end a chain with a byte left in them
damaged no-table.dsk one-page.dsk "$(at 17 0 52)" 24
same list-no-table list no-table.dsk
damaged first-page-off.dsk one-page.dsk "$(at 17 0 2)" 10
same list-first-page-off list first-page-off.dsk
damaged page-off.dsk several-pages.dsk "$(at 17 14 1)" 23 05
same list-page-off list page-off.dsk
damaged bad-letter.dsk several-pages.dsk "$(at 17 14 $((11 + 2 * 35 + 3 + 4)))" 80
same list-bad-letter list bad-letter.dsk
damaged list-off.dsk one-page.dsk "$(at 17 15 $((11 + 3 * 35)))" 1a 10
same list-list-off list list-off.dsk
damaged link-off.dsk one-page.dsk "$(at 18 11 1)" 23 01
same list-link-off list link-off.dsk
damaged pair-off.dsk one-page.dsk "$(at 26 15 14)" 18 10
same list-pair-off list pair-off.dsk
damaged link-bytes.dsk one-page.dsk "$(at 17 15 1)" 00 07
patch link-bytes.dsk "$(at 18 15 2)" 09
same list-link-bytes list link-bytes.dsk

# list and survey as JSON: the same facts
for disk in one-page several-pages ring ring-of-pages cut-link overlong alike crossed; do
    same "list-json-$disk" list "samples/$disk.dsk" --json
    cp out "list-$disk.json"
    same "survey-json-$disk" --json survey "samples/$disk.dsk"
    cp out "survey-$disk.json"
done
same list-json-nibbles list samples/one-page.nib --json
cp out list-nibbles.json
holds list-json-nibbles-equal diff <(sed '/"refusal"/,$!d' list-one-page.json) <(sed '/"refusal"/,$!d' out)
same list-json-thirteen list samples/thirteen.nib --json --13
cp out list-thirteen.json
same list-json-no-table list no-table.dsk --json
cp out list-no-table.json
same survey-json-no-table survey no-table.dsk --json
same list-json-page-off list page-off.dsk --json
head -c 1000 samples/one-page.nib >cut.nib
same list-json-absent list cut.nib --json
cp out list-absent.json
same survey-json-absent survey cut.nib --json
cp out survey-absent.json
cat samples/one-page.nib samples/thirteen.nib >two.nib
same survey-json-two survey two.nib --json
cp samples/one-page.dsk $'odd "name"\\ \xc3\xbc \xff \x1b.dsk'
run survey $'odd "name"\\ \xc3\xbc \xff \x1b.dsk' --json
holds json-path test "$(sed -n 2p out)" = $'  "file": "odd \\"name\\"\\\\ \xc3\xbc \\ufffd \\u001b.dsk",'
cp out odd-path.json
if command -v python3 >/dev/null; then
    for file in *.json; do holds "json-parses-$file" python3 -m json.tool "$file"; done
fi

# Names that are not UTF-8, of disks, files and folders.
mkdir raw $'raw/\xfe'
run get samples/one-page.dsk 'LINE 7 RING 1' raw/plain
run get samples/one-page.dsk 'LINE 7 RING 1' $'raw/a\xff'
holds raw-name-written test "$status $(tail -n 1 out)" = $'0 wrote raw/a\xff, 700 bytes'
holds raw-name-bytes cmp raw/plain $'raw/a\xff'
run get samples/one-page.dsk 'LINE 7 STATIONS' $'raw/a\xff'
holds raw-name-taken test "$status $(sed -n 1p err)" = $'2 linefiles: raw/a\xff is there already;'
holds raw-name-kept cmp raw/plain $'raw/a\xff'
run get samples/one-page.dsk 'LINE 7 STATIONS' $'raw/a\xff' --force
holds raw-name-forced test "$status $(wc -c <$'raw/a\xff')" = '0 252'
run get samples/one-page.dsk 'LINE 7 STATIONS' $'raw/\xfe/b\xff'
holds raw-folder-written test "$status $(wc -c <$'raw/\xfe/b\xff')" = '0 252'
run get samples/one-page.dsk 'LINE 7 STATIONS' $'raw/\xfd/b\xff'
holds raw-folder-missing test "$status $(cat err)" = $'2 linefiles: cannot write raw/\xfd/b\xff: No such file or directory'
cp samples/one-page.dsk $'raw/\xfe.dsk'
ln -s $'\xfe.dsk' $'raw/l\xff'
run delete $'raw/l\xff' 'SHIFT NOTES'
holds raw-disk-replaced test "$status $(readlink $'raw/l\xff')" = $'0 \xfe.dsk'
run survey $'raw/\xfe.dsk'
holds raw-disk-changed grep -q '^  entries  *3$' out
run save $'raw/\xfe.dsk' NEW 0 raw/plain --out $'raw/\xff.dsk'
holds raw-disk-out test "$status $(wc -c <$'raw/\xff.dsk')" = '0 143360'
holds raw-nothing-left test -z "$(find raw -name '.linefiles*')"

# map as a picture: that of README is what the command draws
run map samples/one-page.dsk --svg -
holds svg-readme cmp out "$root/docs/one-page.svg"
holds svg-notes test "$status $(cat err)" = '0 samples/one-page.dsk: flat disk of 143360 bytes, 16 sectors a track'
same svg-file map samples/one-page.dsk --svg outs/one.svg
holds svg-file-bytes cmp outs/one.svg "$root/docs/one-page.svg"
same svg-there map samples/full.dsk --svg outs/one.svg
holds svg-there-kept cmp outs/one.svg "$root/docs/one-page.svg"
same svg-ring map samples/ring.dsk --svg outs/none
holds svg-nothing-left not test -e outs/none
for disk in one-page.dsk one-page.nib several-pages.dsk full.dsk overlong.dsk last-pair.dsk alike.dsk thirteen.nib moved-catalog.dsk crossed.dsk; do
    run map "samples/$disk" --svg -
    cp out "${disk/./-}.svg"
done
holds svg-nibbles diff <(sed 's/one-page\.nib/one-page.dsk/' one-page-nib.svg) "$root/docs/one-page.svg"
if command -v python3 >/dev/null; then
    for file in *.svg; do holds "svg-parses-$file" python3 -c 'import sys, xml.dom.minidom as x; assert x.parse(sys.argv[1]).documentElement.tagName == "svg"' "$file"; done
fi
rm -f outs/*

# survey and map
same survey-one-page survey samples/one-page.dsk
same survey-one-page-nibbles survey samples/one-page.nib
same survey-several-pages survey samples/several-pages.dsk
same survey-full survey samples/full.dsk
same survey-overlong survey samples/overlong.dsk
same survey-ring survey samples/ring.dsk
# percent used at the half: exactly halfway to the even number, beside it to the nearest
while read -r used percent; do
    map=()
    for ((track = 0; track < 35; track++)); do
        left=$((used - 16 * track))
        left=$((left < 0 ? 0 : left > 16 ? 16 : left))
        bits=$(printf %04x $((0xFFFF << left & 0xFFFF)))
        map+=("${bits:0:2}" "${bits:2}" 00 00)
    done
    damaged used.dsk one-page.dsk "$(at 17 0 56)" "${map[@]}"
    run survey used.dsk
    holds "survey-used-$used" test "$status $(sed -n 's/ sectors / /; s/^  \(free\|used\|percent used\)  */\1 /p' out | tr '\n' ' ')" = "0 free $((560 - used)) used $used percent used $percent "
    run survey used.dsk --json
    holds "survey-used-$used-json" test "$status $(sed -n '/"percent_used"/p' out)" = "0   \"percent_used\": $percent,"
done <<'end'
0 0
13 2
14 2
15 3
41 7
42 8
43 8
70 12
98 18
518 92
546 98
547 98
560 100
end
same map-one-page map samples/one-page.dsk
holds map-one-page-plain plain out
same map-several-pages map samples/several-pages.dsk
same map-full map samples/full.dsk
same map-cut-link map samples/cut-link.dsk

# get
same get-line get samples/one-page.dsk 'LINE 7 STATIONS' outs/stations
dd if=samples/one-page.dsk of=wanted bs=1 skip="$(at 26 10 4)" count=252 status=none
holds get-line-bytes cmp wanted outs/stations
same get-line-nibbles get samples/one-page.nib 'LINE 7 STATIONS' outs/stations-nibbles
holds get-line-nibbles-bytes cmp wanted outs/stations-nibbles
same get-last-of-name get samples/several-pages.dsk 'LINE 1 RING 1' outs/last
same get-escaped get samples/several-pages.dsk 'BELL\x07 AND ESCAPE\x1b[2J' outs/bell
same get-raw-bytes get samples/several-pages.dsk $'BELL\x07 AND ESCAPE\x1b[2J' outs/bell-raw
holds get-raw-bytes-equal cmp outs/bell outs/bell-raw
same get-backslash get samples/several-pages.dsk 'BACK\\SLASH' outs/backslash
same get-empty-name get samples/several-pages.dsk '' outs/empty-name
same get-text get samples/one-page.dsk 'SHIFT NOTES' outs/notes
holds get-text-nothing not test -e outs/notes
same get-text-empty get samples/one-page.dsk 'SHIFT NOTES' outs/notes --empty
holds get-text-empty-bytes cmp /dev/null outs/notes
same get-binary-empty-said get samples/one-page.dsk 'LINE 7 STATIONS' outs/stations-too --empty
holds get-binary-empty-said-bytes cmp wanted outs/stations-too
same get-not-on-roll get samples/one-page.dsk 'LINE 8' outs/none
same get-deleted get samples/one-page.dsk 'LINE 6 OLD' outs/none
same get-long-name get samples/one-page.dsk 'LINE 7 RING 1 AND MORE THAN THIRTY' outs/none
same get-ring get samples/ring.dsk 'LINE 7 RING 1' outs/none
holds get-nothing-left not test -e outs/none
rm -f outs/*

# get --all: every Binary file under its own name
same get-all get samples/one-page.dsk --all outs/all
holds get-all-tidy test "$(ls -A outs/all | tr '\n' '|')" = 'LINE 7 RING 1|LINE 7 RINGS 2 TO 2667|LINE 7 STATIONS|'
holds get-all-bytes cmp wanted "outs/all/LINE 7 STATIONS"
"$root/linefiles" get samples/one-page.dsk 'LINE 7 RINGS 2 TO 2667' outs/rings >/dev/null
holds get-all-long cmp outs/rings "outs/all/LINE 7 RINGS 2 TO 2667"
same get-all-there get samples/one-page.dsk --all outs/all
same get-all-force get --all samples/one-page.nib outs/all --force --empty
holds get-all-force-tidy test "$(ls -A outs/all | wc -l) $(stat -c %s "outs/all/SHIFT NOTES")" = '4 0'
same get-all-several get samples/several-pages.dsk --all outs/several
(cd outs/several && sha256sum -- *) >sums
if [ -n "${UPDATE:-}" ]; then cp sums "$expected/get-all-several-sums"; fi
holds get-all-several-sums diff "$expected/get-all-several-sums" sums
"$root/linefiles" get samples/several-pages.dsk 'LINE 1 RING 1' outs/last-of-name >/dev/null
holds get-all-last-of-name cmp outs/last-of-name 'outs/several/LINE 1 RING 1~2'
damaged odd-names.dsk one-page.dsk "$(at 17 15 $((11 + 3)))" af ae 7e $(printf 'a0 %.0s' {1..27}) # /.~
patch odd-names.dsk "$(at 17 15 $((11 + 35 + 3)))" ae ae $(printf 'a0 %.0s' {1..28}) # ..
patch odd-names.dsk "$(at 17 15 $((11 + 105 + 3)))" $(printf 'a0 %.0s' {1..30}) # no letters
same list-odd-names list odd-names.dsk
same get-all-odd-names get odd-names.dsk --all outs/odd
holds get-all-odd-names-tidy test "$(ls -A outs/odd | tr '\n' '|')" = '\x2e.|\x2f.\x7e|~1|'
holds get-all-odd-names-bytes cmp wanted 'outs/odd/~1'
same get-all-ring get samples/ring.dsk --all outs/ring
same get-all-overlong get samples/overlong.dsk --all outs/overlong
holds get-all-nothing-left not test -e outs/ring -o -e outs/overlong
same get-all-on-file get samples/one-page.dsk --all outs/rings
same get-all-no-folder get samples/one-page.dsk --all outs/none/all
same get-all-dash get samples/one-page.dsk --all -
same get-all-too-many get samples/one-page.dsk NAME --all outs/all
rm -rf outs/*

# save and delete: the disk is replaced whole, or the changed one goes elsewhere
seq 1 400 | head -c 1000 >ring
head -c 32769 /dev/zero | tr '\0' '\252' >longest
head -c 32768 longest >long
: >nothing
cp samples/one-page.dsk outs/disk.dsk
chmod 640 outs/disk.dsk
same save-line save outs/disk.dsk 'LINE 7 RING 8' 8192 ring
holds save-line-tidy tidy "disk.dsk "
holds save-line-mode test "$(stat -c %a:%u:%g outs/disk.dsk)" = "640:$(id -u):$(id -g)"
same save-line-list list outs/disk.dsk
same save-line-survey survey outs/disk.dsk
run crossed outs/disk.dsk
holds save-line-clean test "$status" = 0
run get outs/disk.dsk 'LINE 7 RING 8' got
holds save-line-bytes cmp ring got
rm got
cp outs/disk.dsk saved.dsk
same save-out save samples/one-page.dsk 'LINE 7 RING 8' '$2000' ring --out outs/other.dsk
holds save-out-bytes cmp saved.dsk outs/other.dsk
holds save-out-kept cmp samples/one-page.dsk "$root/crates/linefiles/data/one-page.dsk"
same save-out-there save samples/one-page.dsk 'LINE 7 RING 8' 0x2000 ring --out outs/other.dsk
same save-out-force save samples/one-page.dsk 'LINE 7 RING 8' 0x2001 ring --force --out outs/other.dsk
holds save-address test "$(cmp -l saved.dsk outs/other.dsk | wc -l)" = 1
run save samples/one-page.dsk 'LINE 7 RING 8' 0X2000 - --out - <ring
holds save-dashes cmp saved.dsk out
holds save-dashes-told diff err - <<'END'
samples/one-page.dsk: flat disk of 143360 bytes, 16 sectors a track
saved LINE 7 RING 8 at address 8192: 1000 bytes, 4 data sectors, 1 list
END
run save - 'LINE 7 RING 8' 8192 ring --out outs/third.dsk <samples/one-page.dsk
holds save-dash-disk cmp saved.dsk outs/third.dsk
same save-dash-disk-no-out save - 'LINE 7 RING 8' 8192 ring
same save-two-dashes save - 'LINE 7 RING 8' 8192 - --out outs/none
same save-nothing save outs/disk.dsk NOTHING 0 nothing
same save-escaped save outs/disk.dsk 'BELL\x07' 65535 nothing
same save-long save samples/moved-catalog.dsk LONG 16384 long --out outs/long.dsk
run get outs/long.dsk LONG got
holds save-long-bytes cmp long got
rm got
same save-long-list list outs/long.dsk
rm -f outs/other.dsk outs/third.dsk outs/long.dsk

# what is refused leaves the disk as it was
cp outs/disk.dsk before.dsk
same save-taken save outs/disk.dsk 'LINE 7 RING 8' 8192 ring
same save-too-long save outs/disk.dsk NEW 8192 longest
same save-no-name save outs/disk.dsk '' 8192 ring
same save-name-of-31 save outs/disk.dsk 'A NAME THAT HAS MORE THAN 30 BYTES' 8192 ring
same save-high-name save outs/disk.dsk 'HIGH\xc1' 8192 ring
same save-zero-name save outs/disk.dsk 'ZERO\x00' 8192 ring
same save-space-name save outs/disk.dsk 'SPACE ' 8192 ring
same delete-missing delete outs/disk.dsk 'LINE 9'
same delete-no-name delete outs/disk.dsk ''
same delete-space-name delete outs/disk.dsk 'LINE 7 RING 8 '
holds refused-kept cmp before.dsk outs/disk.dsk
same save-no-line save outs/disk.dsk 'NO LINE' 8192 nothing
holds save-no-line-kept cmp before.dsk outs/disk.dsk
cp samples/full.dsk outs/full.dsk
same save-full save outs/full.dsk 'LINE 0' 8192 ring
same delete-full delete outs/full.dsk 'LINE 1 RING 3'
same save-no-sector save outs/full.dsk 'LINE 0' 8192 long
same save-full-again save outs/full.dsk 'LINE 0' 8192 ring
for disk in crossed ring thirteen; do
    cp "samples/$disk.dsk" outs/disk-too.dsk
    same "save-$disk" save outs/disk-too.dsk '' 8192 ring
    same "delete-$disk" delete outs/disk-too.dsk 'LINE 7 RING 1'
    holds "save-$disk-kept" cmp "samples/$disk.dsk" outs/disk-too.dsk
done
cp samples/one-page.nib outs/one.nib
same save-nibbles save outs/one.nib 'LINE 7 RING 8' 8192 ring
same delete-nibbles delete outs/one.nib 'LINE 7 RING 1' --out outs/none
cp samples/one-page.dsk outs/one.po
same save-po save outs/one.po 'LINE 7 RING 8' 8192 ring
cp samples/one-page.dsk outs/one.PO
same delete-po delete outs/one.PO 'LINE 7 RING 1' --out outs/none
holds save-po-kept cmp samples/one-page.dsk outs/one.po
rm outs/one.po outs/one.PO
holds save-nibbles-kept cmp samples/one-page.nib outs/one.nib
holds save-nothing-left not test -e outs/none

# delete
cp saved.dsk outs/disk.dsk
same delete-line delete outs/disk.dsk 'LINE 7 RING 1'
same delete-line-list list outs/disk.dsk
same delete-again delete outs/disk.dsk 'LINE 7 RING 1'
same save-deleted-line save outs/disk.dsk 'LINE 7 RING 1' 8192 ring
same save-deleted-line-list list outs/disk.dsk
same delete-text delete outs/disk.dsk 'SHIFT NOTES' --out outs/other.dsk
same delete-last-of-name delete --out outs/several.dsk samples/alike.dsk A
run get samples/alike.dsk --all outs/all
run get outs/several.dsk --all outs/less
holds delete-last-of-name-left test "$(ls outs/all | grep -c '^A~') $(ls outs/less | grep -c '^A$')" = '2 1'
holds delete-last-of-name-bytes cmp outs/all/A~1 outs/less/A
rm -rf outs/all outs/less

# the file that is replaced: a link stays, a pipe is none, and a failure half way leaves the old one
ln -s disk.dsk outs/link.dsk
ln -s link.dsk outs/second.dsk
cp saved.dsk outs/disk.dsk
run delete outs/second.dsk 'LINE 7 RING 8'
holds replace-link test "$status $(readlink outs/second.dsk) $(readlink outs/link.dsk)" = '0 link.dsk disk.dsk'
run get outs/disk.dsk 'LINE 7 RING 8' got
holds replace-link-done test "$status" = 1
"$root/linefiles" delete <(cat saved.dsk) 'LINE 7 RING 8' >out 2>err
holds replace-pipe grep -q 'is a pipe, a device or a socket, and no file;$' err
cp saved.dsk outs/disk.dsk
(
    ulimit -f 8
    "$root/linefiles" delete outs/disk.dsk 'LINE 7 RING 8'
    echo "status $?"
) >half.out 2>half.err
holds replace-half test "$(cat half.err) $(tail -n 1 half.out)" = 'linefiles: cannot write outs/disk.dsk: File too large status 2'
holds replace-half-kept cmp saved.dsk outs/disk.dsk
holds replace-tidy tidy "disk-too.dsk disk.dsk full.dsk link.dsk one.nib other.dsk second.dsk several.dsk "
chmod a-w outs/disk.dsk
if [ "$(id -u)" -ne 0 ]; then same replace-read-only delete outs/disk.dsk 'LINE 7 RING 8'; fi
same save-no-disk save outs/nosuch.dsk NAME 8192 ring
same save-no-file save saved.dsk NAME 8192 nosuch
same save-folder save saved.dsk NAME 8192 outs
for address in 65536 -1 '' 12x '$' 0x '$10000' 99999999999999999999; do
    run save --out outs/none -- saved.dsk NAME "$address" ring
    holds "save-address-$address" test "$status $(tail -n 1 err)" = "2 linefiles: ${address:-''} is no address; one is 0 to 65535, or \$0 to \$FFFF"
done
same save-few-words save saved.dsk NAME 8192
same save-many-words save saved.dsk NAME 8192 ring outs/none
same delete-few-words delete saved.dsk
same delete-no-out delete saved.dsk NAME --out
same delete-force delete saved.dsk NAME --force
same delete-13 delete saved.dsk NAME --13
same list-out list saved.dsk --out outs/none
rm -rf outs/*

# forecast: what saves of these lengths will need, told without writing
sha256sum samples/* ring long longest nothing >sums-before
same forecast-none forecast samples/one-page.dsk
holds forecast-none-plain plain out
same forecast-one forecast samples/one-page.dsk 1200
same forecast-several forecast samples/same-files.dsk 1200 40000 1 300
holds forecast-several-plain plain out
same forecast-one-sector forecast samples/same-files.dsk 0 252 253
same forecast-one-list forecast samples/same-files.dsk 31228 31229
same forecast-longest forecast samples/same-files.dsk 32768 32769 18446744073709551615
same forecast-2-64 forecast samples/one-page.dsk 18446744073709551616
run forecast samples/one-page.dsk 00000000000000000000000252
holds forecast-zeros-before test "$status $(sed -n 3p out)" = '0    1:   252 bytes: 1 data sector, 1 list'
for length in '' abc 12x x12 1.5 1,200 ' 1' '1 ' +1 -1 0x10 '$10' 184467440737095516150 99999999999999999999 $'\x1b1'; do
    run forecast -- samples/one-page.dsk 300 "$length" y
    shown=${length:-\'\'}
    holds "forecast-length-$(printf %q "$length")" test "$status $(sed 1d out) $(head -n 1 err)" = "2  linefiles: ${shown/$'\x1b'/\\x1b} is no length;"
done
# a full disk; one that fills half way, where a smaller one still goes on; no line left, with sectors and without; what comes first is told
same forecast-full forecast samples/full.dsk 0 40000
same forecast-half-way forecast samples/last-pair.dsk 31229 20000 20000 300 10000 0
holds forecast-half-way-plain plain out
same forecast-no-line forecast samples/one-page.dsk 300 300 300 300 40000
same forecast-never-a-line forecast samples/alike.dsk 0
# a disk with nothing on it: 105 lines, and all but tracks 0 and 17 free
cp samples/full.dsk blank.dsk
chmod u+w blank.dsk
for sector in {1..15}; do dd if=/dev/zero of=blank.dsk bs=1 seek="$(at 17 "$sector" 11)" count=245 conv=notrunc status=none; done
patch blank.dsk "$(at 17 0 60)" $(for ((k = 1; k < 35; k++)); do [ $k = 17 ] && echo 00 00 00 00 || echo ff ff 00 00; done)
cp blank.dsk blank-before.dsk
same forecast-blank forecast blank.dsk
# 123 sectors, and two sectors 0: room for one list and 122 data sectors, and none for a second list
cp blank.dsk zeros.dsk
patch zeros.dsk "$(at 17 0 48)" 11 01
patch zeros.dsk "$(at 17 0 60)" $(for ((k = 1; k < 35; k++)); do case $k in 18 | 19 | 20 | 21 | 22 | 23 | 24) echo ff ff 00 00 ;; 25) echo ff e0 00 00 ;; 27 | 28) echo 00 01 00 00 ;; *) echo 00 00 00 00 ;; esac; done)
same forecast-zeros forecast zeros.dsk 31229 31228
head -c 31229 long >piece
same save-zeros save zeros.dsk NEW 8192 piece
same forecast-64 forecast blank.dsk {1..64}
holds forecast-64-plain plain out
same forecast-65 forecast blank.dsk {1..65}
same forecast-65-first forecast samples/ring.dsk {1..65}
run forecast samples/thirteen.dsk {1..500}
holds forecast-500 test "$status $(head -n 1 err)" = '1 refused: 25 plan long'
same forecast-far-option forecast blank.dsk {1..40} --json
run forecast blank.dsk {1..60} "$(printf '%05000d' 7)"
holds forecast-far-long test "$status $(cat err)" = '2 linefiles: an argument is longer than 4096 bytes'

# as_saved DISK LENGTH..: saves of these lengths, one after the other, do what the forecast says: which go on, what they take in all, and what is left
as_saved() {
    local disk=$1 number=0 length
    shift
    cp "$disk" plan.dsk
    chmod u+w plan.dsk
    run forecast plan.dsk "$@"
    cp out foretold
    awk '/^ +[0-9]+: / { print /no space \(21\)/ ? 1 : 0 }' foretold >marks
    for length in "$@"; do
        number=$((number + 1))
        head -c "$length" longest >piece
        run save plan.dsk "PLAN $number" 8192 piece
        [ "$status" = 0 ] || grep -qx 'refused: 21 no space' err || return 1
        echo "$status"
    done >saved-marks
    sed -nE 's/^in all: ([0-9]+) data sectors?, ([0-9]+) lists?, ([0-9]+) entry lines?;.*/\1 \2 \3/p' foretold | awk '{ print $1 + $2, $3 }' >foretold-sums
    for length in "$disk" plan.dsk; do
        run survey "$length"
        sed -nE 's/^  (free sectors|entries) +//p' out | xargs
    done | awk 'NR == 1 { entries = $1; free = $2 } NR == 2 { print free - $2, $1 - entries }' >saved-sums
    run forecast plan.dsk
    diff marks saved-marks && diff foretold-sums saved-sums && diff <(tail -n 1 foretold) <(tail -n 1 out) &&
        sed -nE 's/.*: ([0-9]+) data sectors? and ([0-9]+) lists? needed, ([0-9]+) left$/\1 \2 \3/p' foretold | awk '$1 + $2 <= $3 { bad = 1 } END { exit bad }'
}
holds forecast-as-saved-half-way as_saved samples/last-pair.dsk 31229 20000 20000 300 10000 0
holds forecast-as-saved-other-half as_saved samples/last-pair.dsk 31228 0 32769 1
holds forecast-as-saved-no-line as_saved samples/one-page.dsk 300 32768 40000 31229 1
holds forecast-as-saved-moved as_saved samples/moved-catalog.dsk 32768 32768 15000 15000 252 253
holds forecast-as-saved-full as_saved samples/full.dsk 0 1
holds forecast-as-saved-blank as_saved blank.dsk 32768 31229 31228 30000 30000 5000 1200 300 252 0 8000 1
holds forecast-as-saved-many as_saved blank.dsk $(seq 100 700 14000) 0 1 2 3

# forecast --files: the lengths of files
cp ring $'bell\x07\x1b[2J\\'
cp ring ./--odd
same forecast-files forecast samples/last-pair.dsk --files ring long nothing longest $'bell\x07\x1b[2J\\'
holds forecast-files-plain plain out
run forecast samples/last-pair.dsk 1000 32768 0 32769 1000
tail -n 2 out >told
run forecast --files samples/last-pair.dsk ring long nothing longest ring
holds forecast-files-sums diff told <(tail -n 2 out)
holds forecast-files-marks test "$status $(grep -c 'no space (21)' out)" = '1 2'
run forecast samples/one-page.dsk --files -- --odd
holds forecast-files-end test "$status $(sed -n 3p out)" = '0    1: --odd: 1000 bytes: 4 data sectors, 1 list'
run forecast samples/one-page.dsk --files /dev/zero
holds forecast-files-endless test "$status $(sed -n 3p out)" = '1    1: /dev/zero: more than 32768 bytes: no space (21)'
run forecast samples/one-page.dsk --files <(head -c 252 long)
holds forecast-files-pipe test "$status $(sed -n '3s/.*: 252/252/p' out)" = '0 252 bytes: 1 data sector, 1 list'
same forecast-no-file forecast samples/one-page.dsk --files ring nosuch nothing
same forecast-folder forecast samples/one-page.dsk --files ring outs
same forecast-no-path forecast samples/one-page.dsk --files ''
same forecast-65-files forecast samples/one-page.dsk $(printf 'ring %.0s' {1..65}) --files
"$root/linefiles" forecast samples/one-page.dsk --files nothing - <ring >out 2>err
holds forecast-dash-file test "$? $(sed -n 4p out)" = '0    2: standard input: 1000 bytes: 4 data sectors, 1 list'
"$root/linefiles" forecast - --files nothing ring <samples/one-page.dsk >out 2>err
holds forecast-dash-disk test "$? $(sed -n 1p out)" = '0 standard input: flat disk of 143360 bytes, 16 sectors a track'
same forecast-dash-both forecast - --files nothing -
same forecast-dash-twice forecast samples/one-page.dsk --files - nothing -
same forecast-dash-length forecast samples/one-page.dsk -

# refused as a save is
for disk in samples/{crossed,several-pages,ring,ring-of-pages,cut-link,overlong,thirteen}.dsk {no-table,first-page-off,page-off,bad-letter,list-off,link-off,pair-off}.dsk; do
    run save "$disk" NEW 0 nothing --out outs/none
    echo "status $status" | cat out err - >saved
    run forecast "$disk" 0
    holds "forecast-refused-${disk##*/}" diff saved <(echo "status 1" | cat out err -)
    run forecast "$disk" --files nothing nosuch
    holds "forecast-refused-file-${disk##*/}" test "$status" = 2
done
for disk in crossed ring thirteen; do same "forecast-$disk" forecast "samples/$disk.dsk" 300; done
same forecast-no-table forecast no-table.dsk

# read as other commands read: a stream is taken too, by its first mark or as is said, and a name says nothing
same forecast-nibbles forecast samples/one-page.nib 300
same forecast-thirteen-nibbles forecast samples/thirteen.nib 300
cat samples/thirteen.nib samples/one-page.nib >both-13.nib
run forecast samples/one-page.dsk 300
body out >told
run forecast both-13.nib 300 --16
holds forecast-both-16 diff told <(body out)
cp samples/one-page.dsk outs/one.po
run forecast outs/one.po 300
holds forecast-po diff told <(body out)
same forecast-missing forecast nosuch.dsk 300
for option in --force --raw --json --svg --all --empty; do same "option-forecast$option" forecast samples/one-page.dsk 300 $option; done
same forecast-out forecast samples/one-page.dsk 300 --out outs/none
for command in list survey crossed; do same "option-$command--files" "$command" samples/one-page.dsk --files; done
same option-save--files save saved.dsk NAME 8192 ring --files --out outs/none
same forecast-files-none forecast samples/one-page.dsk --files
sha256sum samples/* ring long longest nothing >sums-after
holds forecast-kept diff sums-before sums-after
holds forecast-kept-blank cmp blank-before.dsk blank.dsk
holds forecast-kept-names diff <(cat ring ring) <(cat ./--odd $'bell\x07\x1b[2J\\')
holds forecast-nothing-written tidy "one.po "
rm -rf outs/*

# two sides: names that begin with S are the survey office's, all others ours, and each has a limit; the disk is the one that a plain save or delete makes
cp samples/one-page.dsk outs/disk.dsk
cp samples/one-page.dsk plain.dsk
chmod 640 outs/disk.dsk
chmod u+w plain.dsk
same side-ours-save save outs/disk.dsk 'LINE 7 RING 8' 8192 ring --side ours --limit 139
run save plain.dsk 'LINE 7 RING 8' 8192 ring
holds side-ours-save-bytes cmp plain.dsk outs/disk.dsk
same side-survey-save save --side survey --limit 40 outs/disk.dsk 'S RING' 8192 ring
holds side-survey-save-mode test "$(stat -c %a:%u:%g outs/disk.dsk)" = "640:$(id -u):$(id -g)"
run save plain.dsk 'S RING' 8192 ring
holds side-survey-save-bytes cmp plain.dsk outs/disk.dsk
same side-survey-s save outs/disk.dsk S 8192 nothing --limit 00009 --side survey
cp outs/disk.dsk sided.dsk
same side-survey-shown survey outs/disk.dsk
same side-survey-json survey outs/disk.dsk --json
same side-ours-delete delete outs/disk.dsk 'LINE 7 RING 8' --side ours
same side-survey-delete delete outs/disk.dsk 'SHIFT NOTES' --limit 3 --side survey
same side-survey-delete-again delete outs/disk.dsk S --side survey --limit 18446744073709551615
same side-survey-delete-last delete outs/disk.dsk 'S RING' --side survey --limit 0
holds side-tidy tidy "disk.dsk "
run delete sided.dsk 'LINE 7 RING 8' --out plain.dsk --force
for name in 'SHIFT NOTES' S 'S RING'; do run delete plain.dsk "$name"; done
holds side-delete-bytes cmp plain.dsk outs/disk.dsk

# whose a name is: the first letter alone, as it is written
for name in LS s 'sHIFT' ' S' 'LINE S' '\x13S' '~S'; do
    run save samples/one-page.dsk "$name" 0 nothing --side ours --limit 136 --out - --force
    holds "side-ours-$name" test "$status $(tail -n 1 err)" = '0 our side: 136 of 136 sectors'
    run save samples/one-page.dsk "$name" 0 nothing --side survey --limit 136 --out outs/none
    holds "side-not-survey-$name" test "$status $(sed -n 1p err) $(sed -n '2s/.* is/is/p' err)" = "1 refused: 23 other side's name is ours;"
done
for name in S SS '\x53' 'S~' 'STATION 1' 'SHIFT'; do
    run save samples/one-page.dsk "$name" 0 nothing --side survey --limit 4 --out - --force
    holds "side-survey-$name" test "$status $(tail -n 1 err)" = '0 survey office: 4 of 4 sectors'
    run save samples/one-page.dsk "$name" 0 nothing --side ours --limit 1000 --out outs/none
    holds "side-not-ours-$name" test "$status $(sed -n 1p err) $(sed -n '2s/.* is/is/p' err)" = "1 refused: 23 other side's name is the survey office's;"
done

# what is refused, and in which order: 20, 14, 23, 22, 24, 21 for a save, 20, 14, 23, 18 for a delete; the disk stays
cp samples/one-page.dsk outs/disk.dsk
same side-one-too-few save outs/disk.dsk 'LINE 7 RING 8' 8192 ring --side ours --limit 138
same side-survey-one-too-few save outs/disk.dsk 'S RING' 8192 ring --side survey --limit 6
same side-limit-0 save outs/disk.dsk 'S RING' 8192 nothing --side survey --limit 0
same side-over-already save outs/disk.dsk 'LINE 7 RING 8' 8192 nothing --side ours --limit 3
same side-two-lists save outs/disk.dsk 'S LONG' 8192 long --side survey --limit 132
same side-too-long save outs/disk.dsk 'S LONG' 8192 longest --side survey --limit 132
same side-too-long-within save outs/disk.dsk 'S LONG' 8192 longest --side survey --limit 133
same side-ours-other save outs/disk.dsk 'STATIONS' 8192 ring --side ours --limit 1000
same side-survey-other save outs/disk.dsk 'LINE 7 RING 8' 8192 ring --side survey --limit 1000
same side-other-taken save outs/disk.dsk 'SHIFT NOTES' 8192 ring --side ours --limit 0
same side-taken save outs/disk.dsk 'SHIFT NOTES' 8192 ring --side survey --limit 0
same side-bad-name save outs/disk.dsk 'S ' 8192 ring --side ours --limit 0
same side-no-name save outs/disk.dsk '' 8192 ring --side survey --limit 0
same side-ours-delete-other delete outs/disk.dsk 'SHIFT NOTES' --side ours
same side-survey-delete-other delete outs/disk.dsk 'LINE 7 RING 1' --side survey --limit 1000
same side-delete-other-missing delete outs/disk.dsk 'SHIFT' --side ours
same side-delete-missing delete outs/disk.dsk 'SHIFT' --side survey
same side-delete-bad-name delete outs/disk.dsk 'S ' --side ours
holds side-refused-kept cmp samples/one-page.dsk outs/disk.dsk
same side-full-over save samples/full.dsk 'LINE 0' 8192 ring --side ours --limit 500 --out outs/none
same side-full-equal save samples/full.dsk 'LINE 0' 8192 ring --side ours --limit 501 --out outs/none
same side-full-within save samples/full.dsk 'LINE 0' 8192 ring --side ours --limit 18446744073709551615 --out outs/none
same side-full-survey save samples/full.dsk 'S' 8192 nothing --side survey --limit 1 --out outs/none
for disk in crossed ring thirteen no-table; do
    damaged disk-too.dsk "${disk/no-table/one-page}.dsk" 0 00
    [ $disk != no-table ] || patch disk-too.dsk "$(at 17 0 52)" 24
    run save disk-too.dsk S 0 nothing --out outs/none
    cat out err >told
    run save disk-too.dsk S 0 nothing --side ours --limit 0 --out outs/none
    holds "side-save-$disk" diff told <(cat out err)
    run delete disk-too.dsk S --side ours --out outs/none
    holds "side-delete-$disk" diff told <(cat out err)
done
# a disk with nothing on it
cp blank.dsk outs/blank.dsk
same side-blank-0 save outs/blank.dsk S 0 nothing --side survey --limit 0
same side-blank-1 save outs/blank.dsk L 0 nothing --side ours --limit 1
same side-blank-2 save outs/blank.dsk S 0 nothing --side survey --limit 2
same side-blank-3 save outs/blank.dsk S1 0 nothing --side survey --limit 3
same side-blank-4 save outs/blank.dsk S1 0 nothing --side survey --limit 4
same side-blank-delete delete outs/blank.dsk S --side survey --limit 1
holds side-nothing-left not test -e outs/none

# --out, standard input and standard output
same side-out save samples/one-page.dsk 'S RING' 8192 ring --side survey --limit 7 --out outs/other.dsk
run save samples/one-page.dsk 'S RING' 8192 ring --out plain.dsk --force
holds side-out-bytes cmp plain.dsk outs/other.dsk
run save - 'S RING' 8192 ring --side survey --limit 7 --out - <samples/one-page.dsk
holds side-dashes cmp plain.dsk out
holds side-dashes-told diff err - <<'END'
standard input: flat disk of 143360 bytes, 16 sectors a track
saved S RING at address 8192: 1000 bytes, 4 data sectors, 1 list
survey office: 7 of 7 sectors
END
run save samples/one-page.dsk 'S RING' 8192 - --side survey --limit 7 --out - <ring
holds side-dash-file cmp plain.dsk out
run delete - 'S RING' --side survey --out - <plain.dsk
holds side-dash-delete test "$status $(tail -n 1 err)" = '0 survey office: 2 sectors'
run delete - 'LINE 7 RING 1' --side survey --out - <plain.dsk
holds side-dash-refused test "$status $(wc -c <out) $(sed -n 2p err)" = "1 0 refused: 23 other side's name"
same side-dash-no-out delete - 'LINE 7 RING 1' --side ours
cp samples/one-page.nib outs/one.nib
same side-nibbles delete outs/one.nib 'LINE 7 RING 1' --side ours --out outs/none

# what stands behind --side and --limit; of two the first counts
for side in '' Ours OURS SURVEY our surveys s 'survey office' ' ours' --force --help -- $'\x1b'; do
    run delete saved.dsk 'LINE 7 RING 1' --out outs/none --side "$side"
    shown=${side:-\'\'}
    holds "side-word-$(printf %q "$side")" test "$status $(cat out)$(cat err)" = "2 linefiles: ${shown/$'\x1b'/\\x1b} is no side; one is ours or survey"
done
for limit in '' abc 12x x12 -1 +1 ' 1' '1 ' 1.5 1,200 0x10 '$10' --force 18446744073709551616 184467440737095516150 99999999999999999999; do
    shown=${limit:-\'\'}
    for command in "save saved.dsk NAME 0 nothing" "delete saved.dsk NAME"; do
        run $command --out outs/none --side ours --limit "$limit"
        holds "side-limit-${command%% *}-$(printf %q "$limit")" test "$status $(cat out)$(cat err)" = "2 linefiles: $shown is no limit; one is 0 to 18446744073709551615"
    done
done
same side-no-word delete saved.dsk NAME --side
same side-no-number save saved.dsk NAME 0 nothing --side ours --limit
same side-no-value save saved.dsk NAME 0 nothing --side --limit 5
same side-no-out delete saved.dsk NAME --out --side ours
same side-limit-alone save saved.dsk NAME 0 nothing --limit 5
same side-delete-limit-alone delete saved.dsk NAME --limit 5
same side-no-limit save saved.dsk NAME 0 nothing --side survey --out outs/none
same side-both-wrong save saved.dsk NAME 0 nothing --side we --limit many
run save saved.dsk NAME 0 nothing --side ours --side survey --limit 200 --limit x --out -
holds side-twice test "$status $(tail -n 1 err)" = '0 our side: 141 of 200 sectors'
run delete saved.dsk -- --side
holds side-behind-end test "$status $(sed -n 2p err)" = '1   no file is named --side'
run delete --side ours --out outs/none -- saved.dsk --limit
holds side-limit-behind-end test "$status $(sed -n 2p err)" = '1   no file is named --limit'
for command in list survey map crossed forecast; do same "option-$command--side" "$command" samples/one-page.dsk --side ours; done
same option-list--limit list samples/one-page.dsk --limit 40
for line in 'get samples/one-page.dsk NAME outs/none' 'archive samples/one-page.dsk outs/none' 'check samples/one-page.dsk ring' 'show ring' \
    'nibblize samples/one-page.dsk outs/none' 'denibblize samples/one-page.nib outs/none'; do
    run $line --side ours
    holds "option-${line%% *}--side" test "$status $(cat out err)" = '2 linefiles: this command does not take --side, which save and delete do'
    run $line --limit 40
    holds "option-${line%% *}--limit" test "$status $(cat out err)" = '2 linefiles: this command does not take --limit, which save and delete do'
done
holds side-usage-nothing-left not test -e outs/none

# by_turns: saves and deletes of both sides by turns. No side is over its limit, and the files of the other stay as they are.
by_turns() {
    local turn side name limit other shown
    cp blank.dsk turns.dsk
    for turn in {1..24}; do
        side=ours name="LINE $((turn * 7 % 5))" limit=60 other='^S' shown='our sectors'
        [ $((turn % 3)) != 0 ] || side=survey name="S $((turn % 4))" limit=40 other='^L' shown='survey office'
        rm -rf turns-before turns-after
        mkdir turns-before turns-after
        run get turns.dsk --all turns-before
        head -c $((turn * 3571 % 9000)) longest >piece
        run save turns.dsk "$name" 8192 piece --side $side --limit $limit
        [ "$status" = 0 ] || head -n 1 err >>turned
        [ "$status" = 0 ] || run delete turns.dsk "$name" --side $side
        run get turns.dsk --all turns-after
        diff <(cd turns-before && sum_of "$other") <(cd turns-after && sum_of "$other") || return 1
        run survey turns.dsk
        [ "$(sed -nE "s/^  $shown +//p" out)" -le $limit ] || return 1
    done
    run crossed turns.dsk
    [ "$status" = 0 ] && grep -qx 'refused: 24 over limit' turned && grep -qx 'refused: 22 name taken' turned
}
sum_of() { ls | grep "$1" | while IFS= read -r name; do sha256sum "$name"; done; }
holds side-by-turns by_turns

# as_listed DISK: survey counts for each side the lists and pairs that list shows of its files
as_listed() {
    run list "$1"
    awk '/^Files/ { on = 1 } on && /^  [* ]    [A-Z]/ { side = substr($0, 31, 1) == "S" } on && /^ +list [0-9]+\/[0-9]+ +[0-9]+ pair/ { n[side] += $3 + 1 }
        END { print n[0] + 0, n[1] + 0 }' out >by-list
    run survey "$1"
    sed -nE 's/^  (our sectors|survey office) +//p' out | xargs >by-survey
    run survey "$1" --json
    sed -nE 's/^  "(our|survey_office)_sectors": ([0-9]+),$/\2/p' out | xargs >by-json
    diff by-list by-survey && diff by-list by-json
}
for disk in samples/{one-page,several-pages,full,overlong,last-pair,thirteen,same-files,moved-catalog,alike,crossed}.dsk samples/{one-page,thirteen}.nib sided.dsk turns.dsk blank.dsk; do
    holds "side-as-listed-${disk##*/}" as_listed "$disk"
done
rm -rf outs/* turns-before turns-after

# archive, check, show
same archive-one-page archive samples/one-page.dsk outs/flat.arc
same archive-one-page-nibbles archive samples/one-page.nib outs/nibbles.arc
holds archive-equal cmp outs/flat.arc outs/nibbles.arc
holds archive-one-page-bytes sum_is outs/flat.arc dc4c7b00de46357a230ca5eb54154fbe5ffe98d89bd778daf261a36b7a93dda6
same archive-several-pages archive samples/several-pages.dsk outs/several.arc
holds archive-several-pages-bytes sum_is outs/several.arc 72f27746e1017ec7cdb6443425897737676b9108a9ce9fba43b002b6c54a842b
same archive-full archive samples/full.dsk outs/full.arc
holds archive-full-bytes sum_is outs/full.arc 129a548ef79370f6257280005871da71d6d60b7660035a21812dd990635c5034
same archive-ring archive samples/ring.dsk outs/none
same archive-overlong archive samples/overlong.dsk outs/none
holds archive-nothing-left not test -e outs/none
same check-flat check samples/one-page.dsk outs/flat.arc
same check-nibbles check samples/one-page.nib outs/flat.arc
same check-several-pages check samples/several-pages.dsk outs/several.arc
same check-other-disk check samples/full.dsk outs/flat.arc
cp outs/flat.arc changed.arc
patch changed.arc 1030 ff
same check-changed check samples/one-page.dsk changed.arc
head -c 34303 outs/flat.arc >cut.arc
same check-cut check samples/one-page.dsk cut.arc
same check-ring check samples/ring.dsk outs/flat.arc
same check-overlong check samples/overlong.dsk outs/flat.arc
same check-no-archive check samples/one-page.dsk nosuch.arc
same show-one-page show outs/flat.arc
holds show-one-page-plain plain out
same show-several-pages show outs/several.arc
holds show-several-pages-plain plain out
same show-changed show changed.arc
same show-cut show cut.arc
same show-disk show samples/one-page.dsk
: >empty
same show-empty show empty
same show-missing show nosuch.arc

# nibblize, denibblize
same nibblize nibblize samples/one-page.dsk outs/one.nib
holds nibblize-bytes cmp outs/one.nib samples/one-page.nib
same nibblize-nibbles nibblize samples/one-page.nib outs/two.nib
holds nibblize-nibbles-bytes cmp outs/two.nib samples/one-page.nib
same denibblize denibblize outs/one.nib outs/one.dsk
holds denibblize-bytes cmp outs/one.dsk samples/one-page.dsk
same nibblize-ring nibblize samples/ring.dsk outs/ring.nib
same list-ring-nibbles list outs/ring.nib
same denibblize-flat denibblize samples/one-page.dsk outs/none
damaged address.nib one-page.nib "$(nib 3 5 52)" ff
same denibblize-address-sum denibblize address.nib outs/none
same list-address-sum list address.nib
damaged data.nib one-page.nib "$(nib 4 6 80)" 96 97 9a
same denibblize-data-sum denibblize data.nib outs/none
damaged absent.nib one-page.nib "$(nib 7 1 48)" ff
same denibblize-absent denibblize absent.nib outs/none
damaged stranger.nib one-page.nib "$(nib 2 0 51)" fe ff
patch stranger.nib "$(nib 2 0 57)" ff ff
same denibblize-stranger denibblize stranger.nib outs/none
holds denibblize-nothing-left not test -e outs/none

# the order on a track: the DOS sector that is missed where the address of sector 0, 1 and so on is gone, as the interleave figure of the book has them
sector=0
for dos in 0 7 14 6 13 5 12 4 11 3 10 2 9 1 8 15; do
    damaged gone.nib one-page.nib "$(nib 9 $sector 48)" ff
    run denibblize gone.nib outs/none
    holds "order-$sector" grep -qx "  1 sector is not there, the first is track 9, DOS sector $dos" err
    sector=$((sector + 1))
done

# the last pair of a list: a file of 121 pairs, one of 122 and no next list, one of 122 and a next list
rm -f outs/*
same list-last-pair list samples/last-pair.dsk
holds list-last-pair-plain plain out
body out >listed-last
same survey-last-pair survey samples/last-pair.dsk
same map-last-pair map samples/last-pair.dsk
holds map-last-pair-560 test "$(counted out)" = 560
pairs samples/last-pair.dsk 18 15 121 | joined samples/last-pair.dsk >sectors-121
pairs samples/last-pair.dsk 25 5 122 | joined samples/last-pair.dsk >sectors-122
{
    pairs samples/last-pair.dsk 33 10 122
    pairs samples/last-pair.dsk 10 15 3
} | joined samples/last-pair.dsk >sectors-125
same get-last-pair-121 get samples/last-pair.dsk 'DRIVE OF 121 SECTORS' outs/121
holds get-last-pair-121-bytes cmp <(tail -c +5 sectors-121) outs/121
same get-last-pair-122 get samples/last-pair.dsk 'DRIVE OF 122 SECTORS' outs/122
holds get-last-pair-122-bytes cmp <(tail -c +5 sectors-122) outs/122
dd if=samples/last-pair.dsk of=wanted bs=1 skip="$(at 33 11 0)" count=256 status=none
holds get-last-pair-122-last cmp wanted <(tail -c 256 outs/122)
same get-last-pair-125 get samples/last-pair.dsk 'DRIVE OF 125 SECTORS' outs/125
holds get-last-pair-125-bytes cmp <(tail -c +5 sectors-125) outs/125
dd if=samples/last-pair.dsk of=wanted bs=1 skip="$(at 11 0 0)" count=256 status=none
holds get-last-pair-125-last cmp wanted <(tail -c +$((121 * 256 - 3)) outs/125 | head -c 256)
# these sums are of the lines that make.py puts on the disk
holds get-last-pair-121-sum sum_is outs/121 a272a44816a66b43c5fe1d6fc5fa6088e27e2c6262bea66bfe9eef7db0ad6ba0
holds get-last-pair-122-sum sum_is outs/122 c7e9f57c0bce8170a515cd7eb3b08495513ba27fd073a2a872fc1e0369eba9d0
holds get-last-pair-125-sum sum_is outs/125 6677db4cb199754e08c55065f2037050a9b8d466d97524fdf9f17ffb214f697e
same archive-last-pair archive samples/last-pair.dsk outs/last.arc
holds archive-last-pair-bytes sum_is outs/last.arc 46ba05c448e39b77c8f0468920d92c4aeea69ebc39d3808b7dff2b5c72b3365b
same check-last-pair check samples/last-pair.dsk outs/last.arc
same show-last-pair show outs/last.arc
same nibblize-last-pair nibblize samples/last-pair.dsk outs/last.nib
same list-last-pair-nibbles list outs/last.nib
holds list-last-pair-nibbles-equal diff listed-last <(body out)
same get-last-pair-nibbles get outs/last.nib 'DRIVE OF 125 SECTORS' outs/125-nibbles
holds get-last-pair-nibbles-bytes cmp outs/125 outs/125-nibbles
same check-last-pair-nibbles check outs/last.nib outs/last.arc

# pair 122 off the disk, by its track and by its sector
damaged pair-off.dsk last-pair.dsk "$(at 25 5 254)" 23
same list-pair-122-track list pair-off.dsk
same check-pair-122-track check pair-off.dsk outs/last.arc
damaged pair-off.dsk last-pair.dsk "$(at 33 10 255)" 10
same list-pair-122-sector list pair-off.dsk
same survey-pair-122-sector survey pair-off.dsk
same map-pair-122-sector map pair-off.dsk
same get-pair-122-sector get pair-off.dsk 'DRIVE OF 121 SECTORS' outs/none
same archive-pair-122-sector archive pair-off.dsk outs/none
holds pair-122-nothing-left not test -e outs/none

# a byte of its sector changed; another sector in its place
damaged changed.dsk last-pair.dsk "$(at 33 11 255)" ff
same check-pair-122-data check changed.dsk outs/last.arc
damaged changed.dsk last-pair.dsk "$(at 11 0 0)" ff
same check-pair-122-data-next check changed.dsk outs/last.arc
damaged changed.dsk last-pair.dsk "$(at 33 10 254)" 12 0e
same check-pair-122-other check changed.dsk outs/last.arc

# with track 0 it is no pair, whatever its sector: 121 are left, the length does not fit, and the sector is in no chain; a next list is followed
damaged no-pair.dsk last-pair.dsk "$(at 25 5 254)" 00
patch no-pair.dsk "$(at 33 10 254)" 00 07
same list-pair-122-none list no-pair.dsk
same map-pair-122-none map no-pair.dsk
same get-pair-122-none get no-pair.dsk 'DRIVE OF 122 SECTORS' outs/122-none
holds get-pair-122-none-bytes cmp <(head -c $((121 * 256)) sectors-122) outs/122-none
same get-pair-122-none-next get no-pair.dsk 'DRIVE OF 125 SECTORS' outs/125-none
holds get-pair-122-none-next-bytes cmp <(head -c $((121 * 256)) sectors-125; tail -c $((3 * 256)) sectors-125) outs/125-none
# behind a pair of track 0 it is not looked at
patch no-pair.dsk "$(at 25 5 252)" 00 0c 23 10
same list-pair-121-none list no-pair.dsk
# bytes 254 and 255 of the list of 121 pairs
damaged pair.dsk last-pair.dsk "$(at 18 15 254)" 22 0f
same list-pair-122-added list pair.dsk

# byte 39 of the VTOC, the pairs of a list, is not used
damaged byte-39.dsk last-pair.dsk "$(at 17 0 39)" 79
run list byte-39.dsk
holds byte-39-121 diff listed-last <(body out)
patch byte-39.dsk "$(at 17 0 39)" 00
run check byte-39.dsk outs/last.arc
holds byte-39-check test "$status" = 0

# 13 sectors a track, flat and as a stream: list, survey, map
rm -f outs/*
same list-thirteen list samples/thirteen.dsk
holds list-thirteen-plain plain out
body out >listed
same list-thirteen-nibbles list samples/thirteen.nib
holds list-thirteen-nibbles-equal diff listed <(body out)
same list-same-files list samples/same-files.dsk
body out >listed-same
files_of() { sed -n '/^Files/,$p' "$1" | grep -v '^   *list '; }
holds list-same-files-equal diff <(files_of listed | sed '$d') <(files_of listed-same | sed '$d')
same survey-thirteen survey samples/thirteen.dsk
cp out surveyed
same survey-thirteen-nibbles survey samples/thirteen.nib
same map-thirteen map samples/thirteen.dsk
holds map-thirteen-plain plain out
cp out mapped
holds map-thirteen-455 test "$(counted mapped)" = 455
same map-thirteen-nibbles map samples/thirteen.nib
run map samples/same-files.dsk
holds map-same-files-560 test "$(counted out)" = 560

# the map's three lowest bits are no sector's; the bit above them is sector 0's, and the highest sector 12's
damaged low-bits.dsk thirteen.dsk "$(at_13 17 0 $((57 + 4 * 3)))" ff
run survey low-bits.dsk
holds low-bits-survey diff <(body surveyed) <(body out)
run map low-bits.dsk
holds low-bits-map diff <(body mapped) <(body out)
patch low-bits.dsk "$(at_13 17 0 $((56 + 4 * 3)))" 80 08
patch low-bits.dsk "$(at_13 17 0 $((56 + 4 * 18)))" 80 10
same map-thirteen-bits map low-bits.dsk

# one damaged disk of 13 for each refusal; a sector above 12 is off the disk
damaged no-table.dsk thirteen.dsk "$(at_13 17 0 53)" 10
same list-thirteen-no-table list no-table.dsk
same archive-thirteen-no-table archive no-table.dsk outs/none
patch no-table.dsk "$(at_13 17 0 52)" 24 0d
same list-thirteen-tracks list no-table.dsk
patch no-table.dsk "$(at_13 17 0 52)" 28
run survey no-table.dsk
holds survey-thirteen-40-tracks diff <(body surveyed) <(body out)
damaged first-page-off.dsk thirteen.dsk "$(at_13 17 0 2)" 0d
same list-thirteen-first-page-off list first-page-off.dsk
damaged page-off.dsk thirteen.dsk "$(at_13 17 12 2)" 0d
same list-thirteen-page-off list page-off.dsk
damaged bad-letter.dsk thirteen.dsk "$(at_13 17 11 $((11 + 35 + 3 + 4)))" 80
same list-thirteen-bad-letter list bad-letter.dsk
damaged list-off.dsk thirteen.dsk "$(at_13 17 12 $((11 + 4 * 35 + 1)))" 0d
same list-thirteen-list-off list list-off.dsk
damaged link-off.dsk thirteen.dsk "$(at_13 18 6 1)" 1b 0d
same list-thirteen-link-off list link-off.dsk
damaged pair-off.dsk thirteen.dsk "$(at_13 28 12 12)" 1b 0d
same list-thirteen-pair-off list pair-off.dsk
damaged pair-off.dsk thirteen.dsk "$(at_13 18 6 254)" 23
same list-thirteen-pair-122-track list pair-off.dsk
damaged pair-off.dsk thirteen.dsk "$(at_13 18 6 255)" 0d
same list-thirteen-pair-122-sector list pair-off.dsk
same archive-thirteen-pair-122-sector archive pair-off.dsk outs/none
damaged ring.dsk thirteen.dsk "$(at_13 28 12 1)" 12 06
same list-thirteen-ring list ring.dsk
damaged ring-of-pages.dsk thirteen.dsk "$(at_13 17 11 1)" 11 0c
same list-thirteen-ring-of-pages list ring-of-pages.dsk
damaged cut-link.dsk thirteen.dsk "$(at_13 29 11 2)" 00
same list-thirteen-cut-link list cut-link.dsk

# a disk of 143,360 bytes stays one of 16 sectors a track, also where its VTOC says 13
damaged says-13.dsk same-files.dsk "$(at 17 0 53)" 0d
run list says-13.dsk
holds list-says-13 diff listed-same <(body out)

# 13 sectors a track: get, archive, check, show
same get-thirteen get samples/thirteen.dsk 'LINE 2 STATIONS' outs/stations
dd if=samples/thirteen.dsk of=wanted bs=1 skip="$(at_13 28 10 4)" count=252 status=none
holds get-thirteen-bytes cmp wanted outs/stations
same get-thirteen-nibbles get samples/thirteen.nib 'LINE 2 RINGS 2 TO 2603' outs/rings
"$root/linefiles" get samples/same-files.dsk 'LINE 2 RINGS 2 TO 2603' outs/rings-16 >/dev/null
holds get-thirteen-nibbles-bytes cmp outs/rings outs/rings-16
holds get-thirteen-nibbles-sum sum_is outs/rings 56dcb95005672fc47ed92dec45e3e033a8fffd68f5609de0e8d0e588f4abb60d
same get-thirteen-deleted get samples/thirteen.dsk 'LINE 2 OLD' outs/none
same archive-thirteen archive samples/thirteen.dsk outs/13.arc
holds archive-thirteen-bytes sum_is outs/13.arc 95f32eca6fd94beb814bbafb54d3bb91423c26704520af0d3cc56ca5fc1036ba
same archive-thirteen-nibbles archive samples/thirteen.nib outs/13-nibbles.arc
holds archive-thirteen-nibbles-equal cmp outs/13.arc outs/13-nibbles.arc
same archive-same-files archive samples/same-files.dsk outs/16.arc
holds archive-same-files-equal cmp outs/13.arc outs/16.arc
same check-thirteen check samples/thirteen.dsk outs/16.arc
same check-thirteen-nibbles check samples/thirteen.nib outs/16.arc
same check-same-files check samples/same-files.dsk outs/13.arc
patch outs/16.arc 1030 ff
same check-thirteen-changed check samples/thirteen.dsk outs/16.arc
same show-thirteen show outs/13.arc

# 13 sectors a track: denibblize; nibblize is refused
same denibblize-thirteen denibblize samples/thirteen.nib outs/13.dsk
holds denibblize-thirteen-bytes cmp outs/13.dsk samples/thirteen.dsk
same denibblize-thirteen-said denibblize --13 samples/thirteen.nib outs/13-said.dsk
holds denibblize-thirteen-said-bytes cmp outs/13-said.dsk samples/thirteen.dsk
cat samples/thirteen.nib samples/thirteen.nib >twice.nib
same denibblize-thirteen-twice denibblize twice.nib outs/13-twice.dsk
holds denibblize-thirteen-twice-bytes cmp outs/13-twice.dsk samples/thirteen.dsk
same denibblize-thirteen-as-16 denibblize samples/thirteen.nib outs/none --16
same denibblize-sixteen-as-13 denibblize samples/one-page.nib outs/none --13
same denibblize-thirteen-flat denibblize samples/thirteen.dsk outs/none
same denibblize-thirteen-flat-said denibblize samples/thirteen.dsk outs/none --13
same nibblize-thirteen nibblize samples/thirteen.dsk outs/none
same nibblize-thirteen-nibbles nibblize samples/thirteen.nib outs/none
damaged address.nib thirteen.nib "$(nib_13 3 5 44)" ff
same denibblize-thirteen-address-sum denibblize address.nib outs/none
damaged data.nib thirteen.nib "$(nib_13 4 6 76)" ab ad ae
same denibblize-thirteen-data-sum denibblize data.nib outs/none
damaged absent.nib thirteen.nib "$(nib_13 7 1 40)" ff
same denibblize-thirteen-absent denibblize absent.nib outs/none
patch absent.nib "$(nib_13 6 12 40)" ff
same list-thirteen-absent list absent.nib
damaged stranger.nib thirteen.nib "$(nib_13 2 0 47)" ae af bf af
same denibblize-thirteen-stranger denibblize stranger.nib outs/none
holds thirteen-nothing-left not test -e outs/none

# a stream that holds two disks, one of each edition
cat samples/one-page.nib samples/thirteen.nib >both.nib
cat samples/thirteen.nib samples/one-page.nib >both-13.nib
same both-list list both.nib
same both-list-13 list both.nib --13
holds both-list-13-equal diff listed <(body out)
same both-13-list list both-13.nib
holds both-13-list-equal diff listed <(body out)
same both-13-list-16 list both-13.nib --16
run list samples/one-page.dsk
cp out listed-16
run list both-13.nib --16
holds both-13-list-16-equal diff <(body listed-16) <(body out)
same both-archive archive both.nib outs/both-16.arc
"$root/linefiles" archive samples/one-page.dsk outs/one.arc >/dev/null
holds both-archive-bytes cmp outs/both-16.arc outs/one.arc
same both-archive-13 archive both.nib outs/both-13.arc --13
holds both-archive-13-bytes cmp outs/both-13.arc outs/13.arc
same both-check check both.nib outs/one.arc
same both-check-13 check both.nib outs/13.arc --13
same both-check-other check both.nib outs/13.arc
same both-get get both-13.nib 'LINE 2 STATIONS' outs/both-stations
holds both-get-bytes cmp wanted outs/both-stations
same both-get-16 get both-13.nib 'LINE 7 STATIONS' outs/both-stations-16 --16
same both-denibblize denibblize both.nib outs/both-16.dsk
holds both-denibblize-bytes cmp outs/both-16.dsk samples/one-page.dsk
same both-denibblize-13 denibblize both.nib outs/both-13.dsk --13
holds both-denibblize-13-bytes cmp outs/both-13.dsk samples/thirteen.dsk
same both-nibblize nibblize both-13.nib outs/none
same both-nibblize-16 nibblize both-13.nib outs/both.nib --16
holds both-nibblize-16-bytes cmp outs/both.nib samples/one-page.nib
cat address.nib samples/one-page.nib >half-13.nib
same one-of-both list half-13.nib
same one-of-both-said list half-13.nib --13
cat <(head -c 832 samples/one-page.nib) samples/thirteen.nib >half-16.nib
same one-of-both-16 check half-16.nib outs/13.arc
same one-of-both-13 survey half-16.nib --13
cat <(head -c 832 samples/one-page.nib) absent.nib >none-of-both.nib
same none-of-both list none-of-both.nib

# the catalog off track 17: the files of same-files.dsk, and on track 17 a page that nothing leads to
same list-moved list samples/moved-catalog.dsk
holds list-moved-plain plain out
body out >listed-moved
holds list-moved-files diff <(sed -n '/^Files/,$p' listed-same) <(sed -n '/^Files/,$p' listed-moved)
run survey samples/same-files.dsk
cp out surveyed
same survey-moved survey samples/moved-catalog.dsk
holds survey-moved-equal diff <(body surveyed) <(body out)
same map-moved map samples/moved-catalog.dsk
holds map-moved-560 test "$(counted out)" = 560
same get-moved get samples/moved-catalog.dsk 'LINE 2 RINGS 2 TO 2603' outs/moved-rings
holds get-moved-sum sum_is outs/moved-rings 56dcb95005672fc47ed92dec45e3e033a8fffd68f5609de0e8d0e588f4abb60d
same get-moved-before get samples/moved-catalog.dsk 'LINE 2 BEFORE THE MOVE' outs/none
same archive-moved archive samples/moved-catalog.dsk outs/moved.arc
holds archive-moved-equal cmp outs/13.arc outs/moved.arc
same check-moved check samples/moved-catalog.dsk outs/13.arc
same check-moved-thirteen check samples/thirteen.nib outs/moved.arc
same nibblize-moved nibblize samples/moved-catalog.dsk outs/moved.nib
same list-moved-nibbles list outs/moved.nib
holds list-moved-nibbles-equal diff listed-moved <(body out)
same check-moved-nibbles check outs/moved.nib outs/13.arc

# sector_to FROM SECTOR FILE SECTOR: one sector of a disk into another disk; the sectors are numbers from the disk's start.
sector_to() { dd if="$1" of="$3" bs=256 skip="$2" seek="$4" count=1 conv=notrunc status=none; }

# moved FILE FROM TRACK SECTOR: a copy of a sample with its first page, 17/15, at another place, and zeros where it was.
moved() {
    damaged "$1" "$2" "$(at 17 0 1)" "$(printf %02x "$3")" "$(printf %02x "$4")"
    sector_to "samples/$2" $((16 * 17 + 15)) "$1" $((16 * $3 + $4))
    sector_to /dev/zero 0 "$1" $((16 * 17 + 15))
}

# on track 1, at the last track's sector 0, and on track 0, which no page's link can name: the same files
run list samples/one-page.dsk
sed -n '/^Files/,$p' out >files-one
for place in '1 15' '34 0' '0 9' '0 0'; do
    read -r track sector <<<"$place"
    moved moved.dsk one-page.dsk "$track" "$sector"
    same "list-moved-$track-$sector" list moved.dsk
    holds "list-moved-$track-$sector-files" diff files-one <(sed -n '/^Files/,$p' out)
done
same map-moved-0 map moved.dsk
moved moved.dsk several-pages.dsk 0 3
same list-moved-several list moved.dsk

# off the disk: 3, whatever stands on track 17; but no table comes first
damaged off.dsk one-page.dsk "$(at 17 0 1)" 23
same list-moved-35 list off.dsk
same map-moved-35 map off.dsk
same get-moved-35 get off.dsk 'LINE 7 STATIONS' outs/none
same check-moved-35 check off.dsk outs/13.arc
patch off.dsk "$(at 17 0 1)" ff
same list-moved-255 list off.dsk
cat out err >said
patch off.dsk "$(at 17 15 20)" 80
run list off.dsk
holds list-moved-255-letter diff said <(cat out err)
patch off.dsk "$(at 17 0 1)" 10 10
same list-moved-16-16 list off.dsk
patch off.dsk "$(at 17 0 52)" 24
same list-moved-no-table list off.dsk
holds moved-nothing-left not test -e outs/none

# a page off track 17 in a ring, with a bad letter, and with a link off the disk
moved ring.dsk several-pages.dsk 1 3
patch ring.dsk "$(at 17 13 1)" 01 03
same list-moved-ring list ring.dsk
moved bad-letter.dsk several-pages.dsk 0 0
patch bad-letter.dsk "$(at 0 0 $((11 + 35 + 3)))" 80
same list-moved-bad-letter list bad-letter.dsk
moved page-off.dsk several-pages.dsk 34 15
patch page-off.dsk "$(at 34 15 1)" 22 10
same list-moved-page-off list page-off.dsk

# the VTOC itself as the first page
damaged vtoc-first.dsk one-page.dsk "$(at 17 0 2)" 00
same list-vtoc-first list vtoc-first.dsk
same map-vtoc-first map vtoc-first.dsk

# the same with 13 sectors a track: a page at 5/3; a sector above 12
damaged moved.dsk thirteen.dsk "$(at_13 17 0 1)" 05 03
sector_to samples/thirteen.dsk $((13 * 17 + 12)) moved.dsk $((13 * 5 + 3))
sector_to /dev/zero 0 moved.dsk $((13 * 17 + 12))
same list-thirteen-moved list moved.dsk
holds list-thirteen-moved-files diff <(sed -n '/^Files/,$p' listed) <(sed -n '/^Files/,$p' out)
same check-thirteen-moved check moved.dsk outs/moved.arc
patch moved.dsk "$(at_13 17 0 2)" 0d
same list-thirteen-moved-off list moved.dsk
patch moved.dsk "$(at_13 17 0 1)" 23 03
same list-thirteen-moved-35 list moved.dsk

# crossed: the sectors that serve two purposes, and the held ones that the map calls free; 0 where the disk is clean, 1 where it is not
rm -f outs/*
for disk in one-page several-pages full last-pair thirteen same-files moved-catalog alike crossed; do
    same "crossed-$disk" crossed "samples/$disk.dsk"
    holds "crossed-$disk-plain" plain out
    body out >"crossed-$disk"
done
same crossed-one-page-nibbles crossed samples/one-page.nib
same crossed-thirteen-nibbles crossed samples/thirteen.nib --13
same list-crossed list samples/crossed.dsk
same survey-crossed survey samples/crossed.dsk
same map-crossed map samples/crossed.dsk
"$root/linefiles" nibblize samples/crossed.dsk outs/crossed.nib >/dev/null
same crossed-nibbles crossed outs/crossed.nib
holds crossed-nibbles-equal diff crossed-crossed <(body out)
"$root/linefiles" crossed - <samples/crossed.dsk >out 2>err
holds crossed-dash test "$? $(sed 1d out | cksum)" = "1 $(cksum <crossed-crossed)"

# one damaged disk for each way to share a sector: a pair twice in a list, a list of two entries, a page and the VTOC as data, the VTOC as its own first page
damaged pair-twice.dsk one-page.dsk "$(at 18 15 14)" 12 0e
same crossed-pair-twice crossed pair-twice.dsk
damaged list-twice.dsk one-page.dsk "$(at 17 15 $((11 + 4 * 35)))" 1a 0b
same crossed-list-twice crossed list-twice.dsk
damaged page-as-data.dsk one-page.dsk "$(at 26 11 12)" 11 0f
same crossed-page-as-data crossed page-as-data.dsk
damaged vtoc-as-data.dsk one-page.dsk "$(at 26 11 12)" 11 00
same crossed-vtoc-as-data crossed vtoc-as-data.dsk
damaged list-as-data.dsk one-page.dsk "$(at 26 11 12)" 1a 0b 12 0b
same crossed-list-as-data crossed list-as-data.dsk
same crossed-vtoc-first crossed vtoc-first.dsk
# six holders, and one more than are listed; sixteen of each
damaged six.dsk one-page.dsk "$(at 18 11 12)" $(printf '12 0e %.0s' {1..5})
same crossed-six crossed six.dsk
damaged seven.dsk one-page.dsk "$(at 18 11 12)" $(printf '12 0e %.0s' {1..6})
same crossed-seven crossed seven.dsk
run crossed samples/overlong.dsk
holds crossed-overlong test "$status $(grep -c '^  [0-9]*/[0-9]* *16  ' out) $(grep -cx ' *and 10 more' out) $(tail -n 1 out)" = \
    '1 259 259 259 sectors shared, 0 held sectors free in the map: not clean'
holds crossed-overlong-plain plain out
holds crossed-overlong-first diff - <(sed -n 5,11p out) <<END
  18/0         16  data of file 1 LINE 1
                   data of file 2 LINE 2
                   data of file 3 LINE 3
                   data of file 4 LINE 4
                   data of file 5 LINE 5
                   data of file 6 LINE 6
                   and 10 more
END

# held sectors that the map calls free: data, a list and its data, the VTOC and a page, those of files with odd names; free ones that it calls used do not matter
damaged data-free.dsk one-page.dsk "$(at 17 0 $((56 + 4 * 18)))" 20
same crossed-data-free crossed data-free.dsk
damaged list-free.dsk one-page.dsk "$(at 17 0 $((56 + 4 * 26)))" 03
same crossed-list-free crossed list-free.dsk
damaged vtoc-free.dsk one-page.dsk "$(at 17 0 $((56 + 4 * 17)))" ff ff
same crossed-vtoc-free crossed vtoc-free.dsk
damaged all-free.dsk several-pages.dsk "$(at 17 0 $((56 + 4 * 17)))" $(printf 'ff ff 00 00 %.0s' {17..22})
same crossed-all-free crossed all-free.dsk
holds crossed-all-free-plain plain out
damaged free-used.dsk one-page.dsk "$(at 17 0 $((56 + 4 * 30)))" 00 00 ff ff
same crossed-free-used crossed free-used.dsk
cp pair-twice.dsk shared-free.dsk
patch shared-free.dsk "$(at 17 0 $((56 + 4 * 18)))" 40
same crossed-shared-free crossed shared-free.dsk

# the same with 13 sectors a track: a page as data; the highest bit of the map is sector 12's, the three lowest are no sector's
damaged crossed-13.dsk thirteen.dsk "$(at_13 28 11 12)" 11 0c
same crossed-thirteen-page-as-data crossed crossed-13.dsk
patch crossed-13.dsk "$(at_13 17 0 $((56 + 4 * 18)))" 80 0f
same crossed-thirteen-free crossed crossed-13.dsk
damaged low-bits.dsk thirteen.dsk "$(at_13 17 0 $((57 + 4 * 18)))" 07
run crossed low-bits.dsk
holds crossed-thirteen-low-bits diff crossed-thirteen <(body out)

# refused as `survey` is
damaged no-table.dsk one-page.dsk "$(at 17 0 52)" 24
damaged bad-letter.dsk several-pages.dsk "$(at 17 14 $((11 + 2 * 35 + 3 + 4)))" 80
damaged list-off.dsk one-page.dsk "$(at 17 15 $((11 + 3 * 35)))" 1a 10
damaged pair-off.dsk one-page.dsk "$(at 26 15 14)" 18 10
damaged no-table-13.dsk thirteen.dsk "$(at_13 17 0 53)" 10
head -c 143359 samples/one-page.dsk >short.dsk
for disk in samples/ring.dsk samples/ring-of-pages.dsk samples/cut-link.dsk no-table.dsk off.dsk bad-letter.dsk list-off.dsk pair-off.dsk no-table-13.dsk short.dsk cut.nib; do
    run survey "$disk"
    echo "status $status" | cat out err - >surveyed
    run crossed "$disk"
    holds "crossed-refused-${disk##*/}" diff surveyed <(echo "status 1" | cat out err -)
done
same crossed-ring crossed samples/ring.dsk

# agree DISK: map, survey, its object of JSON and crossed count the same sectors. In the map X and x are shared, and small letters are held and free.
agree() {
    local wanted='no false 1'
    run map "$1"
    sed -nE 's/^ +[0-9]+   ([^ ]+)$/\1/p' out >rows
    echo "$(tr -cd .# <rows | wc -c) $(tr -cd VCLDvcld <rows | wc -c) $(tr -cd Xx <rows | wc -c) $(tr -cd vcldx <rows | wc -c)" >by-map
    run survey "$1"
    sed -nE 's/^  (unheld sectors|held once|shared sectors|held but free) +//p' out | xargs >by-survey
    sed -nE 's/^  clean +//p' out >clean
    run survey "$1" --json
    sed -nE 's/^  "(unheld|held_once|shared|held_free)": ([0-9]+),$/\2/p' out | xargs >by-json
    sed -n 's/^  "clean": //p' out >>clean
    run crossed "$1"
    awk '/^Sectors with/ { kind = 1 } /^Held sectors/ { kind = 2 } /^  [0-9]+\/[0-9]+ / { n[kind]++ } END { print n[1] + 0, n[2] + 0 }' out >by-crossed
    [ "$(cat by-crossed)" != '0 0' ] || wanted='yes true 0'
    diff by-map by-survey && diff by-map by-json && diff <(cut -d' ' -f3-4 by-map) by-crossed && diff <(echo "$(xargs <clean) $status") <(echo "$wanted") &&
        awk '{ exit $1 + $2 + $3 != 560 && $1 + $2 + $3 != 455 }' by-map
}
for disk in samples/{one-page,several-pages,full,overlong,last-pair,thirteen,same-files,moved-catalog,alike,crossed}.dsk samples/{one-page,thirteen}.nib \
    {pair-twice,list-twice,page-as-data,vtoc-as-data,list-as-data,vtoc-first,six,seven,data-free,list-free,vtoc-free,all-free,free-used,shared-free,crossed-13,low-bits}.dsk; do
    holds "agree-${disk##*/}" agree "$disk"
done
rm -f outs/*

# the options
same option-both list samples/thirteen.nib --13 --16
same option-both-apart --16 list samples/thirteen.nib --13
same option-twice survey --13 samples/thirteen.nib --13
same option-first --13 survey samples/thirteen.nib
same option-flat-13 list samples/thirteen.dsk --13
same option-flat-16 archive samples/one-page.dsk outs/none --16 --force
same option-flat-other map samples/one-page.dsk --13
same option-show show outs/13.arc --13
same option-unknown list samples/thirteen.nib --14
same option-unknown-short list -x
same option-unknown-end get samples/one-page.dsk -- --14 outs/none
same option-too-few list --13
same option-missing list nosuch.nib --13
for option in --force --svg --all --empty --16; do same "option-show$option" show outs/13.arc $option; done
for option in --json --raw --svg --all --empty; do same "option-archive$option" archive samples/one-page.dsk outs/none $option; done
same option-list-force list samples/one-page.dsk --force
same option-map-json map samples/one-page.dsk --json
for option in --raw --json --force --svg --16; do same "option-crossed$option" crossed samples/one-page.dsk $option; done
holds option-nothing-left not test -e outs/none
cp samples/one-page.dsk ./--raw
cp samples/one-page.dsk ./-
run list -- --raw
holds option-end test "$status $(sed -n 1p out)" = '0 --raw: flat disk of 143360 bytes, 16 sectors a track'
run list --raw -- --raw
holds option-end-raw grep -q '^ *raw ' out
run list ./-
holds option-path-dash test "$status $(sed -n 1p out)" = '0 ./-: flat disk of 143360 bytes, 16 sectors a track'

# - is standard input and standard output
"$root/linefiles" list - <samples/one-page.dsk >out 2>err
holds dash-list diff <(body out) <("$root/linefiles" list samples/one-page.dsk | body)
holds dash-list-says test "$(sed -n 1p out)" = 'standard input: flat disk of 143360 bytes, 16 sectors a track'
"$root/linefiles" survey - --json <samples/one-page.nib >out 2>err
holds dash-json test "$(sed -n 2p out)" = '  "file": "-",'
run get samples/one-page.dsk 'LINE 7 STATIONS' -
dd if=samples/one-page.dsk of=wanted bs=1 skip="$(at 26 10 4)" count=252 status=none
holds dash-get cmp wanted out
holds dash-get-says test "$status $(cat err)" = '0 samples/one-page.dsk: flat disk of 143360 bytes, 16 sectors a track'
"$root/linefiles" denibblize - - <samples/one-page.nib >out 2>err
holds dash-denibblize cmp samples/one-page.dsk out
holds dash-denibblize-says test "$(cat err)" = 'standard input: taken as a nibble stream of 232960 bytes,
  16 sectors a track (first address mark D5 AA 96)'
run nibblize samples/one-page.dsk -
holds dash-nibblize cmp samples/one-page.nib out
run archive samples/one-page.dsk -
holds dash-archive sum_is out dc4c7b00de46357a230ca5eb54154fbe5ffe98d89bd778daf261a36b7a93dda6
"$root/linefiles" archive - - <samples/one-page.nib 2>err | "$root/linefiles" check samples/one-page.dsk - >out
holds dash-check grep -qx 'pass: this is the archive of this disk' out
"$root/linefiles" archive samples/one-page.dsk - 2>err | "$root/linefiles" show - >out
holds dash-show test "$(sed -n 1p out)" = 'standard input: archive of 34560 bytes'
same dash-both check - -
same dash-get-refused get samples/ring.dsk 'LINE 7 RING 1' -
holds dash-no-file not test -e outs/-

# descriptors that are closed, and too little stack
"$root/linefiles" archive samples/one-page.dsk outs/none >&- 2>err
holds closed-output test "$? $(cat err)" = '2 linefiles: standard output is closed'
holds closed-output-nothing not test -e outs/none
"$root/linefiles" forecast samples/one-page.dsk 300 >&- 2>err
holds closed-output-forecast test "$? $(cat err)" = '2 linefiles: standard output is closed'
"$root/linefiles" archive samples/one-page.dsk outs/closed 2>&- >out
holds closed-error sum_is outs/closed dc4c7b00de46357a230ca5eb54154fbe5ffe98d89bd778daf261a36b7a93dda6
"$root/linefiles" archive samples/ring.dsk outs/none 2>&- >out
holds closed-error-refused test "$? $(ls outs/none 2>/dev/null)" = '1 '
"$root/linefiles" survey - <&- >out 2>err
holds closed-input test "$? $(cat err)" = '2 linefiles: cannot read standard input: Bad file descriptor'
"$root/linefiles" survey samples/one-page.dsk <&- >out 2>err
holds closed-input-unused test "$? $(cat err)" = '0 '
(ulimit -s 1024 && exec "$root/linefiles" archive samples/one-page.dsk outs/none) >out 2>err
holds little-stack test "$? $(cat err)" = '2 linefiles: the stack is limited to 1024 KiB (ulimit -s), and 6144 are needed'
holds little-stack-nothing not test -e outs/none
(ulimit -S -s 1024 && exec "$root/linefiles" archive samples/one-page.dsk outs/raised) >out 2>err
holds little-stack-raised sum_is outs/raised dc4c7b00de46357a230ca5eb54154fbe5ffe98d89bd778daf261a36b7a93dda6
"$root/linefiles" list samples/full.dsk 2>err | sed -n 1q
holds nobody-reads test ! -s err

# files that cannot be read
same missing list nosuch.dsk
mkdir folder
same folder survey folder
same empty list empty
head -c 143359 samples/one-page.dsk >short.dsk
same short survey short.dsk
head -c 116479 samples/thirteen.dsk >short-13.dsk
same short-thirteen survey short-13.dsk
cp "$root/README.md" text.dsk
head -c 1000 text.dsk >text-1000.dsk
same text list text-1000.dsk
head -c 1048577 /dev/zero >long.dsk
same long map long.dsk
same empty-path list ''

# outputs: what is there stays, and nothing half written is left
rm -f outs/*
echo kept >outs/there
same there archive samples/one-page.dsk outs/there
holds there-kept test "$(cat outs/there)" = kept
same force archive samples/one-page.dsk outs/there --force
holds force-bytes sum_is outs/there dc4c7b00de46357a230ca5eb54154fbe5ffe98d89bd778daf261a36b7a93dda6
same force-first --force archive samples/one-page.dsk outs/there
same force-between nibblize --force samples/one-page.dsk outs/there
holds force-between-bytes cmp outs/there samples/one-page.nib
# only a file is replaced; a link is written through; owner and mode stay
same force-again nibblize samples/one-page.dsk outs/there --force
same force-shorter archive samples/one-page.dsk outs/there --force
holds force-shorter-bytes sum_is outs/there dc4c7b00de46357a230ca5eb54154fbe5ffe98d89bd778daf261a36b7a93dda6
mkfifo outs/pipe
same force-pipe archive samples/one-page.dsk outs/pipe --force
same out-pipe archive samples/one-page.dsk outs/pipe
holds force-pipe-stays test -p outs/pipe
same force-device archive samples/one-page.dsk /dev/null --force
holds force-device-stays test -c /dev/null
rm outs/pipe
chmod 640 outs/there
ln -s there outs/link
same force-link nibblize samples/one-page.dsk outs/link --force
holds force-link-stays test -L outs/link
holds force-link-bytes cmp outs/there samples/one-page.nib
holds force-mode test "$(stat -c %a outs/there)" = 640
same out-link nibblize samples/one-page.dsk outs/link
rm outs/link
ln -s new outs/dangling
same out-dangling archive samples/one-page.dsk outs/dangling
holds out-dangling-nothing not test -e outs/new
same force-dangling archive samples/one-page.dsk outs/dangling --force
holds force-dangling-bytes sum_is outs/new dc4c7b00de46357a230ca5eb54154fbe5ffe98d89bd778daf261a36b7a93dda6
rm outs/dangling outs/new
same force-new archive samples/one-page.dsk outs/new --force
rm outs/new
long=$(printf '%0250d' 7)
run archive samples/one-page.dsk "outs/$long"
holds long-name sum_is "outs/$long" dc4c7b00de46357a230ca5eb54154fbe5ffe98d89bd778daf261a36b7a93dda6
rm "outs/$long"
run archive samples/one-page.dsk "outs/${long}1234567"
holds too-long-name test "$status $(cat err)" = "2 linefiles: cannot write outs/${long}1234567: File name too long"
mkdir outs/folder
same out-folder archive samples/one-page.dsk outs/folder
same out-folder-force archive samples/one-page.dsk outs/folder --force
same out-no-folder archive samples/one-page.dsk outs/none/out
same out-empty archive samples/one-page.dsk ''
holds outs-tidy tidy "folder there "
echo kept >outs/there
(
    ulimit -f 8
    "$root/linefiles" archive samples/one-page.dsk outs/half 2>half.err
    echo "status $?"
    "$root/linefiles" archive samples/one-page.dsk outs/there --force 2>>half.err
    echo "status $?"
) >half.out
cat half.err half.out >half
printf '%s\n' 'linefiles: cannot write outs/half: File too large' 'linefiles: cannot write outs/there: File too large' \
    'samples/one-page.dsk: flat disk of 143360 bytes, 16 sectors a track' 'status 2' \
    'samples/one-page.dsk: flat disk of 143360 bytes, 16 sectors a track' 'status 2' >half.wanted
holds half-told diff half.wanted half
holds half-tidy tidy "folder there "
holds half-kept test "$(cat outs/there)" = kept
# full NAME ARGS..: standard output cannot be written, which is told.
full() {
    local name=$1
    shift
    "$root/linefiles" "$@" >/dev/full 2>err
    holds "$name" test "$? $(cat err)" = '2 linefiles: cannot write to standard output: No space left on device'
}
if [ -w /dev/full ]; then
    full full-list list samples/one-page.dsk
    full full-survey survey samples/one-page.dsk
    full full-map map samples/one-page.dsk
    full full-crossed crossed samples/one-page.dsk
    full full-crossed-not-clean crossed samples/crossed.dsk
    full full-archive archive samples/one-page.dsk outs/written
    full full-check check samples/one-page.dsk outs/written
    full full-show show outs/written
    cp samples/one-page.dsk outs/changed.dsk
    full full-delete delete outs/changed.dsk 'LINE 7 RING 1'
    full full-forecast forecast samples/one-page.dsk 300
    full full-forecast-no-space forecast samples/full.dsk 300
fi
if [ "$(id -u)" -ne 0 ]; then # root may read and write all
    chmod a-w outs
    same out-read-only archive samples/one-page.dsk outs/new
    chmod u+w outs
    cp samples/one-page.dsk secret.dsk
    chmod a-r secret.dsk
    same unreadable list secret.dsk
fi

# names as they are cut: of those that show alike, and of all with --raw
same list-alike list samples/alike.dsk
holds list-alike-plain plain out
same list-alike-raw list --raw samples/alike.dsk
holds list-alike-raw-plain plain out
same list-several-pages-raw list samples/several-pages.dsk --raw
holds list-several-pages-raw-plain plain out
same list-thirteen-raw list samples/thirteen.nib --13 --raw
same archive-alike archive samples/alike.dsk outs/alike
same show-alike show outs/alike
holds show-alike-plain plain out
same show-alike-raw show outs/alike --raw
holds show-alike-raw-plain plain out
same get-alike get samples/alike.dsk A outs/last
holds get-alike-bytes test "$(stat -c %s outs/last)" = 200
# the rows of a name, by how many bytes stand before its last run
raw_rows() { awk '/^ .*  B / { n++ } n == 2 && / list / { exit } n == 2' out | sed 1d; }
for front in 0 1 11 12 15 16 26 27 28 29; do
    damaged runs.dsk alike.dsk "$(at 17 15 $((11 + 35 + 3)))" $(for ((k = 0; k < 30; k++)); do printf '%02x ' $((k < front ? 193 + k : 160)); done)
    run list runs.dsk --raw
    holds "list-run-$front-plain" plain out
    raw_rows >>runs
done
if [ -n "${UPDATE:-}" ]; then cp runs "$expected/list-runs"; fi
holds list-runs diff "$expected/list-runs" runs
# one high bit: the names and the survey are the same, the archive is another, and what differs is told
damaged one-bit.dsk alike.dsk "$(at 17 15 $((11 + 3)))" 41
same list-one-bit list one-bit.dsk
run survey samples/alike.dsk
body out >survey
run survey one-bit.dsk
holds survey-one-bit diff survey <(body out)
same check-one-bit check one-bit.dsk outs/alike
same archive-one-bit archive one-bit.dsk outs/one-bit
same check-one-bit-own check one-bit.dsk outs/one-bit
same check-alike-one-bit check samples/alike.dsk outs/one-bit
# other differences at such a byte: a cut archive, a data block
head -c 300 outs/alike >cut-name
same check-cut-name check samples/alike.dsk cut-name
cp outs/alike in-data
patch in-data $((256 * 2 + 50)) ff
same check-in-data check samples/alike.dsk in-data
# archives of no disk: without name bytes, with 80h among them, with another letter, with a byte behind them
cp outs/alike no-names
patch no-names $((256 + 42)) $(printf '00 %.0s' {1..30})
same check-no-names check samples/alike.dsk no-names
same show-no-names show no-names
cp outs/alike with-80h
patch with-80h $((256 + 71)) 80
same show-with-80h show with-80h
cp outs/alike other-letter
patch other-letter $((256 + 42)) c2
same show-other-letter show other-letter
cp outs/alike byte-72
patch byte-72 $((256 + 72)) 01
same show-byte-72 show byte-72
for command in survey map; do same "raw-$command" "$command" samples/alike.dsk --raw; done
same raw-get get samples/alike.dsk A outs/none --raw
same raw-help help --raw

# usage
same help help
holds help-plain plain out
cp out helped
for word in -h --help 'list --help' 'help get' '-h list nosuch'; do
    run $word
    holds "help-by-${word// /-}" diff helped out
done
run get samples/one-page.dsk -- --help outs/none
holds help-behind-end test "$status $(sed -n 2p err)" = '1   no file is named --help'
same version --version
holds version-crate grep -qx "version = \"$(cut -d' ' -f2 out)\"" "$root/host/Cargo.toml"
same no-arguments
same unknown-command lists samples/one-page.dsk
same unknown-command-none --13
same too-few get samples/one-page.dsk 'LINE 7 RING 1'
same too-many list samples/one-page.dsk samples/full.dsk
same no-disk survey
run get samples/several-pages.dsk "$(printf '%05000d' 7)" outs/none
holds long-argument test "$status $(cat err)" = '2 linefiles: an argument is longer than 4096 bytes'
for command in map crossed forecast archive check show nibblize denibblize; do same "usage-$command" "$command"; done
same usage-map-svg map samples/one-page.dsk --svg
for word in help --version; do
    "$root/linefiles" $word >/dev/full 2>err
    holds "full-$word" test "$? $(tail -n 1 err)" = '2 linefiles: cannot write to standard output'
done

# the wrapper: from another folder, by a link, and where it has to build
ln -s "$root/linefiles" by-link
./by-link survey samples/one-page.dsk >by-link.out
holds wrapper-by-link diff by-link.out <("$root/linefiles" survey samples/one-page.dsk)
mkdir -p fresh/crates/{lists,screen,linefiles,other} tools
cp "$root/linefiles" fresh/linefiles
printf '%s\n' '# crates' 'lists:' 'other: lists' 'screen: lists io' 'linefiles: screen lists io os' >fresh/crates.txt
for tool in bash env dirname readlink find mktemp cat rm touch mkdir cp flock sleep; do ln -s "$(command -v $tool)" tools/$tool; done
wrapped() {
    PATH=$work/tools fresh/linefiles "$@" >out 2>err
    status=$?
}
wrapped help
holds wrapper-help diff helped out
wrapped --version
holds wrapper-version test "$status $(cat err)" = '0 '
wrapped survey samples/one-page.dsk
holds wrapper-no-rt test "$status $(cat err)" = '2 linefiles: cannot build: there is no rt, the command of the Rattle kit, on the PATH'
printf '#!/usr/bin/env bash\necho "the log of $*"\nexit 1\n' >tools/rt
chmod +x tools/rt
wrapped survey samples/one-page.dsk
building='linefiles: building; the first time all is proved, which takes some minutes'
holds wrapper-build-fails test "$status $(cat err)" = "2 $building
the log of run
linefiles: rt run failed in crates/linefiles"
# rt as it is: a line where a crate is begun, and one where it is proved; with `slow` there it takes its time over the second
cat >tools/rt <<END
#!/usr/bin/env bash
for crate in lists screen linefiles; do
    echo "rt: chose --jobs 2 for \$crate" >&2
    touch ../../target/\$crate.begun
    if [ -e ../../slow ] && [ \$crate = screen ]; then sleep 3; fi
    echo "logic=proved functions=1" >&2
done
mkdir -p out
cp $(printf %q "$root/target/bin/linefiles") out/linefiles
echo "rt: running out/linefiles" >&2
END
wrapped survey samples/one-page.dsk
sed -E 's/[0-9]+:[0-9]{2}/TIME/; s/; now .*//' err | uniq >told
holds wrapper-builds diff told - <<END
$building
linefiles: 1 of 3 crates proved, TIME so far
linefiles: 2 of 3 crates proved, TIME so far
linefiles: 3 of 3 crates proved, TIME so far
linefiles: built in TIME
END
holds wrapper-builds-output diff by-link.out out
wrapped survey samples/ring.dsk
holds wrapper-built test "$status $(cat err)" = "1 refused: 4 ring
  file 2 LINE 7 RINGS 2 TO 90: list 18/1 leads back to list 18/6"
touch -d '1 hour' fresh/crates/newer
wrapped survey samples/one-page.dsk
holds wrapper-builds-again test "$status $(sed -n 1p err)" = "0 $building"
# two first runs at once: the second waits, and does not build again
rm -rf fresh/crates/newer fresh/target
touch fresh/slow
PATH=$work/tools fresh/linefiles survey samples/one-page.dsk >first.out 2>first.err &
while ! [ -e fresh/target/screen.begun ]; do sleep 0.1; done
wrapped survey samples/one-page.dsk
wait
holds wrapper-waits test "$status $(cat err)" = '0 linefiles: another build is under way; waiting for it'
holds wrapper-waits-output diff by-link.out out
holds wrapper-first-output diff by-link.out first.out
holds wrapper-first-says grep -Eqx 'linefiles: 1 of 3 crates proved, 0:0[0-9] so far; now screen' first.err
# on a terminal one line renews itself
if command -v script >/dev/null; then
    rm -rf fresh/target
    PATH=$work/tools:$PATH script -qec 'fresh/linefiles survey samples/one-page.dsk' /dev/null </dev/null >terminal
    tr '\r' '\n' <terminal | sed -E 's/[0-9]+:[0-9]{2}/TIME/' >told
    holds wrapper-terminal grep -q '^linefiles: 1 of 3 crates proved, TIME so far; now screen' told
    holds wrapper-terminal-one-line test "$(tr -d '\r' <terminal | grep -c 'crates proved, ')" = 1
fi
rm -f fresh/slow
# a program that a signal ends
printf '#!/usr/bin/env bash\nkill -SEGV $$\n' >fresh/target/bin/linefiles
touch -d '1 hour' fresh/target/bin/linefiles
wrapped survey samples/one-page.dsk
holds wrapper-signal test "$status $(tail -n 1 err)" = '2 linefiles: the program was ended by signal 11'

# no line is over 80 columns but the command itself, an object of JSON, and a path
long_lines() {
    local file
    for file in "$expected"/*; do
        case ${file##*/} in *json* | *-sums) continue ;; esac
        awk -v name="${file##*/}" 'length > 80 && !/^\$ / { print name ": " $0; bad = 1 } END { exit bad }' "$file" || return 1
    done
}
holds lines-of-80 long_lines

echo "$passed passed, $failed failed"
[ "$failed" -eq 0 ]
