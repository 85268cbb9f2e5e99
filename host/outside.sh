#!/bin/sh
# What is written here, read by outside readers.
# - What nibblize writes: MAME's floptool (Debian's mame-tools) must give the flat disk back. With the name of a flat disk this takes that one, else one of
#   pseudo-random bytes.
# - What saves and deletes leave: floptool must list the files and give their bytes, where it has a file system of DOS 3.3 (0.251 has none), and image-rider must
#   read the disk as ours does, where the differential run can be built. What cannot be done is said.
# Run in host/.
set -eu
command -v floptool >/dev/null || { echo "floptool is not there: apt-get install mame-tools" >&2; exit 2; }
work=$(mktemp -d)
trap 'rm -rf "$work"' EXIT
if [ $# -gt 0 ]; then
    cp "$1" "$work/disk.nib.dsk"
    cargo run --quiet --example nibblize -- "$1" "$work/disk.nib"
else
    cargo run --quiet --example nibblize -- --random "$work/disk.nib"
fi
floptool flopconvert a2_nib a2_16sect_dos "$work/disk.nib" "$work/back.dsk"
cmp "$work/disk.nib.dsk" "$work/back.dsk"
echo "floptool reads the stream as the same 143,360 bytes"

# Files of these lengths, each named after it; that of 7,000 is deleted, and its line and sectors are used again. No name holds a space.
mkdir "$work/files"
words=
for word in F0 F1 F252 F253 F7000 -F7000 F509 F30000; do
    case $word in
    -*) words="$words $word" ;;
    *)
        head -c "${word#F}" "$work/disk.nib.dsk" >"$work/files/$word"
        words="$words $work/files/$word"
        ;;
    esac
done
cargo run --quiet --example save -- "$work/saved.dsk" $words >"$work/catalog"
rm "$work/files/F7000"
[ "$(cut -c5- "$work/catalog" | tr '\n' ' ')" = "F0 F1 F252 F253 F509 F30000 " ] || { echo "another catalog:"; cat "$work/catalog"; exit 1; }

# The name of floptool's file system for DOS 3.3, if it has one.
system=$(floptool 2>&1 | sed -n '/^Supported filesystems/,$s/^  \([a-z0-9_]*dos33[a-z0-9_]*\) .*/\1/p' | head -n 1)
if [ -z "$system" ]; then
    echo "left out: what is saved, read by floptool: it has no file system of DOS 3.3 ($(floptool version 2>/dev/null | head -n 1))"
else
    floptool flopdir a2_16sect_dos "$system" "$work/saved.dsk" >"$work/listed"
    for file in "$work"/files/*; do
        name=$(basename "$file")
        grep -qw "$name" "$work/listed" || { echo "floptool does not list $name:"; cat "$work/listed"; exit 1; }
        floptool flopread a2_16sect_dos "$system" "$work/saved.dsk" "$name" "$work/read"
        # With or without the four bytes of address and length, and whole sectors or not.
        size=$(($(wc -c <"$file")))
        head -c "$size" "$work/read" | cmp -s - "$file" || tail -c +5 "$work/read" | head -c "$size" | cmp -s - "$file" || { echo "floptool reads $name differently"; exit 1; }
    done
    ! grep -qw F7000 "$work/listed" || { echo "floptool lists a file that was deleted"; exit 1; }
    echo "floptool lists what was saved, and reads the same bytes"
fi

if ! (cd differential && cargo build --quiet --release --offline) 2>"$work/why"; then
    echo "left out: what is saved, read by image-rider: the differential run cannot be built here (differential/README.md says what it needs)"
else
    (cd differential && cargo run --quiet --release --offline -- --load "$work/saved.dsk") >"$work/loaded" || { cat "$work/loaded"; exit 1; }
    echo "image-rider reads what was saved: the same entries and the same bytes"
fi
