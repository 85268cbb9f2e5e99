#!/usr/bin/env bash
# What .ci/run installs, and when, and that it fails with the gate and where edits are bad: the script itself in a folder of its own, with stand-ins for rt, cargo, cc,
# id and apt-get. A second or two.
set -u
cd "$(dirname "$0")/.." || exit 2
work=$(mktemp -d) || exit 2
trap 'rm -rf "$work"' EXIT
top=$work/top
mkdir -p "$work/bin" "$top/.ci" "$top/test" "$top/host/differential" "$top"/crates/{host,replay,replay_parts} "$work/source/src/disk_format/apple"
touch "$work/source/src/disk_format/apple/disk.rs" "$top/test/refused.sh" "$top/test/ci.sh" "$top/host/outside.sh" "$top"/crates/{replay,replay_parts}/{stdin,stdout}
sed "s|^registry=.*|registry=$work/registry|" .ci/run >"$top/.ci/run"

stand_in() { # NAME COMMANDS
    printf '#!/bin/sh\n%s\n' "$2" >"$work/bin/$1"
    chmod +x "$work/bin/$1"
}
stand_in rt '[ "$1" != ci ] || echo "3 passed, 0 failed"'
stand_in cargo :
stand_in cc :

tries=0 wrong=0

# try WHAT USER APT WORDS..: the script as that user, with an apt-get that brings the crates (good) or does not (bad), and these words in the environment. What it
# printed is in out; calls is how often apt-get was called.
try() {
    local what=$1 user=$2 apt=$3 status
    shift 3
    said=$what
    rm -rf "$work/registry" "$work/calls"
    mkdir "$work/registry"
    stand_in id "echo $user"
    stand_in apt-get "echo \"\$1\" >>'$work/calls'; [ $apt = good ] && touch '$work/registry/nom-1' '$work/registry/log-1' '$work/registry/config-1'"
    [ "$apt" != there ] || touch "$work/registry"/{nom,log,config}-1
    out=$(env -u CI -u DOS33_INSTALL PATH="$work/bin:$PATH" IMAGE_RIDER_SRC="$work/source" "$@" bash "$top/.ci/run" 2>&1)
    status=$?
    calls=$(cat "$work/calls" 2>/dev/null | wc -l)
    expect "status 0" [ "$status" -eq 0 ]
    expect "the gate's last line" [ "$(printf '%s\n' "$out" | tail -n 1)" = "3 passed, 0 failed" ]
}

expect() { # WHAT COMMAND..
    tries=$((tries + 1))
    "${@:2}" && return
    echo "$said: not $1"
    wrong=$((wrong + 1))
}

prints() { printf '%s\n' "$out" | grep -q "$1"; }
silent() { ! prints "$1"; }

for word in "NOTHING=1" "CI=" "DOS33_INSTALL=" "DOS33_INSTALL=0" "DOS33_INSTALL=yes"; do
    try "not asked, $word" 0 good "$word"
    expect "without apt-get" [ "$calls" -eq 0 ]
    expect "left out, and the words said" prints '^left out: differential run: .* where CI is set or DOS33_INSTALL=1 is$'
    expect "without a word of installing" silent '^installing'
done
for word in "CI=true" "DOS33_INSTALL=1"; do
    asked=${word%=true}
    try "asked, $word" 0 good "$word"
    expect "one apt-get" [ "$calls" -eq 1 ]
    expect "said, with the word" prints "^installing librust-nom-dev librust-log-dev librust-config-dev, as $asked asks$"
    expect "run" prints '^passed: differential run$'
    try "asked in vain, $word" 0 bad "$word"
    expect "two apt-gets" [ "$calls" -eq 2 ]
    expect "left out" prints '^left out: differential run: .* could not be installed$'
    try "asked, not by root, $word" 1000 good "$word"
    expect "without apt-get" [ "$calls" -eq 0 ]
    expect "left out" prints '^left out: differential run: .* could not be installed$'
    try "nothing to install, $word" 0 there "$word"
    expect "without apt-get" [ "$calls" -eq 0 ]
    expect "run" prints '^passed: differential run$'
done
# gate WHAT LAST LINES..: the script where rt ci prints these lines and ends with that status; its own status is not 0, and its last line is LAST.
gate() {
    local status
    said=$1
    stand_in rt "[ \"\$1\" = ci ] || exit 0; printf '%s\\n' $(printf "'%s' " "${@:4}"); exit $3"
    out=$(env -u CI -u DOS33_INSTALL PATH="$work/bin:$PATH" bash "$top/.ci/run" 2>&1)
    status=$?
    expect "a status" [ "$status" -ne 0 ]
    expect "the last line" [ "$(printf '%s\n' "$out" | tail -n 1)" = "$2" ]
    expect "without the rest" silent '^== '
}
ok='rt: ok; handles allowed: none; must-fail edits: 3 refused'
gate "bad edits" "3 passed, 1 failed" 0 "$ok, 2 bad; every proof was done" "3 passed, 0 failed"
gate "a crate that failed" "2 passed, 1 failed" 1 "2 passed, 1 failed"
gate "no last line" "0 passed, 1 failed" 1 "$ok"
gate "a status alone" "3 passed, 1 failed" 1 "$ok; every proof was done" "3 passed, 0 failed"

echo "what .ci/run installs, and when it fails: $tries looked at, $wrong wrong"
[ "$wrong" -eq 0 ]
