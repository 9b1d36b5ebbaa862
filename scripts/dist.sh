#!/bin/bash
# Packs the programs that passed `make test`, with its documents: `dist.sh pack VERSION`.
#
# `dist.sh begin` and `dist.sh passed PROGRAM IMPORT` are the first and the last step of `make test`. They leave these programs as
# bin/heapdbg and bin/heapdbg-import, and their sums, the commit and the kit in bin/tested. Nothing else is packed.
set -eu
note=bin/tested

# Prints the commit that the files are: `HASH`, `HASH, changed` or `none`.
commit() {
    if git rev-parse --verify --quiet HEAD 2> /dev/null; then
        [ -z "$(git status --porcelain)" ] || echo ", changed"
    else
        echo none
    fi | tr -d '\n'
}

# Prints what the note says of a word.
noted() {
    sed -n "s/^$1 //p" $note
}

# Prints the sum of a program.
sum() {
    sha256sum "$1" | cut -d ' ' -f 1
}

refuse() {
    echo "make dist: $1" >&2
    exit 1
}

begin() {
    mkdir -p bin
    rm -f $note
    commit > $note.begun
}

passed() {
    local now
    now=$(commit)
    [ "$now" = "$(cat $note.begun)" ] || now="$now, changed"
    install -D "$1" bin/heapdbg
    install -D "$2" bin/heapdbg-import
    printf '%s\n' "commit $now" "kit $(rt version)" "program $(sum bin/heapdbg)" "import $(sum bin/heapdbg-import)" > $note
}

# Refuses to pack anything but the program that passed `make test`, at the commit that the files are.
check() {
    local now
    now=$(commit)
    [ "$now" != none ] || refuse "git names no commit of this folder, and a package says of which one it is"
    [ "$now" = "${now%, changed}" ] || refuse "files differ from commit ${now%, changed}, as git status shows: commit them, then make test"
    [ -f $note ] || refuse "nothing has been tested here: make test"
    [ "$(noted commit)" = "$now" ] || refuse "make test passed at commit $(noted commit), and this is $now: make test"
    [ -f bin/heapdbg ] || refuse "there is no bin/heapdbg: make test"
    [ "$(noted program)" = "$(sum bin/heapdbg)" ] || refuse "bin/heapdbg isn't the program that passed: make test"
    [ -f bin/heapdbg-import ] || refuse "there is no bin/heapdbg-import: make test"
    [ "$(noted import)" = "$(sum bin/heapdbg-import)" ] || refuse "bin/heapdbg-import isn't the program that passed: make test"
}

pack() {
    local name=heapdbg-$1-x86_64 folder
    check
    folder=$(mktemp -d)
    trap "rm -rf '$folder'" EXIT
    make --no-print-directory install DESTDIR="$folder/$name" PREFIX=
    {
        echo "heapdbg $1"
        cat $note
        echo "make test passed at this commit; it proves each function, and builds and tests this program"
    } > "$folder/$name/PROVED"
    mkdir -p dist
    tar -C "$folder" --sort=name --owner=0 --group=0 --numeric-owner -czf "dist/$name.tar.gz" "$name"
    echo "dist/$name.tar.gz"
}

"$@"
