#!/bin/sh
# Makes a script of a text: reads the text on standard input and writes the script's bytes. A line of the text is a record:
#
#   move ENTITY GRID X Y Z
#   remove ENTITY
#   update
#   raw LETTERS            the letters as they stand, for a record that is wrong
#
# `N times` before a record writes it N times. An empty line, and one that starts with `#`, says nothing.

# A number's lowest bytes, the lowest first, as printf's %b reads them.
bytes() {
    n=$1
    k=$2
    while [ "$k" -gt 0 ]; do
        record="$record\\0$(((n >> 6) & 3))$(((n >> 3) & 7))$((n & 7))"
        n=$((n >> 8))
        k=$((k - 1))
    done
}

while read -r word rest; do
    count=1
    case $rest in
    'times '*)
        count=$word
        rest=${rest#times }
        word=${rest%% *}
        rest=${rest#"$word"}
        ;;
    esac
    # shellcheck disable=SC2086
    set -- $rest
    case $word/$# in
    move/5)
        record=YM
        bytes "$1" 8
        bytes "$2" 8
        bytes "$3" 4
        bytes "$4" 4
        bytes "$5" 4
        ;;
    remove/1)
        record=YR
        bytes "$1" 8
        ;;
    update/0) record=YU ;;
    raw/1) record=$1 ;;
    '/0' | '#'*) continue ;;
    *)
        echo "no record: $word $rest" >&2
        exit 1
        ;;
    esac
    while [ "$count" -gt 0 ]; do
        printf %b "$record"
        count=$((count - 1))
    done
done
