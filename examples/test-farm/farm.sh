#!/bin/sh
# Runs each image of a folder with `rvmove run --verdict --stop-at-fault`, as many at once as the machine has cores, and
# writes what became of them to junit.xml. The status is 0 only if there are images and each guest halted with 0.
#
#     farm.sh FOLDER [RVMOVE [OPTION..]]
#
# FOLDER: its files *.elf are the images. RVMOVE: the program, that of the PATH if none is given. OPTION..: more options of
# `rvmove run`, as --steps 5000000. Needs GNU parallel, which also takes options from the variable PARALLEL.
set -eu
if [ $# -lt 1 ] || [ ! -d "$1" ]; then
    echo 'farm.sh FOLDER [RVMOVE [OPTION..]]' >&2
    exit 2
fi
if ! command -v parallel > /dev/null; then
    echo 'GNU parallel is not on the PATH' >&2
    exit 2
fi
folder=$1
rvmove=${2:-rvmove}
if [ $# -gt 2 ]; then shift 2; else shift $#; fi
here=$(dirname "$0")
work=$(mktemp -d)
trap 'rm -rf "$work"' EXIT

# One line an image: a name with a line's end in it is left out.
find "$folder" -type f -name '*.elf' ! -name '*
*' | LC_ALL=C sort > "$work/images"

: > "$work/log"

# The status of parallel is of no use here: the log has that of each run.
parallel --will-cite --arg-file "$work/images" --joblog "$work/log" --results "$work/{#}/" \
    "$rvmove" run {} --verdict --stop-at-fault "$@" > /dev/null 2>&1 < /dev/null || true

FARM_SUITE=$folder LC_ALL=C awk -v work="$work" -f "$here/junit.awk" "$work/log" "$work/images" |
    iconv -c -f UTF-8 -t UTF-8 > junit.xml

# One line for each kind, and the verdict on all.
LC_ALL=C awk -v work="$work" -v kinds=1 -f "$here/junit.awk" "$work/log" "$work/images"
