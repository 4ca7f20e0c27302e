#!/bin/sh
# part.sh INDEX SIZE DIR WORDS..: runs jobs INDEX*SIZE to INDEX*SIZE+SIZE-1 of `jvmx campaign WORDS..`, and writes their
# table to DIR/INDEX.txt. The file has its name only once it is whole: what a part that was killed left is never joined.
# A part that runs twice writes the same bytes. JVMX names the program, if it isn't jvmx.
set -u
index=$1 size=$2 dir=$3
shift 3
# A shell that can't write ends with 2, which is a refusal of words or files.
[ -d "$dir" ] || { echo "$0: no folder $dir" >&2; exit 3; }
part=$dir/$index.part.$(hostname).$$
trap 'rm -f "$part"; exit 143' TERM INT HUP
"${JVMX:-jvmx}" campaign --first $((index * size)) --jobs "$size" "$@" >"$part"
status=$?
# 0 and 1 are answers. With 2, words or files are refused; with 3, memory ran out or a file failed.
if [ "$status" -gt 1 ]; then
    rm -f "$part"
    exit "$status"
fi
sync "$part" && mv "$part" "$dir/$index.txt"
