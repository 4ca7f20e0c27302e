#!/bin/sh
# missing.sh COUNT DIR: prints the indexes from 0 to COUNT-1 without a table in DIR, with commas between them.
index=0 list=
while [ "$index" -lt "$1" ]; do
    [ -f "$2/$index.txt" ] || list=$list${list:+,}$index
    index=$((index + 1))
done
printf '%s\n' "$list"
