#!/bin/sh
# The data set of a DICOM file (PS3.10), which is written, and the UID of its transfer syntax, which is printed.
#
#     sh examples/cut.sh FILE DATASET
#
# Before the data set stand 128 bytes of preamble, "DICM" and group 0002 in Explicit VR Little Endian. Status 2: nothing was written.
fault() {
    echo "cut: $1" >&2
    exit 2
}

[ $# = 2 ] && [ "$1" != "$2" ] || fault 'usage: sh examples/cut.sh FILE DATASET'
file=$1 dataset=$2
size=$(wc -c < "$file") || fault "$file cannot be read"
[ "$(od -A n -t x1 -j 128 -N 4 "$file" 2> /dev/null)" = ' 44 49 43 4d' ] || fault "$file: DICM does not stand at byte 128"

at=132 uid=
# Twelve bytes of an element as numbers, low byte first: group, element number, VR, length; of a long form two bytes of zero before the length.
while set -- $(od -A n -v -t u1 -j "$at" -N 12 "$file" 2> /dev/null) && [ "$1 $2" = '2 0' ]; do
    case "$5 $6" in
    '79 66' | '85 78' | '85 82' | '85 84') # OB, UN, UR, UT
        start=$((at + 12)) length=$((${9:-$size} + 256 * (${10:-0} + 256 * (${11:-0} + 256 * ${12:-0})))) ;;
    *) start=$((at + 8)) length=$((${7:-$size} + 256 * ${8:-0})) ;;
    esac
    [ $((start + length)) -le "$size" ] || fault "$file: group 0002 breaks off at byte $at"
    [ "$3 $4" != '16 0' ] || uid=$(tail -c +$((start + 1)) "$file" | head -c "$length" | tr -d '\0')
    at=$((start + length))
done
[ -n "$uid" ] || fault "$file: group 0002 has no transfer syntax UID, (0002,0010)"

tail -c +$((at + 1)) "$file" > "$dataset" || fault "$dataset cannot be written"
echo "$uid"
