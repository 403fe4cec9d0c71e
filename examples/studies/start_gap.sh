#!/bin/sh
# How long a module lasts under Start-Gap, beside one whose wear is spread perfectly, over psi (stores before a gap moves; 65535: no
# moves at this size): for writes that all go to one line, to a set of four lines, and to all lines in turn (each line is written
# once before); then for the hot line, where four times as many lines stand in one region or in more. most and mean are pulses of an
# array line; percent is the lifetime reached of the perfect one: the writes for each array line, beside the most.
#
# The shape is that of Qureshi et al., MICRO 2009, figures on lifetime over psi. Scaled down: a region of 16 lines and 16,384 writes
# in the place of millions of lines and as many writes as wear a line out; so psi is small, too, since a turn of the gap through the
# region takes lines * (lines + 1) * psi stores. With --full regions of 64 lines, and 400,000 writes.
# usage: start_gap.sh [PROGRAM [--full]]
pcm=${1:-./pcm}
lines=16
rows=16384
[ "$2" = --full ] && lines=64 rows=400000
here=$(dirname "$0")
trace=$(mktemp) && trap 'rm -f "$trace"' EXIT && trap 'exit 1' INT TERM HUP

# wears PATTERN REGIONS LINES PSI: runs the trace, and prints a row
wears() {
    "$pcm" run --banks 1 --regions "$2" --lines "$3" --spares 0 --psi "$4" --print wear <"$trace" |
        awk -F, -v name="$1,$2,$3,$4" -v rows="$rows" 'NR > 1 { sum += $3; n++; if ($3 > most) most = $3 }
            END { printf "%s,%d,%.1f,%d,%.1f\n", name, most, sum / n, sum, 100 * rows / n / most }'
}

printf 'pattern,regions,lines,psi,most,mean,total,percent\n'
for pattern in line:1 set:4 scan:$lines; do
    awk -v rows=$rows -v lines="${pattern#*:}" -v all=$lines -v step=60 -f "$here/writes.awk" >"$trace"
    for psi in 1 4 16 64 256 65535; do
        wears "${pattern%:*}" 1 $lines $psi
    done
done
awk -v rows=$rows -v lines=1 -v all=$((4 * lines)) -v step=60 -f "$here/writes.awk" >"$trace"
for regions in 1 2 4 8; do
    wears hot $regions $((4 * lines / regions)) 4
done
