#!/bin/sh
# What the theorem of a module's life promises a hot line, beside how long it lives under the attack that the theorem is about: all
# writes go to the line at the first place of one region, each changes every cell of its array line, and so do the copies of the gap.
# For that every other line along the rotation is first stored once with ones, while the rest hold zeros as they were powered up: a copy
# then always finds the opposite bytes. Cells stick at their last change; no spare stands by.
# promised: the most stores of the hot line after which, by the theorem, no cell is stuck; life: how many are made until a line is worn;
# percent: the promised ones of these. stays: how many stays at one place (lines * psi stores) bring as many changes as a cell endures; the
# copies of the gap take some of these.
# Rows: psi (stores before a gap moves; 65535: no moves at this size), then the sizes of regions, then misses. A store takes up to
# misses + 1 pulses, and changes a cell once all the same.
#
# Scaled down: regions of 4 to 64 lines, and 5,120 to 20,480 changes in the place of 10^8 (Qureshi et al., MICRO 2009). With --full
# twice as many lines, and half the changes.
# usage: lifetime.sh [PROGRAM [--full]]
pcm=${1:-./pcm}
here=$(dirname "$0")
full=
[ "$2" = --full ] && full=yes

printf 'lines,psi,changes,misses,stays,promised,life,percent\n'
while read -r lines psi changes misses; do
    [ $full ] && lines=$((2 * lines)) changes=$((changes / 2))
    others=$((lines / 2))
    promised=$("$here/promise" --lines "$lines" --psi "$psi" --lo "$changes" --others "$others")
    "$pcm" map --banks 1 --regions 1 --spares 0 --lines "$lines" | "$here/attack" 400000 |
        "$pcm" run --banks 1 --regions 1 --spares 0 --print summary --lines "$lines" --psi "$psi" --lo "$changes" --hi "$changes" --misses "$misses" |
        awk -v OFS=, -v lines="$lines" -v psi="$psi" -v changes="$changes" -v misses="$misses" -v promised="$promised" -v others="$others" '
            $1 == "stored" {
                life = $2 - others
                print lines, psi, changes, misses, sprintf("%.1f", changes / (lines * psi)), promised, life, sprintf("%.1f", 100 * promised / life)
            }'
done <<SHAPES
16 1 20000 0
16 4 20000 0
16 16 20000 0
16 64 20480 0
16 256 20000 0
16 65535 20000 0
4 256 20480 0
8 64 10240 0
32 16 10240 0
64 16 5120 0
4 32 20480 0
4 32 20480 1
4 32 20480 3
4 32 20480 7
SHAPES
