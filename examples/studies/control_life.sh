#!/bin/sh
# What the theorem of a module's life promises with registers in the array, beside how long they live: all writes go to one line of a
# region of four, each with the opposite bytes. No gap moves the region's control line, which is written for each store and each move, so
# it wears out first; then no write is stored any more, and the next ones stay in the queue.
# promised: the most stores after which, by the theorem, no cell of a slot's own line or of a control line is stuck; life: how many are
# made until the control line is worn. Pointers stand behind its cells that stick first, so it lives longer.
# usage: control_life.sh [PROGRAM]
pcm=${1:-./pcm}
here=$(dirname "$0")

printf 'psi,changes,misses,promised,life\n'
for misses in 0 7; do
    for psi in 1 4 16; do
        promised=$("$here/promise" --lines 4 --psi $psi --lo 1000 --registers array)
        awk 'BEGIN {
            print "tick,op,arg,data"
            for (k = 0; k < 6000; k++) {
                printf "%d,W,0,", k * 500
                for (part = 0; part < 16; part++) printf k % 2 ? "00000000" : "ffffffff"
                print ""
            }
        }' | "$pcm" run --banks 1 --regions 1 --lines 4 --spares 2 --psi $psi --registers array --lo 1000 --hi 1000 --misses $misses --print summary |
            awk -F '[ ,]' -v OFS=, -v psi=$psi -v misses=$misses -v promised="$promised" '$1 == "stored" { print psi, 1000, misses, promised, $2 }'
    done
done
