#!/bin/sh
# A whole life of a hot line beside the promised one, over cells of a million changes: the attack of lifetime.sh on a region of 64 lines,
# replayed as a stream, which takes as many rows as a life has.
# promised: the most stores of the hot line after which, by the theorem of a module's life, no cell is stuck; life: how many are made until
# a line is worn and the next write is refused, as no spare stands by (0: none was); more: those that weren't promised; percent: those
# that were.
# Rows: psi (stores before a gap moves), the one that promises most among them; 65535: a stay at one place is longer than a cell endures.
#
# Scaled down: 1,000 changes. With --full a million, some 160 million stores in all; long_life.full has what that printed, on what, and when.
# usage: long_life.sh [PROGRAM [--full]]
pcm=${1:-./pcm}
here=$(dirname "$0")
lines=64
changes=1000
psis='1 4 best 65535'
[ "$2" = --full ] && changes=1000000 psis='1 256 best 65535'
others=$((lines / 2))

printf 'lines,psi,changes,promised,life,more,percent\n'
for psi in $psis; do
    promised=$("$here/promise" --lines $lines --psi "$psi" --lo $changes --others $others)
    [ "$psi" = best ] && psi=${promised% *} promised=${promised#* }
    rows=$((promised + promised / 10 + 4 * lines)) # more than a life has
    "$pcm" map --banks 1 --regions 1 --spares 0 --lines $lines | "$here/attack" $rows |
        "$pcm" stream --banks 1 --regions 1 --spares 0 --print summary --lines $lines --psi "$psi" --lo $changes --hi $changes |
        awk -v lines=$lines -v psi="$psi" -v changes=$changes -v promised="$promised" -v others=$others '
            $1 == "stored" { stored = $2 - others }
            $1 == "worn" && $2 > 0 { life = stored }
            END { printf "%d,%d,%d,%d,%d,%d,%.4f\n", lines, psi, changes, promised, life, life - promised, 100 * promised / stored }'
done
