#!/bin/sh
# How long lines live with six error-correcting pointers, over how far the endurance of cells is spread around its mean of 200
# changes: the share of lines that needed no pointer so far (intact; without correction no other line would live), the share that
# is not retired yet (alive), and the spares that are used, after so many writes of each line. Rows that say nothing new are left out.
#
# The shape is that of Schechter et al., ISCA 2010, blocks alive over writes: with pointers lines live longer, the more so the wider
# endurance is spread, and then fall steeply. Scaled down: 32 lines, and cells that last 200 changes in the place of 10^8; each
# write changes about half of a line's cells. Endurance is spread evenly from mean - spread to mean + spread (percent), where the
# paper has a normal distribution, so the weakest cells are not as far apart. With --full cells that last 1,000 changes.
# usage: wear_out.sh [PROGRAM [--full]]
pcm=${1:-./pcm}
lines=32
mean=200
writes=330
step=2
[ "$2" = --full ] && mean=1000 writes=1650 step=10
here=$(dirname "$0")
trace=$(mktemp) && trap 'rm -f "$trace"' EXIT && trap 'exit 1' INT TERM HUP
awk -v rows=$((lines * writes)) -v lines=$lines -v step=4000 -f "$here/writes.awk" >"$trace"
printf 'spread,writes,intact,alive,spares\n'
for spread in 10 25 50 75; do
    "$pcm" run --banks 1 --regions 1 --lines $lines --spares 1024 --psi 65535 \
        --lo $((mean - mean * spread / 100)) --hi $((mean + mean * spread / 100)) <"$trace" |
        awk -F, -v spread=$spread -v lines=$lines -v step=$step '
            # A write of one sense and one pulse lasts 15 ticks; a longer one needed a pointer. Spares stand behind the region.
            NR == 1 { next }
            $5 - 4000 * ($1 - 1) > 15 && !hurt[$3]++ { intact++ }
            $6 > lines && !gone[$3]++ { dead++ }
            $6 - lines > spares { spares = $6 - lines }
            $1 % (lines * step) == 0 || $1 == lines {
                row = sprintf("%.3f,%.3f,%d", 1 - intact / lines, 1 - dead / lines, spares)
                if (row != last) print spread "," $1 / lines "," row
                last = row
            }'
done
