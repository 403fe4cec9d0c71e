#!/bin/sh
# How long reads wait for writes, over load (rows that arrive in 1,000 ticks, three of ten being writes): the mean and the greatest
# number of ticks from a read's arrival to the end of its sense, for each policy; and what writes pay, as the mean ticks from a
# write's arrival to its store, and pulses for each store. A sense alone lasts 5 ticks; a write takes a sense and about four
# iterations of 10, since cells miss up to three times.
#
# The shape is that of Qureshi et al., HPCA 2010: writes that run on make reads slow, pausing between iterations takes most of that
# away, cancelling the iteration nearly all, at the price of pulses that are done again. Scaled down: four banks, 4,000 rows and an
# even mix in the place of programs. With --full 100,000 rows.
# usage: pausing.sh [PROGRAM [--full]]
pcm=${1:-./pcm}
rows=4000
[ "$2" = --full ] && rows=100000
came=$(mktemp) && trap 'rm -f "$came"' EXIT && trap 'exit 1' INT TERM HUP
printf 'load,policy,reads,mean,most,stored,write_mean,pulses\n'
for step in 200 100 50 40 25 20 16 12 10; do
    drawn="--seed 3 --rows $rows --write-percent 30 --step $step"
    # shellcheck disable=SC2086  # the words of the options
    "$pcm" gen $drawn | cut -d, -f1 >"$came"
    for policy in plain pause cancel; do
        words="run --policy $policy --misses 3 --input drawn $drawn"
        # shellcheck disable=SC2086
        { "$pcm" $words --print summary && "$pcm" $words; } |
            awk -F, -v step=$step -v policy=$policy '
                FILENAME == ARGV[1] { came[FNR - 1] = $1; next }
                $1 ~ /^pulses / { split($1, word, " "); pulses = word[2] }
                $4 == "read" { wait = $5 - came[$1]; reads++; waits += wait; if (wait > most) most = wait }
                $4 == "stored" { stored++; lasts += $5 - came[$1] }
                END { printf "%d,%s,%d,%.2f,%d,%d,%.1f,%.2f\n", 2000 / step, policy, reads, waits / reads, most, stored,
                    lasts / stored, pulses / stored }' "$came" -
    done
done
