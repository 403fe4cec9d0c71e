#!/bin/sh
# How evenly gap moves spread wear: nine of ten writes go to two lines of one region of 64. For each psi (stores before a gap moves):
# the pulses of the most pulsed array line, of the mean one, and what the moves cost.
pcm=${1:-./pcm}
printf 'psi,most,mean,total\n'
for psi in 1 4 16 64 65535; do
    "$pcm" run --banks 1 --regions 1 --lines 64 --spares 0 --psi $psi --print wear \
        --input drawn --rows 20000 --write-percent 100 --step 60 --hot 2 --write-queue 1 |
        awk -F, -v psi=$psi 'NR > 1 { sum += $3; n++; if ($3 > most) most = $3 }
            END { printf "%d,%d,%.1f,%d\n", psi, most, sum / n, sum }'
done
