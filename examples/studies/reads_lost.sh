#!/bin/sh
# What power cuts cost: of 20,000 rows, the reads that were lost with the power, the reads that were answered, and the pulses that
# torn and repeated writes took. No accepted write is ever lost.
pcm=${1:-./pcm}
printf 'cuts,lost,answered,stored,queued,pulses\n'
for cuts in 0 10 100 1000 5000; do
    "$pcm" run --banks 1 --regions 1 --lines 64 --seed 5 --misses 3 --print summary \
        --input drawn --rows 20000 --write-percent 50 --step 30 --cuts $cuts |
        awk -v cuts=$cuts '{ is[$1] = $2 }
            END { printf "%d,%d,%d,%d,%d,%d\n", cuts, is["lost"], is["read"] + is["forwarded"], is["stored"], is["queued"], is["pulses"] }'
done
