#!/bin/sh
# How long reads wait, by policy and by how often a cell misses: the mean and the greatest number of ticks from a read's arrival to
# the end of its sense, over one generated trace.
pcm=${1:-./pcm}
options="--banks 1 --regions 1 --lines 64 --seed 3 --rows 20000 --write-percent 40 --step 40"
trace=$(mktemp) && trap 'rm -f "$trace"' EXIT && trap 'exit 1' INT TERM HUP
# shellcheck disable=SC2086  # the words of the options
"$pcm" gen $options >"$trace"
printf 'policy,misses,reads,mean,most\n'
for misses in 0 3 7; do
    for policy in pause plain cancel; do
        # shellcheck disable=SC2086
        "$pcm" run --policy $policy --misses $misses --input drawn $options |
            awk -F, -v policy=$policy -v misses=$misses '
                FNR == NR { came[FNR - 1] = $1; next }
                $4 == "read" { wait = $5 - came[$1]; sum += wait; n++; if (wait > most) most = wait }
                END { printf "%s,%d,%d,%.2f,%d\n", policy, misses, n, sum / n, most }' "$trace" -
    done
done
