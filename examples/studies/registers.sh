#!/bin/sh
# What it costs to keep the controller's registers in the array, beside a guarded memory of their own, over psi: the mean ticks of
# reads and of writes, all pulses of lines and of control lines, and the pulses of the line and of the control line that has most.
#
# No published result. Each store counts in its region's register, so it is followed by the write of a control line; and that line
# is the same for all lines of a region, and no gap moves it: it wears far faster than any line that it serves. Scaled down: 512
# lines and 10,000 rows, half of them writes. With --full 200,000 rows.
# usage: registers.sh [PROGRAM [--full]]
pcm=${1:-./pcm}
rows=10000
[ "$2" = --full ] && rows=200000
came=$(mktemp) && trap 'rm -f "$came"' EXIT && trap 'exit 1' INT TERM HUP
drawn="--seed 3 --rows $rows --write-percent 50 --step 40"
# shellcheck disable=SC2086  # the words of the options
"$pcm" gen $drawn | cut -d, -f1 >"$came"
printf 'psi,registers,stored,read_mean,write_mean,line_pulses,control_pulses,line_most,control_most\n'
for psi in 1 10 100; do
    for registers in guarded array; do
        words="run --registers $registers --psi $psi --input drawn $drawn"
        # shellcheck disable=SC2086
        { "$pcm" $words && "$pcm" $words --print wear; } |
            awk -F, -v psi=$psi -v registers=$registers '
                FILENAME == ARGV[1] { came[FNR - 1] = $1; next }
                $4 == "read" { reads++; waits += $5 - came[$1] }
                $4 == "stored" { stored++; lasts += $5 - came[$1] }
                NF == 4 && $3 ~ /^[0-9]/ {
                    kind = $4 == "control" ? "control" : "line"
                    sum[kind] += $3
                    if ($3 > most[kind]) most[kind] = $3
                }
                END { printf "%d,%s,%d,%.2f,%.2f,%d,%d,%d,%d\n", psi, registers, stored, waits / reads, lasts / stored,
                    sum["line"], sum["control"], most["line"], most["control"] }' "$came" -
    done
done
