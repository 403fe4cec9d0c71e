#!/bin/sh
# What power cuts cost, over their rate (cuts for each 1,000 rows of one and the same trace): reads that were lost with the power,
# pulses that were torn or done again (beyond those of the run without cuts), in percent, and the mean ticks from a write's arrival
# to its store. The last column counts accepted writes that were neither stored nor merged nor left in the queue: none ever.
#
# No published result; the shape to expect is that each cut costs at most the work of the moment: one line write a bank and the
# reads that wait. Scaled down: 10,000 rows, and cuts far more often than any power fails. With --full 200,000 rows.
# usage: power_cuts.sh [PROGRAM [--full]]
pcm=${1:-./pcm}
rows=10000
[ "$2" = --full ] && rows=200000
room=$(mktemp -d) && trap 'rm -rf "$room"' EXIT && trap 'exit 1' INT TERM HUP
shape="--regions 8"
# shellcheck disable=SC2086  # the words of the shape
"$pcm" gen --seed 5 --rows $rows --write-percent 50 --step 40 $shape >"$room/whole"
printf 'rate,cuts,reads,lost,stored,pulses,again,write_mean,gone\n'
for rate in 0 1 2 5 10 20 50 100 200; do
    # A cut comes midway between two rows.
    awk -F, -v rate=$rate '
        FNR > 2 { due += rate }
        due >= 1000 { due -= 1000; print int((last + $1) / 2) ",C,," }
        { print; last = $1 }' "$room/whole" >"$room/trace"
    # shellcheck disable=SC2086
    { "$pcm" run --misses 3 $shape --print summary <"$room/trace"; "$pcm" run --misses 3 $shape <"$room/trace"; } |
        awk -F, -v rate=$rate -v least="${least:-0}" '
            FILENAME == ARGV[1] { came[FNR - 1] = $1; writes += $2 == "W"; next }
            NF == 1 { split($1, word, " "); is[word[1]] = word[2] }
            $4 == "stored" { lasts += $5 - came[$1] }
            END {
                if (rate == 0) least = is["pulses"]
                printf "%d,%d,%d,%d,%d,%d,%.2f,%.2f,%d\n", rate, is["cut"], is["read"] + is["forwarded"], is["lost"], is["stored"],
                    is["pulses"], 100 * (is["pulses"] - least) / least, lasts / is["stored"],
                    writes - is["stored"] - is["merged"] - is["queued"] - is["full"] - is["worn"]
            }' "$room/trace" - >"$room/row"
    cat "$room/row"
    if [ $rate = 0 ]; then least=$(cut -d, -f6 "$room/row"); fi
done
