#!/bin/sh
# How a large region spreads the writes of one hot line and of a hot twentieth of its lines: it runs "$pcm" stream, by the script
# `large_region`, whose head has the columns. With --full a region of 2^20 lines.
# usage: large_region.sh [PROGRAM [--full]]
pcm=${1:-./pcm}
exec python3 "$(dirname "$0")/large_region" "$pcm" $2
