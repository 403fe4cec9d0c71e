#!/bin/sh
# What four papers publish, beside what this module gives at a scale that streams reach: it runs "$pcm" map and "$pcm" stream, by the
# script `published`, whose head says what differs and why. With --full larger sizes.
# usage: published.sh [PROGRAM [--full]]
pcm=${1:-./pcm}
exec python3 "$(dirname "$0")/published" "$pcm" $2
