#!/bin/sh
# What the theorem of a module's life promises some regions, by examples/studies/promise: the numbers that the check computes from the
# theorem's definitions (crates/worked_tables, `promises_are_computed` and `hot_lines_count_in_their_own_region`); then what is promised over
# psi, with the one of most, also in regions of large modules; and what is told where nothing is promised, or where an option is missing,
# unknown or out of range.
# usage: promises.sh
promise=$(dirname "$0")/promise

# asked OPTIONS: the options, what is printed, and the status where it isn't 0
asked() {
    printed=$("$promise" "$@" 2>&1)
    status=$?
    printed=$(echo "$printed" | sed -n '$s/^promise: error: //; $p')
    [ $status = 0 ] || printed="status $status: $printed"
    echo "$*: $printed"
}

asked --lines 64 --psi 100 --lo 100000000
asked --lines 64 --psi 1 --lo 100000000
asked --lines 64 --psi 4000000000 --lo 100000000
asked --lines 64 --psi 100 --lo 100000000 --policy cancel
asked --lines 16 --psi 1 --lo 20000 --others 8
asked --lines 16 --psi 4 --lo 20000 --others 8
asked --lines 16 --psi 4 --lo 20000 --others 8 --hot-lines 3 --cuts 10
asked --lines 4 --psi 1 --lo 402
asked --lines 64 --psi 64 --lo 1000000 --registers array
asked --lines 4 --psi 4 --lo 1000 --cuts 3 --policy cancel --registers array
echo
for psi in 1 4 16 64 256 1024 4096 16384 65535 best; do
    asked --lines 64 --psi $psi --lo 1000000
done
asked --lines 64 --psi 64 --lo 1000000 --spares 8
echo
for psi in 1 95 96 100 best; do
    asked --lines 1048576 --psi $psi --lo 100000000
done
asked --lines 67108864 --psi best --lo 100000000
echo
asked --lines 64 --psi 1 --lo 2
asked --lines 64 --psi 1 --lo 1
asked --lines 64 --psi best --lo 10 --cuts 9
asked --lines 64 --psi 1 --lo 25 --policy cancel --cuts 4
asked --lines 64 --lo 100
asked --lines 64 --psi 1 --lo
asked --lines 0 --psi 1 --lo 100
asked --lines 64 --psi 1.5 --lo 100
asked --lines 64 --psi 1 --lo -1
asked --lines 64 --psi 1 --lo 100 --hot-lines 65
asked --lines 64 --psi 1 --lo 100 --cuts many
asked --lines 64 --psi 1 --lo 100 --spares 1025
asked --lines 64 --psi 1 --lo 100 --policy pausing
asked --lines 64 --psi 1 --lo 100 --hot 2
