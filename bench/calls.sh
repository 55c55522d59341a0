#!/bin/bash
# Times 20,000 calls at three depths of the stack, and a balanced tree of 65,536 equal spans, by the crates that execute. With
# `run` or `check` as its word, it times this command over such calls at the same depths.
bench=$(dirname "$0")
case $1 in
run | check)
    for depth in 26 10000 100000; do
        echo "depth $depth"
        DEPTH=$depth "$bench/$1.sh" calls || exit
    done
    ;;
*)
    exec "$bench/execute.sh" 1.5 calls_16 calls_10000 calls_100000 equal_spans
    ;;
esac
