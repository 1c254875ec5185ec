#!/bin/sh
# Random scripts of eighty lines against a plain model of lists: random_runs.sh [COUNT], line by line and, each fourth, with callers on threads. What is
# printed and what stands on the disk is the model's, in the order in which the calls were made. It needs python3.
set -eu
. "$(dirname "$0")/lib.sh"
tests=$top/tests
export PYTHONDONTWRITEBYTECODE=1

# compare SEED WORD..: the script of that seed, run with these words over a new disk, is as the model has it.
compare() {
    seed=$1
    shift
    words=$(python3 "$tests/disk_model.py" "$seed" "$work")
    (cd "$work" && "$top/voice" format $words)
    (cd "$work" && "$top/voice" run random.vs "$@") >"$work/.out" || return 1
    python3 "$tests/disk_model.py" "$seed" "$work" "$work/.out"
}

count=${1:-200}
for seed in $(seq "$count"); do
    compare "$seed" || expect "eighty random lines of seed $seed" false
    [ "$((seed % 4))" != 0 ] || compare "$seed" --threads || expect "eighty random lines of seed $seed on threads" false
done
expect "$count random scripts, and each fourth on threads" true
finish
