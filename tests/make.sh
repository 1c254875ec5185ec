#!/bin/sh
# Generated scripts, by the built program: the line is that of a run of the script as tests/made_script.py generates it, it tells what an audit then counts, and it is the same on disks that were formatted alike.
set -eu
. "$(dirname "$0")/lib.sh"

usage='voice: usage: voice format|run|make
'
for words in 'make' 'make 7' 'make 7 0' 'make 7 65536' 'make 7 2000 1' 'make 07 1' 'make 18446744073709551616 1' 'make -1 1' 'make 7 1x' 'make seed 1'; do
    # shellcheck disable=SC2086
    check "refused: $words" 2 '' "$usage" $words
done
# Its script is one replace of ropes that are not there.
check 'one line' 0 'entries 1 ropes 0 samples 0 blocks 0 sum 2596
' '' make 1 1

# voice WORD..: the program in $work, over the disk that is there.
voice() { (cd "$work" && "$top/voice" "$@"); }

# formatted BLOCKS: a disk of so many blocks, just formatted.
formatted() {
    rm -f "$work/voice.disk"
    head -c 8388608 /dev/zero >"$work/voice.disk"
    voice format --block 4096 --blocks "$1" --area 65536 --grace 60
}

# counted: what an audit counts.
counted() { voice audit | awk '$1 == "rope" { ropes++; samples += $4 } $1 == "blocks" { used = $3 } END { print "ropes " ropes + 0 " samples " samples + 0 " blocks " used }'; }

# summed: how many entries a run printed, and the sum of its bytes.
summed() { python3 -c 'import sys; text = open(sys.argv[1], "rb").read(); print(text.count(b"\n"), sum(text) % 2**32)' "$work/printed"; }

for blocks in 16 1000; do
    for seed in 1 2 3 4 18446744073709551615; do
        formatted "$blocks"
        line=$(voice make "$seed" 300)
        audit=$(counted)
        formatted "$blocks"
        expect "seed $seed over $blocks blocks again" [ "$(voice make "$seed" 300)" = "$line" ]
        formatted "$blocks"
        python3 "$top/tests/made_script.py" "$work" "$seed" 300
        voice run made.vs >"$work/printed"
        run=$(summed)
        expect "seed $seed over $blocks blocks: $line" [ "$line" = "entries ${run% *} $audit sum ${run#* }" ]
    done
done
expect 'two thousand lines' [ "$(formatted 1000 && voice make 7 2000)" = "$(formatted 1000 && voice make 7 2000)" ]
finish
