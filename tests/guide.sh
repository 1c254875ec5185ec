#!/bin/sh
# The command blocks of docs/GUIDE.md, and those of README.md behind which a block says what they print: each runs in a fresh folder that has the
# files of examples/, with the program and tests/ on the PATH. Blocks that call sox are left out where this machine has none.
set -eu
. "$(dirname "$0")/lib.sh"
tests=$top/tests
export PYTHONDONTWRITEBYTECODE=1
mkdir "$work/bin"
printf '#!/bin/sh\nexec "%s/voice" "$@"\n' "$top" >"$work/bin/voice"
chmod +x "$work/bin/voice"

# run_blocks DOCUMENT: each of its blocks prints what is said behind it.
run_blocks() {
    rm -rf "$work/blocks"
    mkdir "$work/blocks"
    awk -v out="$work/blocks" -f "$tests/blocks.awk" "$top/$1"
    for block in "$work"/blocks/*.text; do
        [ -e "$block" ] || continue
        block=${block%.text}
        rm -rf "$work/fresh"
        mkdir "$work/fresh"
        cp "$top"/examples/* "$work/fresh"
        rm -f "$work/fresh/voice.disk"
        if grep -q '^sox ' "$block.sh" && ! command -v sox >/dev/null; then
            echo "left out: the block of $1 at line $(cat "$block.line"), since there is no sox"
            continue
        fi
        (cd "$work/fresh" && PATH="$work/bin:$tests:$PATH" sh "$block.sh") >"$work/.out" 2>&1 || true
        expect "the block of $1 at line $(cat "$block.line")" diff "$block.text" "$work/.out"
    done
}

run_blocks docs/GUIDE.md
expect 'each block of the guide says what it prints' [ "$(ls "$work/blocks" | grep -c 'sh$')" = "$(ls "$work/blocks" | grep -c 'text$')" ]
expect 'the guide has blocks' [ "$(ls "$work/blocks" | grep -c 'text$')" -ge 15 ]
run_blocks README.md
finish
