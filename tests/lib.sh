# Words for the checks of this folder, which run the built program and compare what it does.
top=$(cd "$(dirname "$0")/.." && pwd)
work=$(mktemp -d)
trap 'rm -rf "$work"' EXIT
passed=0
failed=0

# check NAME STATUS STDOUT STDERR WORD..: the program, run in $work on these words over a disk file that it makes anew, ends so.
check() {
    name=$1 want_status=$2 want_out=$3 want_err=$4
    shift 4
    rm -rf "$work/voice.disk"
    status=0
    (cd "$work" && "$top/voice" "$@") >"$work/.out" 2>"$work/.err" || status=$?
    printf '%s' "$want_out" >"$work/.want_out"
    printf '%s' "$want_err" >"$work/.want_err"
    if [ "$status" = "$want_status" ] && cmp -s "$work/.out" "$work/.want_out" && cmp -s "$work/.err" "$work/.want_err"; then
        passed=$((passed + 1))
    else
        failed=$((failed + 1))
        echo "FAILED $name: status $status, wanted $want_status; standard output and error:"
        cat "$work/.out" "$work/.err"
    fi
}

# expect NAME COMMAND..: the command succeeds.
expect() {
    name=$1
    shift
    if "$@"; then
        passed=$((passed + 1))
    else
        failed=$((failed + 1))
        echo "FAILED $name"
    fi
}

finish() {
    echo "$passed passed, $failed failed"
    [ "$failed" = 0 ]
}
