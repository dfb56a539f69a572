#!/usr/bin/env bash
# Runs nbdcheck on each session of examples/ and compares its line and its exit status with what the
# session wants: NAME.cap and NAME.ord are the capture and the order, NAME.start is the value of --start,
# NAME.out the line, NAME.wide, where there is one, the line with --profile wide. A yes wants the status 0,
# a no 1.
set -euo pipefail

top=$(cd "$(dirname "$(readlink -f "${BASH_SOURCE[0]}")")/.." && pwd)
"$top/nbdcheck" --version >/dev/null
cd "$top/examples"

tried=0
wrong=0

# Checks a session, with more words behind, against a line.
try() {
    local name=$1 want=$2 want_status=1 status=0 found
    shift 2
    if [[ $want == yes* ]]; then
        want_status=0
    fi
    found=$("$top/nbdcheck" check "$name.cap" "$name.ord" --start "$(cat "$name.start")" "$@") || status=$?
    tried=$((tried + 1))
    if [ "$found" != "$want" ] || [ "$status" != "$want_status" ]; then
        wrong=$((wrong + 1))
        echo "$name $*: wants '$want', status $want_status; answered '$found', status $status"
    fi
}

for capture in *.cap; do
    name=${capture%.cap}
    try "$name" "$(cat "$name.out")"
    if [ -e "$name.wide" ]; then
        try "$name" "$(cat "$name.wide")" --profile wide
    fi
done
echo "$tried sessions, $wrong wrong"
[ "$wrong" = 0 ]
