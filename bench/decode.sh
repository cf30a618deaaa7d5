#!/bin/sh
# Times `modcode decode` on the text of a file of random bytes, one MiB or as many as the first word says,
# with the example codes: prints the best of three runs of each, the speed over the data, and the peak
# memory where it can be told. Each run must give the file back.
set -eu

top=$(CDPATH='' cd -- "$(dirname -- "$0")/.." && pwd -P)
"$top/modcode" >/dev/null 2>&1 || true
program=$top/crates/modcode/out/modcode
[ -x "$program" ] || { echo "bench: the program could not be built" >&2; exit 1; }

folder=$(mktemp -d)
trap 'rm -rf "$folder"' EXIT
size=$((${1:-1} * 1048576))
dd if=/dev/urandom of="$folder/data" bs=1048576 count="${1:-1}" 2>/dev/null

now() {
    date +%s%N
}

for code in no_two_zeros mfm; do
    "$program" encode "$top/examples/$code.code" "$folder/data" "$folder/text" >/dev/null
    best=
    for _ in 1 2 3; do
        start=$(now)
        "$program" decode "$top/examples/$code.code" "$folder/text" "$folder/again" >/dev/null
        taken=$((($(now) - start) / 1000000))
        cmp "$folder/data" "$folder/again"
        if [ -z "$best" ] || [ "$taken" -lt "$best" ]; then
            best=$taken
        fi
    done
    echo "$code: $size bytes of data in $best ms: $((size / (best + 1))) KB/s"
    if [ -x /usr/bin/time ]; then
        /usr/bin/time -f "$code: peak memory %M KiB" "$program" decode "$top/examples/$code.code" "$folder/text" "$folder/again" >/dev/null
    fi
done
