#!/bin/sh
# Times `modcode encode` on a file of 16 MiB of random bytes with the example codes, and prints the best
# of five runs of each, the speed over the data and over the text, and the peak memory where it can be told.
set -eu

top=$(CDPATH='' cd -- "$(dirname -- "$0")/.." && pwd -P)
"$top/modcode" >/dev/null 2>&1 || true
program=$top/crates/modcode/out/modcode
[ -x "$program" ] || { echo "bench: the program could not be built" >&2; exit 1; }

folder=$(mktemp -d)
trap 'rm -rf "$folder"' EXIT
size=16777216
dd if=/dev/urandom of="$folder/data" bs=1048576 count=16 2>/dev/null

now() {
    date +%s%N
}

for code in no_two_zeros mfm; do
    best=
    for _ in 1 2 3 4 5; do
        start=$(now)
        "$program" encode "$top/examples/$code.code" "$folder/data" "$folder/text"
        taken=$((($(now) - start) / 1000000))
        if [ -z "$best" ] || [ "$taken" -lt "$best" ]; then
            best=$taken
        fi
    done
    length=$(wc -c <"$folder/text" | tr -d ' ')
    echo "$code: $size bytes of data, $length bytes of text in $best ms: $((size / 1000 / best)) MB/s of data, $((length / 1000 / best)) MB/s of text"
    if [ -x /usr/bin/time ]; then
        /usr/bin/time -f "$code: peak memory %M KiB" "$program" encode "$top/examples/$code.code" "$folder/data" "$folder/text"
    fi
done
