#!/bin/sh
# out_over_input.sh PROGRAM: OUT may have the name of IN or of JOURNAL. The run takes what they held when it began.
# The last line is `N passed, N failed`. The status is 0 where none failed.
program=$1
top=$(cd "$(dirname "$0")/.." && pwd) || exit 1
data=$top/crates/looper/data
folder=$(mktemp -d) || exit 1
trap 'rm -rf "$folder"' EXIT
passed=0
failed=0

# What is heard of the samples 1 to 8 with record at 0 and at 4: four frames of silence, then 1 to 4.
{
    head -c 44 "$data/in.wav"
    printf '\0\0\0\0\0\0\0\0\1\0\2\0\3\0\4\0'
} > "$folder/want.wav"
printf 'frames 8 entries 2 replies 0 saves 0 refused 0\nstatus 0\n' > "$folder/want.txt"

# try OUT OTHER: renders with OUT as the third name, and compares OUT, the text, the status and the file OTHER.
try() {
    rm -rf "$folder/run"
    mkdir "$folder/run" && cp "$data/in.wav" "$data/journal.txt" "$folder/run" || exit 1
    (cd "$folder/run" && "$program" render in.wav journal.txt "$1" > ../text)
    status=$?
    if [ $status -eq 0 ] && cmp "$folder/text" "$folder/want.txt" && cmp "$folder/run/$1" "$folder/want.wav" \
        && cmp "$folder/run/$2" "$data/$2" && [ "$(ls "$folder/run" | wc -l)" -eq 2 ]; then
        passed=$((passed + 1))
    else
        failed=$((failed + 1))
        echo "OUT has the name $1: status $status"
    fi
}

try in.wav journal.txt
try journal.txt in.wav
echo "$passed passed, $failed failed"
[ $failed -eq 0 ]
