#!/bin/sh
# words_of_main.sh PROGRAM: `--version` and `--help` as the only word print one line and the page of usage, with status 0. With
# another word behind them they are words outside the grammar, status 2. A word that isn't UTF-8 is outside it too, and the path
# of the program may be any bytes. What failed is said on standard error, and nothing where all was done.
# The last line is `N passed, N failed`. The status is 0 where none failed.
program=$(cd "$(dirname "$1")" && pwd)/$(basename "$1")
passed=0
failed=0

# try STATUS FIRST_LINE WORD..: runs the words, and compares the status and the first line.
try() {
    status=$1
    line=$2
    shift 2
    text=$("$program" "$@")
    got=$?
    if [ $got -eq "$status" ] && [ "$(printf '%s\n' "$text" | head -n 1)" = "$line" ]; then
        passed=$((passed + 1))
    else
        failed=$((failed + 1))
        echo "$*: status $got, $text"
    fi
}

try 0 'looper 0.1.0' --version
try 0 'looper: records phrases into loops and lets them repeat' --help
try 2 'status 2' --version --help
try 2 'status 2'
try 2 'status 2' "$(printf '\377')"

# say LINE WORD..: runs the words in a fresh folder, and compares the whole of standard error.
say() {
    line=$1
    shift
    said=$(cd "$folder" && "$program" "$@" 2>&1 > /dev/null)
    if [ "$said" = "$line" ]; then
        passed=$((passed + 1))
    else
        failed=$((failed + 1))
        echo "$*: said $said"
    fi
}

folder=$(mktemp -d) || exit 1
trap 'rm -rf "$folder"' EXIT
mkdir "$folder/folder"
say 'looper: these words mean nothing here; looper --help shows what does' render
say 'looper: cannot read folder: Is a directory' show folder
say '' show none
say '' --version
said=$("$program" --version 2>&1 > /dev/full)
[ "$said" = 'looper: cannot write standard output: No space left on device' ] && passed=$((passed + 1)) || {
    failed=$((failed + 1))
    echo "a full disk: said $said"
}
other=$folder/$(printf 'looper\377')
cp "$program" "$other" || exit 1
program=$other
try 0 'looper 0.1.0' --version
echo "$passed passed, $failed failed"
[ $failed -eq 0 ]
