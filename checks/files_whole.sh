#!/bin/sh
# files_whole.sh PROGRAM: whatever happens to a run, the file that it writes is the old one or the new one, and where the
# program goes on to its end it leaves no other file behind. Two programs in one folder write their own files. A file that doesn't
# fit into memory changes nothing.
# The last line is `N passed, N failed`. The status is 0 where none failed.
program=$1
top=$(cd "$(dirname "$0")/.." && pwd) || exit 1
data=$top/crates/looper/data
folder=$(mktemp -d) || exit 1
trap 'chmod -R u+w "$folder"; rm -rf "$folder"' EXIT
passed=0
failed=0

# A second of sound, 300 times: frames whose samples differ from one another. Its size in bytes stands in the header.
seconds=300
size=$((96000 * seconds))
byte() {
    printf "\\$(printf %03o $(($1 % 256)))"
}
number() {
    byte "$1" && byte $(($1 / 256)) && byte $(($1 / 65536)) && byte $(($1 / 16777216))
}
# wave SIZE: a WAV file of so many bytes of sound.
wave() {
    printf 'RIFF' && number $(($1 + 36)) && printf 'WAVEfmt \020\0\0\0\1\0\1\0'
    number 48000 && number 96000 && printf '\2\0\020\0data' && number "$1"
    head -c "$1" "$folder/part"
}
head -c $size "$program" > "$folder/part"
while [ "$(wc -c < "$folder/part")" -lt $size ]; do
    cat "$folder/part" "$folder/part" | head -c $size > "$folder/more" && mv "$folder/more" "$folder/part"
done
wave $size > "$folder/in.wav"
printf 'looper journal 1\n0 0 0 hit 0 record\n48000 0 1 hit 0 record\nend\n' > "$folder/journal.txt"
printf 'the old file\n' > "$folder/old.wav"

# begin: a fresh folder to run in, with an old OUT.
begin() {
    rm -rf "$folder/run"
    mkdir "$folder/run" && cp "$folder/in.wav" "$folder/journal.txt" "$folder/run" || exit 1
    cp "$folder/old.wav" "$folder/run/out.wav"
}

# render OUT: the status and the text of a run there.
render() {
    (cd "$folder/run" && "$program" render in.wav journal.txt "$1" > ../text)
}

# holds FILE OTHER: FILE of the run has the bytes of OTHER.
holds() {
    cmp -s "$folder/run/$1" "$folder/$2"
}

# has COUNT: so many files stand in the folder of the run, hidden ones counted.
has() {
    [ "$(find "$folder/run" -mindepth 1 -maxdepth 1 | wc -l)" -eq "$1" ]
}

# judge TITLE: counts what the command before it answered.
judge() {
    if [ $? -eq 0 ]; then
        passed=$((passed + 1))
    else
        failed=$((failed + 1))
        echo "$1: status $status, $(cat "$folder/text")"
    fi
}

begin
start=$(date +%s%N)
render new.wav
status=$?
took=$((($(date +%s%N) - start) / 1000000))
mv "$folder/run/new.wav" "$folder/new.wav"
[ $status -eq 0 ] && has 3
judge "a whole run"

# A limit on the size of a file, met as an error and as a signal.
begin
(trap '' XFSZ && ulimit -f 100 && render out.wav)
status=$?
[ $status -eq 5 ] && holds out.wav old.wav && has 3
judge "a limit on the size of a file"
(ulimit -c 0 && ulimit -f 100 && render out.wav) 2> /dev/null
status=$?
[ $status -gt 128 ] && holds out.wav old.wav
judge "a limit that stops the program"
render out.wav
status=$?
[ $status -eq 0 ] && holds out.wav new.wav && has 3
judge "a run after one that was stopped"

# A stop in the middle, at 20 moments of the time that a whole run took, with OUT beside IN and over it.
stopped=0
for moment in $(seq 1 20); do
    for out in out.wav in.wav; do
        begin
        (cd "$folder/run" && exec "$program" render in.wav journal.txt $out > ../text) &
        sleep "$(awk "BEGIN { print $took * $moment / 20000 }")"
        kill -9 $! 2> /dev/null
        wait $! 2> /dev/null
        status=$?
        [ $status -eq 0 ] || stopped=$((stopped + 1))
        case $out in
            out.wav) { holds out.wav old.wav || holds out.wav new.wav; } && holds in.wav in.wav ;;
            in.wav) { holds in.wav in.wav || holds in.wav new.wav; } && holds out.wav old.wav ;;
        esac
        judge "a stop at $moment of 20, over $out"
    done
done
echo "$stopped of 40 runs were stopped before their end"

# Two programs in one folder, 200 times: each OUT is whole and its own.
begin
wave 100000 > "$folder/run/first.wav" && wave 60000 > "$folder/run/second.wav"
alone() {
    (cd "$folder/run" && exec "$program" render "$1.wav" journal.txt "$2" > ../text)
}
for name in first second; do
    alone $name out.wav && mv "$folder/run/out.wav" "$folder/$name.wav"
done
mixed=0
for pair in $(seq 1 200); do
    alone first one.wav &
    alone second two.wav
    status=$?
    wait $! && [ $status -eq 0 ] && holds one.wav first.wav && holds two.wav second.wav && has 6 || mixed=$((mixed + 1))
    rm -f "$folder/run/one.wav" "$folder/run/two.wav"
done
[ $mixed -eq 0 ]
judge "two programs in one folder, of which $mixed of 200 pairs mixed their files"

# A folder that can't be written. Root writes there all the same.
if [ "$(id -u)" -ne 0 ]; then
    begin
    chmod a-w "$folder/run"
    render out.wav
    status=$?
    chmod u+w "$folder/run"
    [ $status -eq 5 ] && holds out.wav old.wav && has 3
    judge "a folder that can't be written"
else
    echo "a folder that can't be written: passed over as root"
fi

# A disk that doesn't take the new file: the system's call that puts it there fails. This needs a C compiler.
if command -v cc > /dev/null; then
    printf '#include <errno.h>\nint fsync(int file) { (void)file; errno = EIO; return -1; }\n' > "$folder/fsync.c"
    cc -shared -fPIC -o "$folder/fsync.so" "$folder/fsync.c" || exit 1
    begin
    (LD_PRELOAD=$folder/fsync.so render out.wav)
    status=$?
    [ $status -eq 5 ] && holds out.wav old.wav && has 3
    judge "a file that isn't put on the disk"
else
    echo "a file that isn't put on the disk: passed over without a C compiler"
fi

# A name that no file can take.
begin
mkdir "$folder/run/folder"
render folder
status=$?
[ $status -eq 5 ] && [ -d "$folder/run/folder" ] && has 4
judge "OUT is a folder"

# Links: OUT becomes a file of its own, and what it was linked with stays as it was.
begin
mv "$folder/run/out.wav" "$folder/run/other.wav" && ln -s other.wav "$folder/run/out.wav"
render out.wav
status=$?
[ $status -eq 0 ] && [ ! -L "$folder/run/out.wav" ] && holds out.wav new.wav && holds other.wav old.wav
judge "OUT is a symbolic link"
begin
ln "$folder/run/out.wav" "$folder/run/other.wav"
render out.wav
status=$?
[ $status -eq 0 ] && holds out.wav new.wav && holds other.wav old.wav
judge "OUT is a hard link"

# What lies under the new file's own name is written over and never through.
begin
mv "$folder/run/out.wav" "$folder/run/other.wav" && ln -s other.wav "$folder/run/.looper-new"
render out.wav
status=$?
[ $status -eq 0 ] && holds out.wav new.wav && holds other.wav old.wav && has 4
judge "a link under the new file's name"

# Files that don't fit into memory: nothing is told, and nothing is written.
for name in in.wav journal.txt; do
    begin
    truncate -s 3G "$folder/run/$name"
    (ulimit -v 524288 && render out.wav)
    status=$?
    [ $status -eq 8 ] && [ ! -s "$folder/text" ] && holds out.wav old.wav && has 3
    judge "$name doesn't fit into memory"
done

echo "$passed passed, $failed failed"
[ $failed -eq 0 ]
