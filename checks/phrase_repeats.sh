#!/bin/sh
# phrase_repeats.sh FOLDER: says where in FOLDER/out.wav the phrase of FOLDER/in.wav is heard.
# The phrase is the first second: 96000 bytes behind the 44 of the header.
cd "$1" || exit 1

second() {
    tail -c +$((45 + 96000 * $2)) "$1" | head -c 96000
}

phrase=$(second in.wav 0 | cksum)
silence=$(head -c 96000 /dev/zero | cksum)
for at in 0 1 2; do
    case $(second out.wav $at | cksum) in
        "$phrase") echo "out.wav, second $((at + 1)): the phrase of in.wav" ;;
        "$silence") echo "out.wav, second $((at + 1)): silence" ;;
        *) echo "out.wav, second $((at + 1)): something else"; exit 1 ;;
    esac
done
