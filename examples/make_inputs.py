#!/usr/bin/env python3
"""Makes in.wav of each example, beside which it stands: phrases of one second, and silence.

16-bit mono. The first loop has 48000 frames a second, the others 16000. It needs Python 3 alone.
"""
import math
import os
import struct
import wave

HERE = os.path.dirname(os.path.abspath(__file__))
PHRASE = (220.0, 261.63, 329.63, 440.0)
MELODY = (659.26, 587.33, 523.25, 493.88, 440.0, 493.88, 523.25, 587.33)
ANSWER = (329.63, 392.0, 440.0, 523.25, 493.88, 440.0, 392.0, 349.23)
BASS = (110.0, 110.0, 82.41, 98.0)


def plucked(rate, frequency, frames, level):
    """One note: a tone with two overtones that dies away, and a soft beginning and end."""
    for place in range(frames):
        time = place / rate
        tone = (math.sin(2 * math.pi * frequency * time)
                + 0.5 * math.sin(4 * math.pi * frequency * time)
                + 0.25 * math.sin(6 * math.pi * frequency * time))
        edge = min(1.0, place * 400 / rate, (frames - place) * 100 / rate)
        yield round(level * edge * math.exp(-6 * time) * tone)


def notes(rate, frequencies, level):
    """One second of notes of one length."""
    frames = rate // len(frequencies)
    return [sample for frequency in frequencies for sample in plucked(rate, frequency, frames, level)]


def clicks(rate):
    """One second of four soft clicks."""
    click = [round(6000 * math.exp(-place / 40) * math.sin(place / 2)) for place in range(400)]
    return (click + [0] * (rate // 4 - len(click))) * 4


def write(example, rate, seconds):
    """Writes the seconds one after another; None is a silent one."""
    samples = [sample for second in seconds for sample in (second or [0] * rate)]
    with wave.open(os.path.join(HERE, example, 'in.wav'), 'wb') as file:
        file.setnchannels(1)
        file.setsampwidth(2)
        file.setframerate(rate)
        file.writeframes(struct.pack('<%dh' % len(samples), *samples))


def main():
    write('first-loop', 48000, [notes(48000, PHRASE, 9000), None, None])
    rate = 16000
    phrase = notes(rate, PHRASE, 6000)
    melody = notes(rate, MELODY, 4000)
    answer = notes(rate, ANSWER, 4000)
    bass = notes(rate, BASS, 6000)
    write('layers', rate, [phrase, None, melody, None, None, None, clicks(rate), None, None])
    write('multiply-and-insert', rate, [phrase, melody, answer, None, None, bass, None, None, None])
    write('two-loops', rate, [phrase, None, melody, None, None, None, None])
    write('saved-session', rate, [phrase, bass, None, None])
    write('live', rate, [None, phrase, None, melody, None, None, None, None, None])


main()
