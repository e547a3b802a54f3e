#!/usr/bin/env python3
"""Makes in.wav: one second of a phrase of four plucked notes, then two seconds of silence.

16-bit mono at 48000 frames a second. It needs Python 3 alone.
"""
import math
import struct
import wave

RATE = 48000
NOTE = RATE // 4
NOTES = (220.0, 261.63, 329.63, 440.0)


def plucked(frequency):
    """One note: a tone with two overtones that dies away, and a soft beginning and end."""
    for place in range(NOTE):
        time = place / RATE
        tone = (math.sin(2 * math.pi * frequency * time)
                + 0.5 * math.sin(4 * math.pi * frequency * time)
                + 0.25 * math.sin(6 * math.pi * frequency * time))
        edge = min(1.0, place / 120, (NOTE - place) / 480)
        yield round(9000 * edge * math.exp(-6 * time) * tone)


samples = [sample for frequency in NOTES for sample in plucked(frequency)]
samples += [0] * (2 * RATE)
with wave.open('in.wav', 'wb') as file:
    file.setnchannels(1)
    file.setsampwidth(2)
    file.setframerate(RATE)
    file.writeframes(struct.pack('<%dh' % len(samples), *samples))
