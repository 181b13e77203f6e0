"""Instructions that a course takes inside the parts that are measured: on x86-64 by valgrind's callgrind, on another machine, where both sides run in an
emulator, by count.sh; x86-64 instructions either way."""
import os
import re
import shutil
import subprocess

import playing

COUNT = os.path.join(playing.ROOT, 'benchmark', 'count.sh')
# the measured parts, by the names that program/on_gilrs.rs and program/on_hub.rs give them
TAKES = {'gilrs': 'take_all', 'hub': 'pump_records'}
READS = {'hub': 'read_events'}
ASKS = {'gilrs': 'ask_pressed', 'hub': 'ask_hub'}


def missing():
    """What counting lacks here, or None."""
    if playing.NATIVE:
        return None if shutil.which('valgrind') else 'no valgrind'
    probed = subprocess.run([COUNT, playing.PROGRAM, TAKES['hub'], 'hub'], input=playing.course('bare-0', 1), capture_output=True)
    return None if probed.returncode == 0 else probed.stderr.decode().strip()


def collected(side, names, given):
    if playing.NATIVE:
        parts = (f'--toggle-collect=*{name}*' for name in names)
        words = ['valgrind', '--tool=callgrind', '--callgrind-out-file=/dev/null', *parts, playing.PROGRAM, side]
    else:
        words = [COUNT, playing.PROGRAM, '|'.join(names), side]
    return int(re.search(r'Collected : (\d+)', playing.run(words, given)[1]).group(1))


def instructions(side, parts, name, rounds=1):
    """Of a round: what 2n rounds take over n."""
    names = [part[side] for part in parts if side in part]
    once, twice = (collected(side, names, playing.course(name, n)) for n in (rounds, 2 * rounds))
    return (twice - once) / rounds
