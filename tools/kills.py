#!/usr/bin/env python3
"""Plays a host to `rdr client` that kills its connections, or both sides, of which either is killed: kills.py [--sides] [--sessions N] [--first N] [--seed N] [--jobs N] [PROGRAM]

A session runs PROGRAM (bin/rdr) on the devices of an example that has a recording, with 1 to 16 workers and 20 channels. On each the host says what it
says on a channel of the recording: the opening, and the requests up to 100 times. At a byte that is drawn, every other time between two frames, it
closes the connection, or shuts it down before that in one direction or both, in some of these four ways. A Unix socket is reset where bytes are unread
as it is closed, so on some channels the host reads nothing. The same seed draws the same sessions.

A session is to end within 20 seconds of a kill, with status 0, 4 or 5, to take no more than 16 MB, and to print whole lines: one for each device, and
after them that of a wrong channel where the status is 4.

With `--sides` a session runs both sides. Up to 16 applications play the lines of the example's applications up to 20 times, with `drop` and `connect` between. At moments
that are drawn, up to three times, one side is killed, and mostly begins anew there; a client that ended while a host is there begins anew too. Each side that
isn't killed is to end within 20 seconds, with status 0 or 5, and to take no more than 64 MB, most of it what was read; and a host then tells one outcome of each line, as sessions.py has it.
The seed draws the scripts and the kills, but not what the system makes of them.

What isn't so is printed, then one line that sums up; the status is 1 if anything wasn't. The script stands outside the proofs, and needs Linux."""
import argparse
import collections
import concurrent.futures
import contextlib
import pathlib
import random
import re
import select
import socket
import struct
import subprocess
import sys
import tempfile
import time

import sessions
from sides import DEVICES, HOST, LIMIT, TOP, Bad, Side, channels_of, splits

LINE = re.compile(rb'device \d+ ran \d+|channel \d+ at \d+ \w+( in \d+)?')
PEAK, PEAK_OF_SIDES = 16384, 65536


def examples():
    """The lines of each example that are for its devices, and the channels of its recording."""
    for script in sorted((TOP / 'examples').glob('*.script')):
        lines = [line for line in script.read_text().splitlines() if line.split(' ')[0] in (*DEVICES, 'folder', 'file', 'fill')]
        yield lines, channels_of(script.with_suffix('.rec').read_bytes(), HOST)


def said(channel, rounds):
    """The host's frames on a channel, those from the first request on so many times. Each request has a completion id of its own."""
    first = next((place for place, frame in enumerate(channel) if frame[12:16] == b'rDRI'), len(channel))
    frames = channel[:first] + channel[first:] * rounds
    for place, frame in enumerate(frames):
        if frame[12:16] == b'rDRI':
            frames[place] = frame[:24] + struct.pack('<I', place) + frame[28:]
    return frames


def send(link, data, piece, reads):
    """Sends bytes in such pieces, until the client is gone; and where nothing is read, until there is no room for a second."""
    while data:
        readable, writable, _ = select.select([link] if reads else [], [link], [], LIMIT if reads else 1)
        if readable and not link.recv(65536) or not (reads or writable):
            return
        if writable:
            data = data[link.send(data[:piece]):]
        elif not readable:
            raise Bad('it takes nothing')


def kill(link, frames, way, rng):
    """Sends the frames up to a byte that is drawn, and shuts the connection down there, in the directions of this way if there is one."""
    data = b''.join(frames)
    cut = rng.choice((rng.randint(0, len(data)), len(b''.join(frames[:rng.randint(0, len(frames))]))))
    piece, reads = rng.choice((16, 400, 65536)), rng.random() < 0.6
    link.setblocking(False)
    send(link, data[:cut], piece, reads)
    if way is not None:
        link.shutdown(way)
    if way == socket.SHUT_RD:
        send(link, data[cut:], piece, False)
    while way == socket.SHUT_WR:
        if not select.select([link], [], [], LIMIT)[0]:
            raise Bad('it keeps a channel that is over')
        if not link.recv(65536):
            break


def play(program, lines, channels, rng, folder):
    """Plays a session: its status, its peak memory in kilobytes, and how many channels it had."""
    path, peak, count, killed = folder + '/s', 0, 0, time.monotonic()
    ways = rng.sample((None, socket.SHUT_RD, socket.SHUT_WR, socket.SHUT_RDWR), rng.randint(1, 4))
    script = '\n'.join(['workers %d' % rng.randint(1, 16), 'channels 20', *lines, ''])
    with socket.socket(socket.AF_UNIX) as door:
        door.bind(path)
        door.listen(1)
        client = subprocess.Popen([program, 'client', path], stdin=subprocess.PIPE, stdout=subprocess.PIPE, stderr=subprocess.DEVNULL)
        try:
            client.stdin.write(script.encode())
            client.stdin.close()
            while client.poll() is None:
                found = re.search(r'VmHWM:\s+(\d+)', pathlib.Path('/proc/%d/status' % client.pid).read_text())
                peak = max(peak, int(found[1]) if found else 0)
                if time.monotonic() - killed > LIMIT:
                    raise Bad('it neither dials nor ends')
                if select.select([door], [], [], 0.01)[0]:
                    with door.accept()[0] as link, contextlib.suppress(ConnectionError):
                        kill(link, said(rng.choice(channels), rng.randint(1, 100)), rng.choice(ways), rng)
                    count, killed = count + 1, time.monotonic()
        finally:
            client.kill()
            status, printed = client.wait(), client.stdout.read().split(b'\n')
    wanted = sum(line.split(' ')[0] in DEVICES for line in lines) + (status == 4)
    if status not in (0, 4, 5) or printed.pop() != b'' or not all(map(LINE.fullmatch, printed)) or len(printed) != wanted or peak > PEAK:
        raise Bad('status %d, a peak of %d kB, the lines %r' % (status, peak, printed[-3:]))
    return status, peak, count


def scripts():
    """The devices of each example, and the lines of each of its applications."""
    for script in sorted((TOP / 'examples').glob('*.script')):
        status = script.with_suffix('.status')
        devices, played = splits(script.read_text())
        lines = collections.defaultdict(list)
        for line in played:
            if line[0].isdigit():
                application, rest = line.split(' ', 1)
                lines[application].append(rest)
        if devices and lines and not status.exists():
            yield devices, list(lines.values())


def lines_of(applications, rng):
    """A host's lines: up to 16 applications play these up to 20 times, and up to four channels end between."""
    own = [['%d %s' % (number, line) for line in rng.choice(applications) * rng.randint(1, 20)] for number in range(1, rng.randint(1, 16) + 1)]
    played = []
    while any(own):
        played.append(rng.choice([lines for lines in own if lines]).pop(0))
    for _ in range(rng.choice((0, 0, 1, 3))):
        place = rng.randint(0, len(played))
        played[place:place] = ['drop', 'connect']
    return played


def play_sides(program, devices, applications, rng, folder):
    """Plays both sides, and kills them: how many kills there were, the statuses, the greatest peak of memory in kilobytes, and what a host told, if one was left."""
    played, path, ended, killed = lines_of(applications, rng), folder + '/s', [], 0
    count = sum(line.split(' ')[0] in DEVICES for line in devices)
    scripts_of = {
        'host': '\n'.join(['devices %d' % count, *played, '']),
        'client': '\n'.join(['workers %d' % rng.randint(1, 16), 'channels 20', *devices, '']),
    }
    begins = lambda word: Side(program, word, path, scripts_of[word], folder)
    sides = {'host': begins('host')}
    try:
        sides['host'].listens()
        sides['client'] = begins('client')
        for _ in range(rng.randint(1, 3)):
            time.sleep(min(rng.expovariate(100), 0.2))
            word, again = rng.choice(('host', 'client')), rng.random() < 0.8
            if word not in sides or sides[word].has_ended():
                break
            sides[word].kill()
            killed += 1
            del sides[word]
            if again:
                time.sleep(rng.choice((0, 0.002)))
                sides[word] = begins(word)
        begin = time.monotonic()
        while 'host' in sides and not sides['host'].has_ended():
            if 'client' not in sides or sides['client'].has_ended():
                ended += [sides.pop('client')] if 'client' in sides else []
                sides['client'] = begins('client')
            if time.monotonic() - begin > LIMIT:
                raise Bad('the host does not end, with %d clients ended' % len(ended))
            time.sleep(0.002)
        for side in [*ended, *sides.values()]:
            status, _ = side.ends()
            if status not in (0, 5) or side.peak > PEAK_OF_SIDES:
                raise Bad('the %s ends with status %d, a peak of %d kB: %r, %r' % (side.word, status, side.peak, side.lines()[-1:], side.notes.read_bytes()[-200:]))
        told = sessions.outcomes_in(sides['host'].lines()) if 'host' in sides else []
        if told:
            sessions.check(devices, played, told, None)
        ended += sides.values()
        return killed, [side.process.returncode for side in ended], max([side.peak for side in ended], default=0), [outcome[0] for _, outcome in told]
    finally:
        for side in sides.values():
            side.kill()


def session(number, words, known):
    """Plays a session: what came of it, or why it is bad."""
    rng = random.Random('%d %d' % (words.seed, number))
    try:
        with tempfile.TemporaryDirectory(dir='/dev/shm') as folder:
            return (play_sides if words.sides else play)(words.program.resolve(), *rng.choice(known), rng, folder)
    except Bad as why:
        print('session %d of seed %d: %s' % (number, words.seed, why), flush=True)
        return None


def main():
    words = argparse.ArgumentParser(usage=__doc__)
    words.add_argument('program', nargs='?', default=TOP / 'bin' / 'rdr', type=pathlib.Path)
    words.add_argument('--sides', action='store_true')
    words.add_argument('--sessions', type=int, default=100)
    words.add_argument('--first', type=int, default=0)
    words.add_argument('--seed', type=int, default=1)
    words.add_argument('--jobs', type=int, default=1)
    words = words.parse_args()
    known = list(scripts()) if words.sides else [example for example in examples() if all(example)]
    with concurrent.futures.ThreadPoolExecutor(words.jobs) as pool:
        came = list(pool.map(lambda number: session(number, words, known), range(words.first, words.first + words.sessions)))
    ended = [it for it in came if it]
    bad = len(came) - len(ended)
    if words.sides:
        kills, statuses, peaks, told = zip(*ended or [(0, [], 0, [])])
        outcomes, statuses = collections.Counter(outcome for own in told for outcome in own), sum(statuses, [])
        what = words.sessions, sum(kills), len(statuses), statuses.count(5), sum(map(bool, told)), *(outcomes[it] for it in ('done', 'lost', 'refused')), max(peaks), bad
        print('%d sessions, %d kills, %d sides ended, %d of them with status 5, %d reports, with %d lines done, %d lost, %d refused, a peak of %d kB, %d bad' % what)
    else:
        statuses, peaks, counts = zip((0, 0, 0), *ended)
        what = words.sessions, sum(counts), statuses.count(4), statuses.count(5), max(peaks), bad
        print('%d sessions, %d channels, %d with status 4 and %d with 5, a peak of %d kB, %d bad' % what)
    sys.exit(1 if bad else 0)


if __name__ == '__main__':
    main()
