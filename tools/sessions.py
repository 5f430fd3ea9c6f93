#!/usr/bin/env python3
"""Plays sessions of two processes, and looks at what came of each line: sessions.py [--workers N,..] [--count N] [--mixes N] [--seed N] [--folders] PROGRAM [CASES..]

CASES are scripts of `both`, those of examples/ where no word says it, or files of a JSON object a line, with such a script as `input` and its `status`; those whose status is
0 are taken. PROGRAM plays the lines of each
script that a host has with `host`, and its devices with `client`, over a socket, with 1, 4 and 16 workers. Each session is to end within 20 seconds, both sides with
status 0 (the client also with 5, where the host ended a channel on which it wrote). Each line of an application is to have one outcome, which some order gives:

- `nohandle` exactly where no earlier outcome of the application gave its handle; `nochannel`, `nodevice`, `stalehandle` exactly where the script says so;
- `lost dropped` only for a `lock` that waits or a `notify`;
- else it is done, with a status and a body of its request; a read gives as many bytes as it asked for at most, each of them zero or one that a file of the device
  had in this place or that was written there; no two openings on a device have one file id;
- a device ran what was done there, and of what was lost as much as it may have.

A mix puts the lines of one application each of up to 32 scripts beside each other, each with devices of its own. What comes of them is what `PROGRAM both` says of
each alone, but for moments.

With `--folders` the lines of one application of each script are played over folders of this machine instead: each `drive` is a `real` one, of a folder in /dev/shm that has its files. What comes of the lines is what `PROGRAM both` says of them over drives in
memory, but for moments and attributes. They are played up to the first that the two can't have alike: that makes a file read-only, moves something below more than 16 folders (a drive in memory looks how deep all of it comes to be), or has a
name that isn't UTF-8 or is too long for the system; and scripts with such a file are left out.

What isn't so is printed, then a line that sums up; the status is 1 if anything wasn't. It stands outside the proofs."""
import argparse
import collections
import itertools
import json
import pathlib
import random
import re
import subprocess
import sys
import tempfile

from sides import DEVICES, TOP, Bad, Side, channels_in, splits

OPENS = ('open', 'create')
COUNTS = ('write', 'set', 'setvolume')
BUFFERS = ('read', 'query', 'volume', 'dir', 'control', 'notify')
ANY = {'c0000008', 'c0000017'}
STATUSES = {
    'open': {'c000000d', 'c0000033', 'c000003a', 'c0000034', 'c0000035', 'c0000103', 'c00000ba', 'c0000056', 'c0000043', 'c0000022', 'c000007f', 'c000011f', 'c00000bb'},
    'other': {'c0000010', 'c0000022', 'c0000011', 'c0000054', 'c0000055', 'c000007e', 'c000009a', 'c000007f', 'c0000003', 'c000000d', 'c0000033', 'c000003a', 'c0000035',
              'c0000101', 'c000000f', '80000006', 'c00000bb', '0000010b'},
}
# Where a body has moments: of a `query` of class 4, of a `volume` of class 1, and of a `dir` of classes 1 to 3.
MOMENTS = {('query', 4): (4, 36), ('volume', 1): (4, 12), ('dir', 1): (12, 44), ('dir', 2): (12, 44), ('dir', 3): (12, 44)}
# And where it has attributes.
ATTRIBUTES = {('query', 4): (36, 40), ('query', 0x23): (4, 8), ('dir', 1): (60, 64), ('dir', 2): (60, 64), ('dir', 3): (60, 64)}


def number(word):
    return int(word, 0)


def is_patient(words):
    """Whether a line may wait as long as it likes."""
    return words[1] == 'notify' or words[1] == 'lock' and number(words[4]) == 1


def hex_of(word):
    return b'' if word == '-' else bytes.fromhex(word)


class Lines:
    """An application's lines, each with the number of the channel on which it is issued, none if that is closed, and 'some' behind a line that may wait."""

    def __init__(self, played):
        self.of, channel, last, waits = collections.defaultdict(list), 1, 1, set()
        for line in played:
            words = line.split(' ')
            if line == 'drop':
                channel = None
            elif line == 'connect':
                last += channel is None
                channel = last
            else:
                application = number(words[0])
                self.of[application].append((words, 'some' if application in waits else channel))
                if is_patient(words):
                    waits.add(application)


def written_on(devices):
    """The bytes that the files of each device had: where they begin, and which they are."""
    written = collections.defaultdict(set)
    for line in devices:
        words = line.split(' ')
        if words[0] == 'file':
            written[number(words[1])].add((0, hex_of(words[3])))
        elif words[0] == 'fill':
            written[number(words[1])].add((0, bytes([number(words[4])]) * number(words[3])))
    return written


def were_written(written, begin, text):
    """Whether each byte that isn't zero is one that was written in its place."""
    left = bytearray(text)
    for place, other in written:
        if not any(left):
            break
        start, end = max(begin, place), min(begin + len(text), place + len(other))
        if start < end:
            ours, theirs = text[start - begin:end - begin], other[start - place:end - place]
            left[start - begin:end - begin] = bytes(end - start) if ours == theirs else bytes(
                kept if mine != their else 0 for kept, mine, their in zip(left[start - begin:end - begin], ours, theirs))
    return not any(left)


def body_is_right(kind, words, status, body):
    """Whether a body is one of this request with this status."""
    size = int.from_bytes(body[:4], 'little')
    if status != '00000000':
        return body == bytes(5 if kind in (*OPENS, *COUNTS, 'lock') else 4)
    if kind in OPENS:
        return len(body) == 5 and body[4] in (0, 1, 3)
    if kind in COUNTS:
        return len(body) == 5 and body[4] == 0 and (kind != 'write' or size == len(hex_of(words[4])))
    if kind in BUFFERS:
        return len(body) == 4 + size and (kind != 'read' or size <= number(words[4]))
    return body == bytes(5 if kind == 'lock' else 4)


def check(devices, played, told, ran):
    """Looks at the outcomes that a host told, by application and place, and at how many requests each device of the client ran: none where clients were killed. Then
    any channel may have ended at any time, and the devices begun anew."""
    lines, there = Lines(played), {number(line.split(' ')[1]) for line in devices if line.split(' ')[0] in DEVICES}
    wanted = [(application, place + 1) for application in sorted(lines.of) for place in range(len(lines.of[application]))]
    if [key for key, _ in told] != wanted:
        raise Bad('the lines told are %r' % [key for key, _ in told])
    told, written, reads, opened, done, lost = dict(told), written_on(devices), [], set(), collections.Counter(), collections.Counter()
    for application in lines.of:
        handles = {}
        for place, (words, channel) in enumerate(lines.of[application]):
            outcome, kind = told[application, place + 1], words[1]
            device, _, since = (number(words[3]), None, channel) if kind in OPENS else handles.get(words[2], (None, None, None))
            may = {'lost dropped'} if is_patient(words) or ran is None else set()
            channel = 'some' if ran is None else channel
            if kind not in OPENS and device is None:
                may = {'refused nohandle'}
            elif channel is None:
                may = {'refused nochannel'}
            elif device not in there:
                may = {'refused nodevice'}
            elif 'some' not in (channel, since) and since != channel:
                may = {'refused stalehandle'}
            else:
                may.add('done')
            if channel == 'some' and may != {'refused nohandle'}:
                may |= {'refused nochannel'} | ({'refused stalehandle'} if kind not in OPENS else set())
            where = '%d.%d %s: %s' % (application, place + 1, ' '.join(words[1:]), ' '.join(outcome))
            if ('done' if outcome[0] == 'done' else ' '.join(outcome)) not in may:
                raise Bad('%s, and not one of %s' % (where, sorted(may)))
            lost[device] += outcome[0] == 'lost'
            if kind in OPENS:
                handles.pop(words[2], None)
            if kind == 'write' and outcome[0] != 'refused':
                written[device].add((number(words[3]), hex_of(words[4])))
            if outcome[0] != 'done':
                continue
            status, body = outcome[1], hex_of(outcome[2])
            done[device] += 1
            if status != '00000000' and status not in ANY | STATUSES['open' if kind in OPENS else 'other'] or not body_is_right(kind, words, status, body):
                raise Bad('%s, which is no completion of it' % where)
            if kind in OPENS and status == '00000000':
                if (device, body[:4]) in opened and ran is not None:
                    raise Bad('%s, a file id that was given before' % where)
                opened.add((device, body[:4]))
                handles[words[2]] = device, body[:4], channel
            elif kind == 'read' and status == '00000000':
                reads.append((where, device, number(words[3]), body[4:]))
    for where, device, begin, text in reads:
        if not were_written(written[device], begin, text):
            raise Bad('%s, bytes that nobody wrote there' % where)
    for device in sorted(there if ran is not None else ()):
        if not done[device] <= ran.get(device, -1) <= done[device] + lost[device]:
            raise Bad('device %d ran %s, with %d done and %d lost' % (device, ran.get(device), done[device], lost[device]))


def outcomes_in(lines):
    """What a report tells of each line."""
    outcomes = []
    for line in lines:
        key, *outcome = line.split(' ')
        application, place = key.split('.')
        outcomes.append(((int(application), int(place)), outcome))
    return outcomes


def ran_in(lines):
    return {int(line.split(' ')[1]): int(line.split(' ')[3]) for line in lines if line.startswith('device ')}


def play(program, devices, played, workers):
    """Plays a session of two processes: what the host told, how many requests the client's devices ran, and the greater peak of memory."""
    with tempfile.TemporaryDirectory() as folder:
        path = folder + '/s'
        count = sum(line.split(' ')[0] in DEVICES for line in devices)
        host = Side(program, 'host', path, '\n'.join(['devices %d' % count, *played, '']), folder)
        client = None
        try:
            host.listens()
            client = Side(program, 'client', path, '\n'.join(['workers %d' % workers, 'channels %d' % channels_in(played), *devices, '']), folder)
            (status, told), (other, ran) = host.ends(), client.ends()
            if status != 0 or other not in (0, 5):
                raise Bad('the host ends with %d, the client with %d: %r, %r' % (status, other, told[-1:], ran[-1:]))
            return outcomes_in(told), ran_in(ran), max(host.peak, client.peak), other
        finally:
            host.kill()
            if client:
                client.kill()


def cases_in(files):
    """The name, the devices and the played lines of each script that is taken."""
    for name in files or sorted((TOP / 'examples').glob('*.script')):
        name = pathlib.Path(name)
        if name.suffix == '.script':
            status = name.with_suffix('.status')
            cases = [{'name': name.stem, 'words': ['both'], 'input': name.read_text(encoding='latin-1'), 'status': int(status.read_text()) if status.exists() else 0}]
        else:
            cases = map(json.loads, name.read_text(encoding='utf-8').splitlines())
        for case in cases:
            if case.get('status') == 0 and case.get('words') == ['both'] and case['input'].isascii():
                devices, played = splits(case['input'])
                if devices and any(line[0].isdigit() for line in played):
                    yield case['name'], devices, played


def alone_of(case):
    """The lines of one application of a script, of those that have most: none where one may wait."""
    name, devices, played = case
    lines = Lines([line for line in played if line not in ('drop', 'connect')]).of
    application = max(sorted(lines), key=lambda it: len(lines[it]))
    words = [words for words, _ in lines[application]]
    return None if any(map(is_patient, words)) else (name, devices, words)


def moved(devices, lines, application, first):
    """The same lines for this application, and for devices whose numbers begin with this one."""
    numbers = {}
    for line in devices:
        words = line.split(' ')
        if words[0] in DEVICES:
            numbers[number(words[1])] = first + len(numbers)
    given = lambda word: str(numbers.get(number(word), 0xfffffff0))
    devices = [' '.join([words[0], given(words[1]), *words[2:]]) for words in (line.split(' ') for line in devices)]
    lines = [' '.join([str(application), *words[1:3], given(words[3]), *words[4:]]) if words[1] in OPENS else ' '.join([str(application), *words[1:]]) for words in lines]
    return devices, lines, len(numbers)


def without(places, words, outcome):
    """An outcome in whose body there are zeros in these places, such as those of moments."""
    place = places.get((words[1], number(words[3]))) if words[1] in ('query', 'volume', 'dir') else None
    if not place or outcome[:2] != ['done', '00000000']:
        return outcome
    body = bytearray(hex_of(outcome[2]))
    body[place[0]:place[1]] = bytes(len(body[place[0]:place[1]]))
    return [*outcome[:2], body.hex()]


def said_alone(program, devices, lines):
    """What `both` says of the lines of one application, and of the devices."""
    with tempfile.TemporaryDirectory() as folder:
        script = '\n'.join([*devices, *lines, '']).encode()
        done = subprocess.run([program, 'both'], input=script, cwd=folder, stdout=subprocess.PIPE, stderr=subprocess.DEVNULL, timeout=120, check=True)
    report = [line for line in done.stdout.decode().split('\n') if line and line.split(' ')[0] not in ('line', 'document', 'cache')]
    return outcomes_in(line for line in report if line[0].isdigit()), ran_in(report)


def mix(program, cases, workers, rng):
    """Plays one application of each of some scripts beside each other, and looks whether each has what it has alone."""
    first, devices, lines, wanted, ran = 1, [], [], {}, {}
    for application, (name, own, words) in zip(range(1, 65), rng.sample(cases, min(64, len(cases)))):
        own_devices, own_lines, count = moved(own, words, application, first)
        if first + count > 33:
            break
        outcomes, own_ran = said_alone(program, own_devices, own_lines)
        wanted.update((key, (name, words[key[1] - 1], outcome)) for key, outcome in outcomes)
        ran.update(own_ran)
        first += count
        devices += own_devices
        lines.append(own_lines)
    played = []
    while any(lines):
        played.append(rng.choice([own for own in lines if own]).pop(0))
    told, came, peak, status = play(program, devices, played, workers)
    check(devices, played, told, came)
    for key, outcome in told:
        name, words, alone = wanted[key]
        if without(MOMENTS, words, outcome) != without(MOMENTS, words, alone):
            raise Bad('%d.%d, of %s: %s where alone it is %s' % (*key, name, ' '.join(outcome), ' '.join(alone)))
    if came != ran:
        raise Bad('the devices ran %r where alone they ran %r' % (came, ran))
    return peak, status


def path_of(text):
    """The path on this machine that a path of a script is: none where it isn't UTF-8, or a name is longer than the system's may be."""
    units = re.sub('%(....)', lambda found: chr(int(found[1], 16)), text).encode('utf-16-le', 'surrogatepass')
    try:
        names = units.decode('utf-16-le').strip('\\').split('\\')
    except UnicodeDecodeError:
        return None
    return None if any(len(name.encode()) > 255 for name in names) else '/'.join(names)


def filled(devices, folder):
    """The same devices, of which each drive is over a folder in this one that has its files: none where the system can't have them."""
    lines, places = [], {}
    for line in devices:
        words = line.split(' ')
        if words[0] == 'drive':
            places[words[1]] = pathlib.Path(folder, words[1])
            places[words[1]].mkdir()
            lines.append('real %s %s %s' % (words[1], words[2], places[words[1]]))
        elif words[0] not in ('folder', 'file', 'fill') or words[1] not in places:
            lines.append(line)
        elif path_of(words[2]) is None:
            return None
        elif words[0] == 'folder':
            (places[words[1]] / path_of(words[2])).mkdir()
        else:
            text = hex_of(words[3]) if words[0] == 'file' else bytes([number(words[4])]) * number(words[3])
            (places[words[1]] / path_of(words[2])).write_bytes(text)
    return lines


def is_alike(words):
    """Whether a folder can have alike what this line asks for."""
    if words[1] == 'create' and number(words[9]) & 1:
        return False
    if words[1] in OPENS:
        return path_of(words[4]) is not None
    if words[1] == 'set' and number(words[3]) == 4 and words[4] != '-':
        return not hex_of(words[4])[32:33] or not hex_of(words[4])[32] & 1
    return words[1] != 'set' or number(words[3]) != 10 or hex_is_alike(words[4])


def hex_is_alike(word):
    """The same of the path of a renaming."""
    text = hex_of(word)[6:]
    path = path_of(text[:len(text) & ~1].decode('utf-16-le', 'surrogatepass'))
    return path is not None and path.count('/') <= 16


def in_folders(program, case, workers):
    """Plays one application of a script over folders, and looks whether it has what it has over drives in memory."""
    name, devices, lines = case
    lines = list(itertools.takewhile(is_alike, lines))
    lines_said = [' '.join(words) for words in lines]
    outcomes, ran = said_alone(program, devices, lines_said)
    with tempfile.TemporaryDirectory(dir='/dev/shm') as folder:
        told, came, peak, status = play(program, filled(devices, folder), lines_said, workers)
    for (key, outcome), (_, alone) in zip(told, outcomes, strict=True):
        words = lines[key[1] - 1]
        if without(ATTRIBUTES, words, without(MOMENTS, words, outcome)) != without(ATTRIBUTES, words, without(MOMENTS, words, alone)):
            raise Bad('%d.%d, %s: %s where in memory it is %s' % (*key, ' '.join(words), ' '.join(outcome), ' '.join(alone)))
    if came != ran:
        raise Bad('the devices ran %r where in memory they ran %r' % (came, ran))
    return peak, status


def can_be_in_folders(case):
    """Whether a script can be played so."""
    name, devices, lines = case
    with tempfile.TemporaryDirectory(dir='/dev/shm') as folder:
        return any(line.startswith('drive ') for line in devices) and is_alike(lines[0]) and filled(devices, folder) is not None


def main():
    words = argparse.ArgumentParser(usage=__doc__)
    words.add_argument('program', type=pathlib.Path)
    words.add_argument('cases', nargs='*')
    words.add_argument('--workers', default='1,4,16')
    words.add_argument('--count', type=int, default=1 << 60)
    words.add_argument('--mixes', type=int, default=100)
    words.add_argument('--seed', type=int, default=1)
    words.add_argument('--folders', action='store_true')
    words = words.parse_args()
    program, hands, peaks, fives, bad, played = words.program.resolve(), [int(it) for it in words.workers.split(',')], [0], 0, 0, 0
    cases = list(cases_in(words.cases))[:words.count]
    sessions = [(name, (lambda w, d=devices, p=lines: whole(program, d, p, w))) for name, devices, lines in cases]
    alone = [it for it in map(alone_of, cases) if it]
    if words.folders:
        words.mixes, alone = 0, list(filter(can_be_in_folders, alone))
        sessions = [(case[0], (lambda w, c=case: in_folders(program, c, w))) for case in alone]
    for number_of in range(words.mixes if alone else 0):
        sessions.append(('mix %d of seed %d' % (number_of, words.seed),
                         lambda w, n=number_of: mix(program, alone, w, random.Random('%d %d' % (words.seed, n)))))
    for name, session in sessions:
        for workers in hands:
            played += 1
            try:
                peak, status = session(workers)
                peaks.append(peak)
                fives += status == 5
            except Bad as why:
                bad += 1
                print('%s, %d workers: %s' % (name, workers, why), flush=True)
    print('%d sessions, %d of them mixes, a peak of %d kB, %d with the client at 5, %d bad' % (played, words.mixes * len(hands) if alone else 0, max(peaks), fives, bad))
    sys.exit(1 if bad else 0)


def whole(program, devices, played, workers):
    """Plays a whole script."""
    told, ran, peak, status = play(program, devices, played, workers)
    check(devices, played, told, ran)
    return peak, status


if __name__ == '__main__':
    main()
