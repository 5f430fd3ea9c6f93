"""A side of a session, `rdr client` or `rdr host`, as a process of its own: what the scripts of this folder share that play both."""
import os
import pathlib
import re
import subprocess
import time

TOP = pathlib.Path(__file__).resolve().parent.parent
LIMIT = 20
BEGINS, HOST, CLIENT = 2, 0, 1
DEVICES = ('drive', 'drivefold', 'real', 'printer')


class Bad(Exception):
    """A side does what it shouldn't."""


def channels_of(recording, side):
    """The frames of this side on each channel of a recording."""
    channels, at = [], 8
    while at < len(recording):
        kind, at = recording[at], at + 1
        if kind == BEGINS:
            channels.append([])
        elif kind in (HOST, CLIENT):
            end = at + 4 + int.from_bytes(recording[at:at + 4], 'little')
            if kind == side:
                channels[-1].append(recording[at:end])
            at = end
    return channels


def splits(text):
    """The lines of a script of `both` that are for a client, and those that a host plays. Others, as settings and `settle`, are left out."""
    devices, played = [], []
    for line in text.split('\n'):
        word = line.split(' ')[0]
        if word in (*DEVICES, 'folder', 'file', 'fill'):
            devices.append(line)
        elif word[:1].isdigit() or line in ('drop', 'connect'):
            played.append(line)
    return devices, played


def channels_in(played):
    """How many channels a host's lines have: one, and one for each `connect` where none is open."""
    count, is_open = 1, True
    for line in played:
        count += line == 'connect' and not is_open
        is_open = is_open and line != 'drop' or line == 'connect'
    return count


class Side:
    """A side that runs. Its script and its output are files of a folder that goes with the session."""

    def __init__(self, program, word, path, script, folder):
        self.word, self.path = word, path
        name = '%s/%s%d' % (folder, word, time.monotonic_ns())
        pathlib.Path(name).write_bytes(script.encode('latin-1'))
        self.printed = pathlib.Path(name + '.out')
        with open(name, 'rb') as source, open(self.printed, 'wb') as sink, open(name + '.err', 'wb') as notes:
            self.process = self.starts([program, word, path], stdin=source, stdout=sink, stderr=notes, cwd=folder)
        self.notes, self.peak, self.seconds = pathlib.Path(name + '.err'), 0, 0

    def starts(self, words, **how):
        return subprocess.Popen(words, **how)

    def has_ended(self):
        """Whether it has ended. Notes its peak of memory in kilobytes, as the system has it by now, and at the end the processor's time."""
        if self.process.returncode is None:
            found = re.search(r'VmHWM:\s+(\d+)', pathlib.Path('/proc/%d/status' % self.process.pid).read_text())
            self.peak = max(self.peak, int(found[1]) if found else 0)
            pid, status, used = os.wait4(self.process.pid, os.WNOHANG)
            if pid:
                self.process.returncode, self.seconds = os.waitstatus_to_exitcode(status), used.ru_utime + used.ru_stime
        return self.process.returncode is not None

    def listens(self):
        """Waits until a host listens, or has ended. It gives the socket's file to its owner alone once it listens."""
        self.waits(lambda: self.is_open() or self.has_ended(), 'does not listen')

    def is_open(self):
        try:
            return os.stat(self.path).st_mode & 0o777 == 0o600
        except FileNotFoundError:
            return False

    def ends(self):
        """Waits until it ends: the status, and the lines that it printed."""
        self.waits(self.has_ended, 'does not end')
        return self.process.returncode, self.lines()

    def lines(self):
        """The lines that it printed, each whole."""
        lines = self.printed.read_bytes().decode('latin-1').split('\n')
        if lines.pop():
            raise Bad('the %s ends within a line' % self.word)
        return lines

    def waits(self, what, why):
        begin, pause = time.monotonic(), 0.0005
        while not what():
            if time.monotonic() - begin > LIMIT:
                raise Bad('the %s %s' % (self.word, why))
            time.sleep(pause)
            pause = min(pause * 1.5, 0.01)

    def kill(self):
        """Kills it, if it still runs."""
        if not self.has_ended():
            self.process.kill()
            self.waits(self.has_ended, 'is not killed')
