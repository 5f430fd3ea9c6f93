#!/usr/bin/env python3
"""Plays millions of changed channels to the client or the host in one process: many_in_memory.py [--turns] [--sessions N] [--first N] [--seed N] [--jobs N] [--keep FOLDER] client|host, or --build

It plays what many.py plays, the same channels for the same seed, but each by a call of `rd_cli::run` over streams and a channel in memory, so that no channel costs a process, a socket or calls of the
system. `--build` makes the program of that process, bin/many_in_memory, in some minutes: many_in_memory.rattle becomes the `main` of a crate in a copy of the checkout; the kit's `rt try` compiles that
with all below it, before any proof, and with checks of indices, of sums and of what can't be reached; the kit's clang and linker make a program of what came of it. A job is such a process, and
many_in_memory.c beside it, which draws the channels and looks at what came. many_in_memory_threads.c in the process has its threads used again for the next channel. With `--turns` many_in_memory_turns.c
has them take turns in one: a channel comes to the same each time then, and where all of them wait for good the process ends at once.

Each channel is to come to status 0 or 4, and to print whole lines, as many.py has it; every sixteenth session is played in pieces of 1, 7 and 4,096 bytes and at once. The process is to take no more than
64 MB over all of them. Where it ends, or says nothing for a minute, what was given to it is played again one by one, so that the session is named at which it did, and it goes on behind that. Of a host's
channels three in ten say each completion once its request was heard, or 3 ms later, after which none waits any more; with `--turns` it is later where nothing else can happen.

Each job prints two lines after each 100,000 sessions and at its end. What isn't so is printed with its seed and number, from which `--first` begins, and the status is 1 if anything wasn't. The script
stands outside the proofs, and needs Linux, a `cc`, and the kit to build."""
import argparse
import os
import pathlib
import shutil
import subprocess
import sys
import tempfile

from many import listed, source
from mutate import sources, word
from sides import TOP

NAME = 'many_in_memory'
HERE = pathlib.Path(__file__).resolve().parent
# Stands for the kit's clang: it keeps the module that `rt try` has it compile with checks, and the words for that, and goes no further.
KEEPER = """#!/bin/sh
case " $* " in
*' -fsanitize=address '*) cp module.bc '%(folder)s/module.bc' && echo "$*" > '%(folder)s/words'; exit 1 ;;
esac
exec '%(kit)s/toolchain/bin/clang' "$@"
"""


def links(to, of, but):
    """A folder with links to what another one has, but for one thing."""
    to.mkdir()
    for it in of.iterdir():
        if it.name != but:
            (to / it.name).symlink_to(it)


def kept_module(folder, kit):
    """Has `rt try` compile the crate, up to the module that clang gets: false where it doesn't."""
    links(folder / 'kit', kit, 'toolchain')
    links(folder / 'kit' / 'toolchain', kit / 'toolchain', 'bin')
    links(folder / 'kit' / 'toolchain' / 'bin', kit / 'toolchain' / 'bin', 'clang')
    clang = folder / 'kit' / 'toolchain' / 'bin' / 'clang'
    clang.write_text(KEEPER % {'folder': folder, 'kit': kit})
    clang.chmod(0o755)
    # rt takes the kit in whose folder its own file is.
    (folder / 'kit' / 'bin').unlink()
    shutil.copytree(kit / 'bin', folder / 'kit' / 'bin', symlinks=True, copy_function=lambda a, b: shutil.copy2(a, b) if pathlib.Path(a).name.startswith('rt') else os.symlink(a, b))
    checkout = folder / 'checkout'
    shutil.copytree(TOP / 'crates', checkout / 'crates', ignore=shutil.ignore_patterns('out', 'data'))
    (checkout / 'crates.txt').write_text((TOP / 'crates.txt').read_text() + '%s: rd_cli rd_folder rd_link rd_base\n' % NAME)
    shutil.copy(TOP / 'HANDLES', checkout)
    crate = checkout / 'crates' / NAME
    (crate / 'src').mkdir(parents=True)
    shutil.copy(HERE / (NAME + '.rattle'), crate / 'src' / 'main.rt')
    # What it would be run on: the end.
    tried = subprocess.run([folder / 'kit' / 'bin' / 'rt', 'try', '--steps', '1', '--seconds', '1'], cwd=crate, input=word(2, 4), capture_output=True)
    if not (folder / 'module.bc').exists():
        sys.stderr.buffer.write(tried.stdout + tried.stderr)
    return (folder / 'module.bc').exists()


def build(program):
    """Builds the process's program."""
    kit = pathlib.Path(os.path.realpath(shutil.which('rt') or sys.exit('many_in_memory.py: no rt'))).parent.parent
    with tempfile.TemporaryDirectory() as folder:
        folder = pathlib.Path(folder)
        if not kept_module(folder, kit):
            sys.exit('many_in_memory.py: rt try does not compile it')
        words = [it for it in (folder / 'words').read_text().split() if it not in ('-fsanitize=address', '-O0')]
        words = [it.replace(str(folder / 'kit' / 'toolchain'), str(kit / 'toolchain')) for it in words]
        subprocess.run([kit / 'toolchain' / 'bin' / 'clang', *words, '-O2'], cwd=folder, check=True)
        program.parent.mkdir(exist_ok=True)
        # The linker wants its words in this order.
        words = ['--target', 'x86_64-unknown-linux-gnu', '--toolchain', kit / 'toolchain', '-o', program]
        subprocess.run([kit / 'bin' / 'rattle-link', *words, folder / 'module.o', kit / 'c' / 'libos_c.a', kit / 'c' / 'liblibc_c.a'], check=True)


def play(words):
    """Plays the sessions: whether all was as it has to be."""
    own = [it for it in sources(None) if it[0] == words.end]
    strangers = [message for _, _, said, other in sources(None) for message in (*said, *other)]
    with tempfile.TemporaryDirectory() as folder:
        player, threads, data = folder + '/player', folder + '/threads.so', pathlib.Path(folder + '/sources')
        loaded = '_turns.c' if words.turns else '_threads.c'
        subprocess.run(['cc', '-O2', '-o', player, str(HERE / (NAME + '.c'))], check=True)
        subprocess.run(['cc', '-O2', '-shared', '-fPIC', '-o', threads, str(HERE / (NAME + loaded))], check=True)
        data.write_bytes(word(words.end == 'host', 4) + listed(strangers) + word(len(own), 4) + b''.join(source(*it) for it in own))
        each, running = -(-words.sessions // words.jobs), []
        for job in range(words.jobs):
            first = words.first + job * each
            count = max(0, min(each, words.first + words.sessions - first))
            kept = {'MANY_KEEP': words.keep} if words.keep else {}
            told = map(str, (int(words.turns), words.seed, first, count))
            running.append(subprocess.Popen([player, data, words.program.resolve(), threads, *told], env={**os.environ, **kept}, stdin=subprocess.DEVNULL))
        return not any([it.wait() for it in running])


def main():
    words = argparse.ArgumentParser(usage=__doc__)
    words.add_argument('end', nargs='?', choices=('client', 'host'))
    words.add_argument('--build', action='store_true')
    words.add_argument('--turns', action='store_true')
    words.add_argument('--program', default=TOP / 'bin' / NAME, type=pathlib.Path)
    words.add_argument('--sessions', type=int, default=100000)
    words.add_argument('--first', type=int, default=0)
    words.add_argument('--seed', type=int, default=1)
    words.add_argument('--jobs', type=int, default=1)
    words.add_argument('--keep')
    words = words.parse_args()
    if words.build:
        build(words.program)
    if words.end:
        if not words.program.exists():
            sys.exit('many_in_memory.py: first --build')
        sys.exit(0 if play(words) else 1)


if __name__ == '__main__':
    main()
