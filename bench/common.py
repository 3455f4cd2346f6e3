"""What the scripts of this folder share: where things are, how programs are built, and how they are timed."""
import os
import re
import subprocess
import sys
import time

TOP = os.path.dirname(os.path.dirname(os.path.abspath(__file__)))
OUT = os.path.join(TOP, 'bench', 'out')
PEER = os.path.join(TOP, '..', 'shared', 'peer')


def built(crate):
    """A program of crates/, as the gate or an earlier run built it; else it is proved and built first, which takes minutes."""
    folder = os.path.join(TOP, 'crates', crate)
    program = os.path.join(folder, 'out', crate)
    if not os.path.exists(program):
        subprocess.run(['rt', 'run'], cwd=folder, check=False, stdin=subprocess.DEVNULL, stdout=subprocess.DEVNULL, stderr=subprocess.DEVNULL)
    if not os.path.exists(program):
        sys.exit('%s could not be built' % crate)
    return program


def built_peer(folder):
    manifest = os.path.join(folder, 'Cargo.toml')
    if not os.path.exists(manifest):
        print('no peer at %s: ours is timed alone' % folder)
        return None
    target = os.path.join(OUT, 'peer')
    subprocess.run(['cargo', 'build', '--release', '--offline', '--locked', '--quiet', '--manifest-path', manifest, '--target-dir', target], check=True)
    return os.path.join(target, 'release', 'ffpeer')


def pattern(peer, made):
    """The path of a pattern that the peer's `gen` makes, or made before; None where it can't be had."""
    os.makedirs(OUT, exist_ok=True)
    path = os.path.join(OUT, made.replace(' ', '-') + '.fold')
    if peer and not os.path.exists(path):
        with open(path, 'wb') as file:
            subprocess.run([peer, 'gen'] + made.split(), check=True, stdout=file)
    return path if os.path.exists(path) else None


def told(words, path):
    """What a run tells on standard error."""
    with open(path, 'rb') as given:
        done = subprocess.run(words, stdin=given, stdout=subprocess.DEVNULL, stderr=subprocess.PIPE)
    return done.stderr.decode()


def micros(text, name):
    return [int(n) / 1000 for n in re.findall(r'^%s (\d+) us$' % name, text, re.M)]


def millis(text, name):
    return [float(n) for n in re.findall(r'^%s +([0-9.]+) ms$' % re.escape(name), text, re.M)]


def whole(words, path):
    """Milliseconds of a whole run, and its peak memory in KiB by GNU time, where that is there."""
    timer = ['/usr/bin/time', '-f', '%M']
    if not os.path.exists(timer[0]):
        timer = []
    with open(path, 'rb') as given:
        began = time.perf_counter()
        done = subprocess.run(timer + words, stdin=given, stdout=subprocess.DEVNULL, stderr=subprocess.PIPE)
        ended = time.perf_counter()
    return (ended - began) * 1000, int(done.stderr.split()[-1]) if timer else 0


def options(words, turns, usage):
    """The turns and the peer's folder that the words ask for."""
    peer = PEER
    while words:
        if words[0] == '--turns' and len(words) > 1:
            turns = int(words[1])
        elif words[0] == '--peer' and len(words) > 1:
            peer = words[1]
        else:
            sys.exit(usage)
        words = words[2:]
    return turns, peer
