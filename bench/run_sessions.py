"""Plays sessions of `pair` between two processes that run `run`: a program and a folder with its programs as the arguments. Prints how many ended in a second,
and writes the seconds of a processor for one into the folder's file `per_session`."""
import os
import pathlib
import subprocess
import sys
import time

sys.path.insert(0, str(pathlib.Path(__file__).resolve().parent.parent / 'tools'))
import ports

program, folder = sys.argv[1:]

AT_ONCE, ROUNDS = 200, 50
KEY = '1' * 64
for me, port, peer, other in (('a', 28331, 'b', 28332), ('b', 28332, 'a', 28331)):
    with open(f'{folder}/{me}.keys', 'w') as out:
        out.write(f'me = "{me}"\nlisten = "127.0.0.1:{port}"\n[[peer]]\nname = "{peer}"\naddr = "127.0.0.1:{other}"\nkey = "{KEY}"\n')
choice = '[[choice]]\ngraph = "pair"\nnode = "{}"\nlabel = "{}"\ntimes = ' + str(AT_ONCE) + '\n'
with open(folder + '/a.script', 'w') as out:
    out.write('[[start]]\ngraph = "pair"\ncast = ["a", "b"]\n' * AT_ONCE + choice.format('n0', 'Request'))
with open(folder + '/b.script', 'w') as out:
    out.write(choice.format('n1', 'Reply'))


def runs(me, out):
    return subprocess.Popen([program, 'run', f'{folder}/{me}.keys', f'{folder}/{me}.script', str(AT_ONCE), f'{folder}/{me}.program'], stdout=out)


def ended(child):
    """the processor time of a process that ends by itself within ten seconds, or is stopped."""
    until = time.monotonic() + 10
    while time.monotonic() < until:
        pid, _, used = os.wait4(child.pid, os.WNOHANG)
        if pid:
            return used.ru_utime + used.ru_stime
        time.sleep(0.001)
    child.kill()
    return os.wait4(child.pid, 0)[2].ru_utime


sessions = lost = 0
took = used = 0.0
for _ in range(ROUNDS):
    b = runs('b', subprocess.DEVNULL)
    ports.await_listener('udp', 28332, b)
    a = runs('a', subprocess.PIPE)
    lines = a.stdout.read(1)
    begun = time.monotonic()
    got = 0
    os.set_blocking(a.stdout.fileno(), False)
    until = begun + 5
    last = begun
    while got < AT_ONCE and time.monotonic() < until:
        piece = a.stdout.read(65_536)
        if piece:
            lines += piece
            got = lines.count(b' received Reply ')
            last = time.monotonic()
        elif piece == b'':
            break
    sessions += got
    lost += AT_ONCE - got
    took += last - begun
    used += ended(a) + ended(b)
print(f'{sessions} sessions of pair, {AT_ONCE} at once, {lost} of them lost frames: {sessions / took:.0f} a second, {used / sessions * 1e6:.0f} us of processor time each, with the starts of both processes')
with open(folder + '/per_session', 'w') as out:
    out.write(str(used / sessions))
