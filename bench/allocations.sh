#!/usr/bin/env bash
# Runs commands with the k-th allocation refused, for each k from 1 to as many as the run makes; then with the k-th and all later ones refused; then with
# the k-th call that opens, reads or writes, asks for a seed or is of a socket failing; and then with the k-th of these that reads or writes taking one
# byte alone. Without memory a run must end with status 8, say `out of memory` and write nothing, or end as it does with ample memory, if a growth that
# is refused only saves time. If a call on a file fails, it must end with status 5, say so and write nothing; if one on what it writes fails, with
# status 6, and what is written is a prefix of what it writes else; if one of a socket fails, with 7, and if there is no seed, with 12. What
# `run`, `keep` and `stream` write before memory runs out or a call fails stays, in whole lines; if one on a ledger fails, with 11. If a call takes
# one byte, it must end as ever. Of `stream` the allocations alone are tried, with a peer that takes what is sent. Prints for each run how many allocations
# and calls it makes, each of which was tried, and with what statuses these runs ended. Needs python3 and a C compiler; no part of the gate.
#
#     bench/allocations.sh [PROGRAM]
#
# PROGRAM stands in the place of the one that ./sessiongraph has built. The exit status is 0 if every run ended as it must, and 1 otherwise.
set -eu
here=$(cd "$(dirname "${BASH_SOURCE[0]}")/.." && pwd)
program=${1-$here/crates/sg_cli/out/sg_cli}
[ -x "$program" ] || { echo "allocations: $program is not built: run ./sessiongraph once" >&2; exit 1; }
folder=$(mktemp -d)
trap 'rm -rf "$folder"' EXIT
cat >"$folder/failing.c" <<'C'
// Stands before the C library's calls: counts them, and lets those fail that the environment names.
#define _GNU_SOURCE
#include <dlfcn.h>
#include <errno.h>
#include <fcntl.h>
#include <stdarg.h>
#include <stdio.h>
#include <stdlib.h>
#include <string.h>
#include <sys/socket.h>
#include <sys/stat.h>
#include <sys/types.h>
#include <unistd.h>

static long allocations, calls;

static long wanted(const char *name) {
    const char *text = getenv(name);
    return text ? atol(text) : 0;
}

static int refused(void) {
    long count = ++allocations, one = wanted("REFUSED"), from = wanted("REFUSED_FROM");
    return count == one || (from && count >= from);
}

static int fails(void) { return ++calls == wanted("FAILING"); }

extern void *__libc_malloc(size_t);
extern void *__libc_calloc(size_t, size_t);
extern void *__libc_realloc(void *, size_t);
extern void *__libc_memalign(size_t, size_t);

static void *none(void) {
    errno = ENOMEM;
    return 0;
}

void *malloc(size_t size) { return refused() ? none() : __libc_malloc(size); }
void *calloc(size_t count, size_t size) { return refused() ? none() : __libc_calloc(count, size); }
void *realloc(void *block, size_t size) { return refused() ? none() : __libc_realloc(block, size); }
void *memalign(size_t wide, size_t size) { return refused() ? none() : __libc_memalign(wide, size); }
void *aligned_alloc(size_t wide, size_t size) { return memalign(wide, size); }

int posix_memalign(void **block, size_t wide, size_t size) {
    if (refused()) return ENOMEM;
    *block = __libc_memalign(wide, size);
    return *block ? 0 : ENOMEM;
}

// What was called: O, R, W, D if a file is synced, measured or its place is set, S for a seed or L for a socket, and for R and W the file's number.
static char told[65536];
static size_t told_length;

static void tell(char kind, int file) {
    if (told_length + 2 < sizeof told) {
        told[told_length++] = kind;
        told[told_length++] = (char)('0' + (file < 9 ? file : 9));
    }
}

static void *next(const char *name) { return dlsym(RTLD_NEXT, name); }

static int failed(void) {
    errno = EIO;
    return -1;
}

#define OPENS(name)                                                          \
    int name(const char *path, int flags, ...) {                             \
        va_list rest;                                                        \
        va_start(rest, flags);                                               \
        mode_t mode = flags & (O_CREAT | __O_TMPFILE) ? va_arg(rest, mode_t) : 0; \
        va_end(rest);                                                        \
        tell('O', 0);                                                        \
        if (fails()) return failed();                                        \
        return ((int (*)(const char *, int, ...))next(#name))(path, flags, mode); \
    }
OPENS(open)
OPENS(open64)

#define OPENS_AT(name)                                                       \
    int name(int folder, const char *path, int flags, ...) {                 \
        va_list rest;                                                        \
        va_start(rest, flags);                                               \
        mode_t mode = flags & (O_CREAT | __O_TMPFILE) ? va_arg(rest, mode_t) : 0; \
        va_end(rest);                                                        \
        tell('O', 0);                                                        \
        if (fails()) return failed();                                        \
        return ((int (*)(int, const char *, int, ...))next(#name))(folder, path, flags, mode); \
    }
OPENS_AT(openat)
OPENS_AT(openat64)

static size_t taken(size_t size) { return size > 1 && calls == wanted("SHORT") ? 1 : size; }

ssize_t read(int file, void *bytes, size_t size) {
    tell('R', file);
    if (fails()) return failed();
    return ((ssize_t (*)(int, void *, size_t))next("read"))(file, bytes, taken(size));
}

ssize_t write(int file, const void *bytes, size_t size) {
    tell('W', file);
    if (fails()) return failed();
    return ((ssize_t (*)(int, const void *, size_t))next("write"))(file, bytes, taken(size));
}

#define OF_FILE(name, result, head, words)                                   \
    result name head {                                                       \
        tell('D', 0);                                                        \
        if (fails()) return failed();                                        \
        return ((result (*) head)next(#name)) words;                         \
    }
OF_FILE(lseek, off_t, (int file, off_t at, int from), (file, at, from))
OF_FILE(lseek64, off64_t, (int file, off64_t at, int from), (file, at, from))
OF_FILE(fsync, int, (int file), (file))
OF_FILE(fdatasync, int, (int file), (file))
OF_FILE(fstat, int, (int file, struct stat *found), (file, found))
OF_FILE(fstat64, int, (int file, struct stat64 *found), (file, found))

int getentropy(void *bytes, size_t size) {
    tell('S', 0);
    if (fails()) return failed();
    return ((int (*)(void *, size_t))next("getentropy"))(bytes, size);
}

ssize_t getrandom(void *bytes, size_t size, unsigned flags) {
    tell('S', 0);
    if (fails()) return failed();
    return ((ssize_t (*)(void *, size_t, unsigned))next("getrandom"))(bytes, size, flags);
}

int socket(int family, int type, int protocol) {
    tell('L', 0);
    if (fails()) return failed();
    return ((int (*)(int, int, int))next("socket"))(family, type, protocol);
}

int bind(int file, const struct sockaddr *at, socklen_t size) {
    tell('L', 0);
    if (fails()) return failed();
    return ((int (*)(int, const struct sockaddr *, socklen_t))next("bind"))(file, at, size);
}

ssize_t sendto(int file, const void *bytes, size_t size, int flags, const struct sockaddr *to, socklen_t length) {
    tell('L', 0);
    if (fails()) return failed();
    return ((ssize_t (*)(int, const void *, size_t, int, const struct sockaddr *, socklen_t))next("sendto"))(file, bytes, size, flags, to, length);
}

// Writes what was counted into the file that the environment names, by calls that are not counted.
__attribute__((destructor)) static void count(void) {
    const char *path = getenv("COUNTS");
    if (!path) return;
    char text[64];
    int length = snprintf(text, sizeof text, "%ld %ld ", allocations, calls);
    int file = ((int (*)(const char *, int, ...))next("open"))(path, O_WRONLY | O_CREAT | O_TRUNC, 0600);
    ssize_t (*put)(int, const void *, size_t) = (ssize_t (*)(int, const void *, size_t))next("write");
    if (file >= 0 && put(file, text, (size_t)length) == length) put(file, told, told_length);
}
C
${CC:-cc} -shared -fPIC -O1 -o "$folder/failing.so" "$folder/failing.c" -ldl
python3 - "$program" "$folder" "$here" <<'PYTHON'
import collections
import os
import pathlib
import socket
import subprocess
import sys
import threading

program, folder, here = sys.argv[1], pathlib.Path(sys.argv[2]), pathlib.Path(sys.argv[3])
PAIR = 'graph pair;role a;role b;node n0:a;node n1:b;node n2:a;edge Request:n0->n1;edge Reply:n1->n2;\n'
KEYS = 'me = "a"\nlisten = "127.0.0.1:28331"\n[[peer]]\nname = "b"\naddr = "127.0.0.1:28332"\nkey = "' + '1' * 64 + '"\n'
SCRIPT = ('[[start]]\ngraph = "pair"\ncast = ["a", "b"]\n' * 2
          + '[[choice]]\ngraph = "pair"\nnode = "n0"\nlabel = "Request"\nvalues = {}\ntimes = 2\n')
REQUESTER = ('sg-program 1\nrole a\ngraph pair;\nrole a;\nrole b;\nnode n0: a;\nnode n1: b;\nnode n2: a;\nedge Request: n0 -> n1;\nedge Reply: n1 -> n2;\n'
             'table\nturn n0: Request\nturn n2:\nview Request: Reply/00000000\nend\n')
# What is run, over which file, which stands as `f`. Besides there are `k`, `s` and `p`, the keys, the script and the program of a principal, and `l`, a
# ledger without joins. Both `f` and `l` are there anew before each run.
RUNS = [
    ('check of two roles', ['check', 'f'], PAIR),
    ('check of the shop', ['check', 'f'], here / 'examples/shop.graph'),
    ('check of a blinding', ['check', 'f'], here / 'examples/blinded.graph'),
    ('check of what is no graph', ['check', 'f'], here / 'examples/misspelled.graph'),
    ('compile of two roles', ['compile', 'f', 'a'], PAIR),
    ('compile of the shop', ['compile', 'f', 'w'], here / 'examples/shop.graph'),
    ('compile for no role', ['compile', 'f', 'x'], here / 'examples/shop.graph'),
    ('replay of two roles', ['replay', 'f'], here / 'examples/request-reply.schedule'),
    ('replay of the shop', ['replay', 'f'], here / 'examples/shop-honest.schedule'),
    ('replay of a stolen key', ['replay', 'f'], here / 'examples/stolen-key.schedule'),
    ('replay of what is no schedule', ['replay', 'f'], 'honest a\nhonest a\n'),
    ('drive of two roles', ['drive', '0', '1', 'f'], PAIR),
    ('drive of the shop', ['drive', '0', '1', 'f'], here / 'examples/shop.graph'),
    ('drive of a blinding', ['drive', '0', '1', 'f'], here / 'examples/blinded.graph'),
    ('audit', ['audit', 'f'], here / 'examples/honest.logs'),
    ('compose', ['compose', 'f'], here / 'examples/marketplace.parts'),
    ('run of two starts', ['run', 'k', 's', '0', 'p'], ''),
    ('run of what is no script', ['run', 'k', 'f', '0', 'p'], 'start'),
    ('ledger', ['ledger', 'f'], ''),
    ('keep of two starts', ['keep', 'l', 'k', 's', '0', 'p'], ''),
    ('keep without a ledger', ['keep', 'f', 'k', 's', '0', 'p'], 'SGLEDG01'),
    ('stream of two starts', ['stream', 'k', 's', '0', 'p'], ''),
    ('no command', ['draw', 'f'], PAIR),
]
# An answer: the status, and what is on standard output and on standard error.
Answer = collections.namedtuple('Answer', 'status out err')
failed = 0


def run(words, text, **how):
    """What the program answers where calls fail so."""
    if words[0] in ('ledger', 'keep'):
        (folder / 'room/f').write_bytes(text)
        (folder / 'room/l').write_bytes(ledger)
    added = {'LD_PRELOAD': str(folder / 'failing.so'), 'COUNTS': str(folder / 'counts'), **{name: str(number) for name, number in how.items()}}
    ended = subprocess.run([program, *words], env={**os.environ, **added}, cwd=folder / 'room', capture_output=True, stdin=subprocess.DEVNULL, check=False)
    return Answer(ended.returncode, ended.stdout, ended.stderr)


def try_all(name, what, words, text, count, kind, may):
    """Runs with each number up to the count, and gives in words how these runs ended."""
    global failed
    ends = collections.Counter()
    for number in range(1, count + 1):
        answer = run(words, text, **{kind: number})
        ends[answer.status] += 1
        if not may(number, answer):
            failed += 1
            print(f'{name}: {what} {number}: status {answer.status}, {answer.out[:80]!r}, {answer.err[:80]!r}')
    return f'{what}: ' + (', '.join(f'{many} ended with {status}' for status, many in sorted(ends.items())) or 'none')


def take(server):
    """Takes what comes over the connections to a peer."""
    while True:
        with server.accept()[0] as connection:
            while connection.recv(65536):
                pass


def is_front(part, whole):
    return whole.startswith(part)


def ends_early(answer, status, line, words, whole):
    """Whether the program ended so, and wrote nothing but what a run writes before."""
    lines = answer.out == b'' or words[0] in ('run', 'keep', 'stream') and is_front(answer.out, whole) and answer.out.endswith(b'\n')
    return answer.status == status and answer.err == line and lines


(folder / 'room').mkdir()
for name, text in (('k', KEYS), ('s', SCRIPT), ('p', REQUESTER)):
    (folder / 'room' / name).write_text(text)
(folder / 'room/l').touch()
if subprocess.run([program, 'ledger', 'l'], cwd=folder / 'room', stdout=subprocess.DEVNULL, check=False).returncode != 0:
    sys.exit('no ledger is made')
ledger = (folder / 'room/l').read_bytes()
threading.Thread(target=take, args=(socket.create_server(('127.0.0.1', 28332)),), daemon=True).start()
for name, words, text in RUNS:
    text = text.encode() if isinstance(text, str) else text.read_bytes()
    (folder / 'room/f').write_bytes(text)
    wanted = run(words, text)
    allocations, calls, told = (folder / 'counts').read_text().split(' ')
    kinds = [told[place:place + 2] for place in range(0, len(told), 2)]
    if int(calls) != len(kinds):
        sys.exit(f'{name}: {calls} calls, of which {len(kinds)} were told')

    def without_memory(_, answer):
        return answer == wanted or ends_early(answer, 8, b'out of memory\n', words, wanted.out)

    def with_failing_call(number, answer):
        if kinds[number - 1] in ('W1', 'W2'):
            return answer.status == 6 and is_front(answer.out, wanted.out) and is_front(answer.err, wanted.err)
        if kinds[number - 1] == 'L0':
            return ends_early(answer, 7, b'link failed\n', words, wanted.out)
        if kinds[number - 1] == 'S0':
            return answer == Answer(12, b'', b'no random seed\n')
        if words[0] in ('ledger', 'keep') and ends_early(answer, 11, b'disk failed\n', words, wanted.out):
            return True
        return answer in [Answer(5, b'', f'file failed: {word}\n'.encode()) for word in words[1:]]

    def as_ever(_, answer):
        return answer == wanted

    without = [try_all(name, what, words, text, int(allocations), kind, without_memory)
               for what, kind in (('each refused', 'REFUSED'), ('all refused from each on', 'REFUSED_FROM'))]
    calls = 0 if words[0] == 'stream' else int(calls)
    failing = [try_all(name, 'each failing', words, text, calls, 'FAILING', with_failing_call), try_all(name, 'each taking a byte', words, text, calls, 'SHORT', as_ever)]
    print(f'{name}: {allocations} allocations, ' + '; '.join(without) + f'; {calls} calls, ' + '; '.join(failing), flush=True)
sys.exit(1 if failed else 0)
PYTHON
