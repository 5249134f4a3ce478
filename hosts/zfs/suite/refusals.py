#!/usr/bin/env python3
"""Compares each refusal of a run of scripts with what OpenZFS's own programs say to the same call.

    root -b BIN  refusals.py -p OPENZFS [-x EXCEPTIONS] [-s STATE] CALLS

It runs inside `root`, since OpenZFS's programs make folders for mountpoints. OPENZFS is a folder into which Debian's packages zfsutils-linux,
libzfs4linux, libnvpair3linux and libuutil3linux were unpacked (`fetch FOLDER openzfs` makes FOLDER/openzfs). CALLS is what `call` wrote. The programs
run over openzfs.c, which answers in the kernel's place: it has the datasets that were there, and refuses each change with a number. A refusal is right
where its text (standard error) and status are the programs' for one of the numbers that a kernel gives. A receive's stream of one snapshot is handed on
as the first record of such a stream of OpenZFS, with the same names and guids. What the programs can't be asked (they would need the pool itself, or
another stream) is in EXCEPTIONS: a line each of a pattern of the call, a pattern of the text, and the place in OpenZFS's sources that gives it, parted by
tabs.

Prints what differs, and a count a script. Status 0 where nothing differs in scripts that STATE says pass (all, where there is no STATE).
"""
import argparse, collections, concurrent.futures, difflib, errno, os, pty, re, struct, subprocess, sys, tempfile

NUMBERS = [errno.EIO, errno.EEXIST, errno.EBUSY, errno.ENOENT, errno.EINVAL, errno.ENOSPC, errno.EDQUOT, errno.ESRCH, errno.EXDEV, errno.ENOTSUP,
           errno.ENODEV, errno.ETXTBSY, errno.ENAMETOOLONG, errno.EROFS, errno.E2BIG, errno.EPERM, errno.ERANGE, errno.EAGAIN, errno.ENOTEMPTY, 0]
# A kernel refuses a request of several names as a whole, or names each; or it refuses the mount that comes after a change.
WAYS = [(number, how) for number in NUMBERS for how in ('each', 'whole')] + [(errno.ENOTDIR, 'mount')]


def plain(text):
    return re.sub(r'\\(.)', lambda m: {'n': '\n', 't': '\t'}.get(m[1], m[1]), text)


def begin(stream):
    """OpenZFS's DRR_BEGIN record (include/sys/zfs_ioctl.h) of a whole stream that isn't compound; of others nothing.
    The stream's format is src/stream/format.rs's."""
    records, at = [], 8
    while stream[:8] == b'YUZZFS03' and len(stream) >= at + 13:
        kind, head, body = struct.unpack_from('>cIQ', stream, at)
        records.append((kind, stream[at + 13:at + 13 + head]))
        at += 13 + head + 8 + body
    if at != len(stream) or [kind for kind, _ in records] != [b'B', b'S', b'E']:
        return b''
    length, = struct.unpack_from('>Q', records[0][1])
    is_compound, = struct.unpack_from('>Q', records[0][1], 8 + length + 16)
    if is_compound:
        return b''
    step = records[1][1]
    length, = struct.unpack_from('>Q', step)
    name, (to, since, is_clone, creation, is_volume) = step[8:8 + length], struct.unpack_from('>5Q', step, 8 + length)
    # a substream with the spill blocks of system attributes and records of what is freed
    return struct.pack('<IIQQQIIQQ256s', 0, 0, 0x2F5bacbac, 1 | 4 << 2, creation, 3 if is_volume else 2, 4 | is_clone, to, since, name)


class OpenZfs:
    """OpenZFS's programs over a /dev/zfs that answers."""

    def __init__(self, folder, scratch):
        self.folder, self.scratch = folder, scratch
        self.libraries = next(os.path.join(at, 'x') for at, _, files in os.walk(folder) if 'libnvpair.so.3' in files)[:-2]
        self.preload = os.path.join(scratch, 'openzfs.so')
        source = os.path.join(os.path.dirname(os.path.abspath(__file__)), 'openzfs.c')
        subprocess.run(['cc', '-std=gnu11', '-O1', '-shared', '-fPIC', '-o', self.preload, source, os.path.join(self.libraries, 'libnvpair.so.3'), '-ldl'], check=True)

    def program(self, name):
        return next(p for p in (os.path.join(self.folder, d, name) for d in ('sbin', 'usr/sbin')) if os.path.exists(p))

    def ask(self, call, way):
        """The status and the text."""
        number, how = way
        words, there, terminals, posix, stream = call
        env = {'PATH': os.environ['PATH'], 'LC_ALL': 'C', 'LD_LIBRARY_PATH': self.libraries, 'LD_PRELOAD': self.preload, 'OPENZFS_ERRNO': str(0 if how == 'mount' else number)}
        if posix:
            env['POSIXLY_CORRECT'] = '1'
        if how == 'whole':
            env['OPENZFS_WHOLE'] = '1'
        if how == 'mount':
            env['OPENZFS_MOUNT'] = str(number)
        if words[1:2] == ('send',):
            env['OPENZFS_HOLDS'] = '1'
        ours = theirs = None
        if terminals != '-':
            ours, theirs = pty.openpty()
        with tempfile.NamedTemporaryFile('w', dir=self.scratch) as has, open(os.devnull, 'r+b') as null, \
                tempfile.TemporaryFile(dir=self.scratch) as given:
            has.write(there)
            has.flush()
            given.write(stream)
            given.seek(0)
            env['OPENZFS_HAS'] = has.name
            try:
                done = subprocess.run([self.program(words[0]), *words[1:]], env=env, stderr=subprocess.PIPE, timeout=20,
                                      stdin=theirs if '0' in terminals else given, stdout=theirs if '1' in terminals else null)
                answer = (done.returncode, done.stderr.replace(b'\0', b'').decode('utf-8', 'replace').strip('\n'))
            except subprocess.TimeoutExpired:
                answer = (None, '')
        for descriptor in (ours, theirs):
            if descriptor is not None:
                os.close(descriptor)
        return answer  # a shell, which keeps the calls, drops zero bytes

    def says(self, call, status, text):
        """None where OpenZFS says the same, or what it says."""
        first = self.ask(call, WAYS[0])
        if first == (status, text):
            return None
        if self.ask(call, (errno.EEXIST, 'each')) == first:  # so no kernel was asked
            return first
        return None if any(self.ask(call, way) == (status, text) for way in WAYS[1:]) else first


def difference(ours, theirs):
    """At most eight lines of what differs: of OpenZFS's answer with < before, of this one with > before."""
    lines = [f'status {status}\n{text}'.split('\n') for status, text in (theirs, ours)]
    changed = [line for line in difflib.ndiff(*lines) if line[0] in '-+']
    return [('    < ' if line[0] == '-' else '    > ') + line[2:][:200] for line in changed[:8]]


def exceptions(path):
    rules = []
    for line in open(path) if path else []:
        line = line.rstrip('\n')
        if line and not line.startswith('#'):
            call, text, _source = re.split(r'\t+', line)
            rules.append((re.compile(call + r'\Z', re.S), re.compile(text + r'\Z', re.S)))
    return rules


def main():
    parser = argparse.ArgumentParser()
    parser.add_argument('-p', required=True)
    parser.add_argument('-x')
    parser.add_argument('-s')
    parser.add_argument('calls')
    arguments = parser.parse_args()
    if 'SUITE' not in os.environ:
        parser.error('runs inside `root`')
    passing = {line.split()[0] for line in open(arguments.s) if line.split()[1:2] == ['passes']} if arguments.s else None
    rules = exceptions(arguments.x)
    calls = collections.defaultdict(collections.Counter)
    for line in open(arguments.calls, errors='replace'):
        script, status, terminals, posix, words, there, text, stream = line.rstrip('\n').split('\t')
        if passing is None or script in passing:
            calls[(tuple(plain(words).split('\x1f')), plain(there), terminals, posix, begin(bytes.fromhex(stream))), int(status), plain(text)][script] += 1
    right, excepted, wrong = collections.Counter(), collections.Counter(), collections.Counter()
    with tempfile.TemporaryDirectory() as scratch, concurrent.futures.ThreadPoolExecutor(4) as workers:
        openzfs = OpenZfs(arguments.p, scratch)
        for (call, status, text), scripts, theirs in zip(calls, calls.values(), workers.map(lambda c: openzfs.says(*c), calls)):
            line = ' '.join(call[0])
            if theirs is None:
                right += scripts
            elif any(c.match(line) and t.match(text) for c, t in rules):
                excepted += scripts
            else:
                wrong += scripts
                print(f'{min(scripts)}: {line[:300]}')
                print(*difference((status, text), theirs), sep='\n')
    for script in sorted(set(right) | set(excepted) | set(wrong)):
        if wrong[script]:
            print(f'{script}: {right[script]} as OpenZFS says, {excepted[script]} as listed, {wrong[script]} not')
    print(f'refusals: {sum(right.values())} as OpenZFS says, {sum(excepted.values())} as listed, {sum(wrong.values())} not; {len(wrong)} scripts')
    return 1 if wrong else 0


if __name__ == '__main__':
    sys.exit(main())
