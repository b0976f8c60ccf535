"""What the tests of a served disk share: its files, its server, a client, and what the server has said.

Named in the environment by tests/check_disk: DISK_PLUGIN, DISK_TOOL and DISK_CUT (what is tested, and cut.so), DISK_MADE (a folder for
files) and DISK_SOCKETS (a folder with a short name, as a socket's path has less than 108 bytes).
"""
import hashlib
import os
import re
import shutil
import signal
import struct
import subprocess
import tempfile
import time
import zlib

import nbd

PLACES = ('local', 'tags', 'remote')
SUPERBLOCK = 4096


class Failed(Exception):
    """What was to be so is not."""


class Lost(Failed):
    """A sector does not hold what it must."""


def due(condition, text, kind=Failed):
    if not condition:
        raise kind(text)


class Disk:
    """The three files and the key of a disk, in a folder of its own, made by `mirror-volume create`."""

    def __init__(self, rnd, sectors, s=4096, part=65536, number=0, key=None):
        self.sectors, self.s, self.part, self.number = sectors, s, part, number
        self.folder = tempfile.mkdtemp(dir=os.environ['DISK_MADE'])
        self.socket = os.path.join(os.environ['DISK_SOCKETS'], os.path.basename(self.folder))
        self.key = key or rnd.randbytes(32)
        self.put_key('key', self.key)
        made = self.tool('create', f'size={sectors * s}', f'sector={s}', f'number={number}', f'part={part}')
        due(made.returncode == 0, f'create: {made.stderr}')
        self.superblocks = [self.bytes_of(place)[:SUPERBLOCK] for place in PLACES]

    def put_key(self, name, key):
        with open(self.path(name), 'wb', opener=lambda path, flags: os.open(path, flags, 0o600)) as f:
            f.write(key)

    def path(self, name):
        return os.path.join(self.folder, name)

    def parameters(self, key='key'):
        return [f'{place}={self.path(place)}' for place in PLACES] + [f'key={self.path(key)}']

    def environment(self, env):
        """Where variables for cut.so are given, it is loaded."""
        return {**os.environ, 'LD_PRELOAD': os.environ['DISK_CUT'], 'CUT_DIR': self.folder, **env} if env else None

    def tool(self, what, *more, key='key', data=None, env=None):
        """mirror-volume, with this disk's files. What it prints is bytes."""
        command = [os.environ['DISK_TOOL'], what, *self.parameters(key), *more]
        ended = subprocess.run(command, input=data, capture_output=True, timeout=60, env=self.environment(env))
        ended.stderr = ended.stderr.decode()
        return ended

    def unit(self, place):
        return 16 if place == 'tags' else self.s

    def at(self, place, x):
        """Where the place of sector x begins in its file."""
        return SUPERBLOCK + x * self.unit(place)

    def bytes_of(self, place):
        with open(self.path(place), 'rb') as f:
            return f.read()

    def put(self, place, at, data):
        with open(self.path(place), 'r+b') as f:
            f.seek(at)
            f.write(data)

    def place(self, place, x):
        """The bytes that one place of sector x holds."""
        return self.bytes_of(place)[self.at(place, x):self.at(place, x + 1)]

    def harm(self, rnd, place, x):
        """Overwrites one place of sector x by noise."""
        self.put(place, self.at(place, x), rnd.randbytes(self.unit(place)))

    def state(self):
        """What the three files hold, to see that nothing has changed."""
        return [hashlib.sha256(self.bytes_of(place)).hexdigest() for place in PLACES]

    def same_superblocks(self):
        return all(self.bytes_of(place)[:SUPERBLOCK] == self.superblocks[i] for i, place in enumerate(PLACES))

    def serve(self, *options, env=None, key='key'):
        return Server(self, options, env, key)

    def remove(self):
        shutil.rmtree(self.folder)


def sealed(superblock):
    """The superblock with its CRC made right again; the key check behind it stays."""
    return superblock[:4076] + struct.pack('<I', zlib.crc32(superblock[:4076])) + superblock[4080:]


def named(text, words):
    """The sectors of which a log says these words: "sector 3: words" or "sectors 3 to 5: words"."""
    found = re.findall(rf'sectors? (\d+)(?: to (\d+))?: {re.escape(words)}', text)
    return [x for first, last in found for x in range(int(first), int(last or first) + 1)]


class Server:
    """nbdkit with the plugin. It is up when the constructor returns, or has ended: `up` says which."""

    def __init__(self, disk, options=(), env=None, key='key'):
        self.disk, self.log, self.seen, self.clients = disk, disk.path('log'), 0, []
        if os.path.exists(self.log):
            self.seen = os.path.getsize(self.log)
        pid = disk.path('pid')
        for old in (disk.socket, pid):
            if os.path.exists(old):
                os.unlink(old)
        flags = [option for option in options if option.startswith('-')]
        command = ['nbdkit', '-f', '--exit-with-parent', '-U', disk.socket, '-P', pid, *flags, os.environ['DISK_PLUGIN'],
                   *disk.parameters(key), *(option for option in options if option not in flags)]
        with open(self.log, 'ab') as log:
            self.process = subprocess.Popen(command, stderr=log, env=disk.environment(env))
        # nbdkit writes the file of its number when it listens.
        limit = time.time() + 30
        while not (os.path.exists(pid) and os.path.getsize(pid)) and self.process.poll() is None:
            due(time.time() < limit, 'the server does not start')
            time.sleep(0.002)
        self.up = self.process.poll() is None

    def __enter__(self):
        return self

    def __exit__(self, *_):
        self.kill()

    def connect(self):
        handle = nbd.NBD()
        handle.connect_unix(self.disk.socket)
        return handle

    def kill(self):
        if self.process.poll() is None:
            self.process.kill()
        return self.process.wait()

    def stop(self):
        """A clean stop. nbdkit waits for its clients to go."""
        for client in self.clients:
            client.handle.shutdown()
        self.clients.clear()
        if self.process.poll() is None:
            self.process.send_signal(signal.SIGTERM)
        return self.process.wait(timeout=30)

    def said(self):
        """What the server has said since the last call of this."""
        with open(self.log, errors='replace') as f:
            f.seek(self.seen)
            text = f.read()
            self.seen = f.tell()
        return text

    def waits_for(self, text, seconds=30):
        """Everything that is said until these words are."""
        heard, limit = self.said(), time.time() + seconds
        while text not in heard:
            due(time.time() < limit and self.process.poll() is None, f'the server does not say "{text}", but: {heard}')
            time.sleep(0.01)
            heard += self.said()
        return heard


class Client:
    """One connection. What fails gives the name of the error in place of the data."""

    def __init__(self, server):
        self.s, self.handle = server.disk.s, server.connect()
        server.clients.append(self)

    def _do(self, call, *arguments):
        try:
            return call(*arguments)
        except nbd.Error as error:
            return error.errno

    def read(self, x, count=1):
        got = self._do(self.handle.pread, count * self.s, x * self.s)
        return got if isinstance(got, str) else bytes(got)

    def write(self, x, data, skip=0):
        return self._do(self.handle.pwrite, data, x * self.s + skip)

    def zero(self, x, count=1):
        return self._do(self.handle.zero, count * self.s, x * self.s)

    def flush(self):
        return self._do(self.handle.flush)
