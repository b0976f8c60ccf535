#!/usr/bin/python3
"""Kills the server, or cuts the power of its medium, at random moments in a stream of writes, again and again on one disk. After each, each
sector must hold what the last acknowledged write put there; where a write was under way, the old or the new, sector by sector.

usage: crash.py kill|cut|kill-cut|tool ROUNDS SEED SECTOR_BYTES [local|tags|remote|start]

  kill      kill -9
  cut       the power goes under a server (cut.so)
  kill-cut  kill -9, a new server, and then the power goes: what the killed one had written and not synced may be undone by that, unless the
            new one has synced the files before it served
  tool      kill -9, and then the power goes under mirror-volume, which reads, mends or writes; or when it has ended

With a name at the end the syncs of that file, or the three at the start after a kill, are left out: then it must fail, and does so only if
no round finds out.
"""
import os
import random
import sys
import threading
import time

import nbd

from disk import PLACES, Disk, Failed, Lost, due, named

SECTORS, PART, DEPTH = 70, 20, 8
SHORTEST, LONGEST = 0.005, 0.15  # seconds until a kill
MOST = 20  # seconds in which a cut must have come
WORDS = {'local': 'the local sector', 'tags': 'the tag', 'remote': 'the remote sector'}


class Journal:
    """What each sector may hold: one content if the last write to it was acknowledged, several if one was under way."""

    def __init__(self, disk):
        self.s, self.may, self.acknowledged = disk.s, [{bytes(disk.s)} for _ in range(disk.sectors)], 0

    def send(self, start, data):
        """Notes a write of bytes; gives its first sector, and what each sector that it touches will hold."""
        first, last = start // self.s, (start + len(data) - 1) // self.s
        old = b''.join(next(iter(self.may[x])) for x in range(first, last + 1))
        skip = start - first * self.s
        new = old[:skip] + data + old[skip + len(data):]
        contents = [new[i:i + self.s] for i in range(0, len(new), self.s)]
        for x, content in enumerate(contents, first):
            self.may[x] = self.may[x] | {content}
        return first, contents

    def acknowledge(self, first, contents):
        self.acknowledged += 1
        for x, content in enumerate(contents, first):
            self.may[x] = {content}

    def find(self, x, got):
        """What a read gave is what it is from now on."""
        due(got in self.may[x], f'sector {x} is neither old nor new', Lost)
        self.may[x] = {got}

    def open_sectors(self):
        return [x for x, may in enumerate(self.may) if len(may) > 1]


class Stream:
    """Keeps several requests on their way, no two of them on one sector."""

    def __init__(self, rnd, handle, journal, chosen=()):
        self.rnd, self.handle, self.journal, self.chosen, self.flying = rnd, handle, journal, list(chosen), {}

    def pick(self):
        """The bytes to write next, from where to where: whole sectors, or some that begin or end within one."""
        s, rnd = self.journal.s, self.rnd
        if self.chosen:
            x = self.chosen.pop()
            return x * s, (x + 1) * s
        x, count = rnd.randrange(SECTORS), rnd.choice([1, 1, 1, 2, 5])
        start, end = x * s, min(x + count, SECTORS) * s
        if rnd.random() < 0.3:
            start, end = start + rnd.randrange(s), end - rnd.randrange(s)
        return start, end

    def free(self, start, end):
        """Whether no other request is there, and whether what is beside the bytes, in their sectors, is known."""
        s = self.journal.s
        first, last = start // s, (end - 1) // s
        if any(first < a + len(contents) and a <= last for a, contents, _ in self.flying.values()):
            return False
        edges = ([first] if start % s else []) + ([last] if end % s else [])
        return all(len(self.journal.may[x]) == 1 for x in edges)

    def fill(self):
        while len(self.flying) < DEPTH:
            start, end = self.pick()
            if start >= end or not self.free(start, end):
                continue
            kind = self.rnd.random()
            if kind < 0.15 and self.known(start, end):
                self.send_read(start, end)
            elif kind < 0.25:
                sent = self.journal.send(start, bytes(end - start))
                self.flying[self.handle.aio_zero(end - start, start)] = (*sent, None)
            else:
                data = self.rnd.randbytes(end - start)
                sent = self.journal.send(start, data)
                self.flying[self.handle.aio_pwrite(nbd.Buffer.from_bytearray(bytearray(data)), start)] = (*sent, None)

    def known(self, start, end):
        """Whether these are whole sectors of which each can hold one content only."""
        s = self.journal.s
        return start % s == end % s == 0 and all(len(self.journal.may[x]) == 1 for x in range(start // s, end // s))

    def send_read(self, start, end):
        s, buffer = self.journal.s, nbd.Buffer(end - start)
        contents = [next(iter(self.journal.may[x])) for x in range(start // s, end // s)]
        self.flying[self.handle.aio_pread(buffer, start)] = (start // s, contents, buffer)

    def collect(self):
        """Waits for answers, and notes them: those too that came just before the end."""
        try:
            self.handle.poll(50)
        except nbd.Error:
            pass
        for cookie, (first, contents, buffer) in list(self.flying.items()):
            try:
                if not self.handle.aio_command_completed(cookie):
                    continue
            except nbd.Error as error:
                due(error.errno != 'EIO', f'a request to sector {first} is refused', Lost)
            else:
                if buffer is None:
                    self.journal.acknowledge(first, contents)
                else:
                    due(bytes(buffer.to_bytearray()) == b''.join(contents), f'a read of sector {first} gives other data', Lost)
            del self.flying[cookie]

    def run(self):
        """Until the server is gone."""
        limit = time.time() + MOST
        while not (self.handle.aio_is_dead() or self.handle.aio_is_closed()):
            due(time.time() < limit, 'neither a kill nor a cut came')
            try:
                self.fill()
            except nbd.Error:
                due(not self.handle.aio_is_ready(), 'a request cannot be sent')
            self.collect()
        self.collect()


class Trial:
    def __init__(self, kind, seed, s, skip):
        self.kind, self.skip, self.rnd = kind, skip, random.Random(f'{kind} {seed} {s} {skip}')
        self.disk = Disk(self.rnd, SECTORS, s, PART, self.rnd.randrange(1000))
        self.journal = Journal(self.disk)
        self.kills = self.cuts = self.early = 0

    def look(self, handle, sectors):
        """Reads sectors; gives False if the server has gone on the way: a cut may come in a mend."""
        s = self.disk.s
        for x in sectors:
            try:
                got = bytes(handle.pread(s, x * s))
            except nbd.Error as error:
                due(error.errno != 'EIO', f'sector {x} cannot be read', Lost)
                return False
            self.journal.find(x, got)
        return True

    def life(self, env, kill, sectors, chosen=()):
        """A server from its start to its end: what is there is looked at, and then written to."""
        options = ['scrub=true'] if self.rnd.random() < 0.3 else []
        with self.disk.serve(*options, env=env) as server:
            if not server.up:
                self.early += 1  # the cut came while it started
            else:
                try:
                    handle = server.connect()
                except nbd.Error:
                    handle = None
                timer = threading.Timer(self.rnd.uniform(SHORTEST, LONGEST), server.process.kill)
                if handle and self.look(handle, sectors):
                    if kill:
                        timer.start()
                    Stream(self.rnd, handle, self.journal, chosen).run()
                    timer.cancel()
            code = server.process.wait(timeout=MOST)
        due(code == (-9 if kill else 99), f'the server ended with {code}: {self.last_words()}')
        self.kills, self.cuts = self.kills + (code == -9), self.cuts + (code == 99)

    def last_words(self):
        with open(self.disk.path('log')) as log:
            return log.read().splitlines()[-1:]

    def cut_env(self, most, **more):
        env = {'CUT_AT': str(self.rnd.randint(1, most)), 'CUT_SEED': str(self.rnd.randint(1, 1 << 30)), 'SYNC_US': '300', **more}
        if self.skip in PLACES:
            env['CUT_SKIP'] = self.skip
        return env

    def round(self):
        everything, left = range(SECTORS), self.journal.open_sectors()
        if left and self.kind != 'kill-cut' and self.rnd.random() < 0.5:
            everything = [x for x in everything if x not in left]  # what was under way is written to before it is read and so mended
        if self.kind == 'kill':
            self.life(None, True, everything, left)
        elif self.kind == 'cut':
            self.life(self.cut_env(self.rnd.choice([20, 250, 250])), False, everything, left)
        else:
            more = {'CUT_LOG': self.disk.path('unsynced')}
            self.life({'CUT_AT': '0', 'SYNC_US': '300', **more}, True, everything)
            left = self.journal.open_sectors()
            if self.skip == 'start':
                more['CUT_SKIP_FIRST'] = '3'
            # What the killed server had under way is where a sync at the start is missed: looked at, and written to at once.
            if self.kind == 'kill-cut':
                self.life(self.cut_env(20, **more), False, self.rnd.choice([left, []]), left)
            else:
                self.with_tool(self.cut_env(14, **more))
            os.unlink(more['CUT_LOG'])

    def with_tool(self, env):
        """A command of the tool, and the power goes in it or, at the latest, at the first thing that a new server does."""
        what, s, sent = self.rnd.choice(['read', 'mend', 'write']), self.disk.s, None
        if what == 'read':
            ended = self.disk.tool('read', 'sector=0', f'count={SECTORS}', env={**env, 'CUT_AT': '0'})
            for x in range(SECTORS if ended.returncode in (0, 1) else 0):
                self.journal.find(x, ended.stdout[x * s:(x + 1) * s])
        elif what == 'mend':
            ended = self.disk.tool('mend', env=env)
        else:
            first = self.rnd.randrange(SECTORS)
            data = self.rnd.randbytes(s * self.rnd.randint(1, min(30, SECTORS - first)))
            sent = self.journal.send(first * s, data)
            ended = self.disk.tool('write', f'sector={first}', data=data, env=env)
        good = (0, 1) if what == 'read' else (0, 99)  # 1: there are doubtful ones
        due(ended.returncode in good, f'{what} by the tool ends with {ended.returncode}: {ended.stderr.splitlines()[:1]}', Lost)
        if ended.returncode == 99:
            self.cuts += 1
            return
        if sent:
            self.journal.acknowledge(*sent)
        self.life({**env, 'CUT_AT': '1'}, False, [])

    def at_the_end(self):
        """All sectors once more, and whole after that; the superblocks are what they were."""
        with self.disk.serve() as server:
            due(self.look(server.connect(), range(SECTORS)), 'the server has gone')
            server.stop()
        status = self.disk.tool('status')
        due(status.returncode == 0, f'status ends with {status.returncode}: {status.stdout.decode()}{status.stderr}')
        due(self.disk.same_superblocks(), 'a superblock has changed')

    def figures(self):
        with open(self.disk.path('log')) as log:
            text = log.read()
        mends = ' '.join(f'{place}={len(named(text, f"doubtful at {word}, mended"))}' for place, word in WORDS.items())
        both = self.cuts if self.kills else 0
        return f'kills={self.kills} cuts={self.cuts} both={both} early={self.early} acknowledged={self.journal.acknowledged} {mends}'


def main(kind, rounds, seed, s, skip=None):
    trial = Trial(kind, seed, int(s), skip)
    done = 0
    try:
        for done in range(1, int(rounds) + 1):
            trial.round()
        trial.at_the_end()
    except Failed as failure:
        if skip and isinstance(failure, Lost):
            print(f'{kind}, without the syncs of {skip}: found in round {done}, {failure}; needed={done}')
            trial.disk.remove()
            return 0
        print(f'{kind}, seed {seed}, sectors of {s} bytes, round {done}: {failure}; see {trial.disk.folder}', file=sys.stderr)
        return 1
    print(f'{kind}, sectors of {s} bytes: {trial.figures()}')
    if skip:
        print(f'{kind}, without the syncs of {skip}: not found in {rounds} rounds', file=sys.stderr)
    trial.disk.remove()
    return 1 if skip else 0


if __name__ == '__main__':
    sys.exit(main(*sys.argv[1:]))
