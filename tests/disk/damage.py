#!/usr/bin/python3
"""Damages a disk's files, while a server has them and before, and looks at what a client gets, what is logged and what the files hold then.
usage: damage.py SEED"""
import contextlib
import fcntl
import os
import random
import re
import struct
import sys
import threading
import time

from disk import PLACES, SUPERBLOCK, Client, Disk, Failed, due, named, sealed

SECTORS, PART = 64, 20
WORDS = {'local': 'the local sector', 'tags': 'the tag', 'remote': 'the remote sector'}
PAIRS = (('local', 'tags'), ('tags', 'remote'), ('local', 'remote'))


def equal(what, got, wanted):
    def shown(value):
        return value if not isinstance(value, bytes) else 'the right data' if value == wanted else 'wrong data'
    due(got == wanted, f'{what}: {shown(got)}, and {shown(wanted)} is due')


def has(what, text, *words):
    for word in words:
        due(word in text, f'{what}: "{word}" is not said, but: {text.strip() or "nothing"}')


def new_disk(rnd, part=PART, **more):
    """A disk with data in all sectors, and the data."""
    disk = Disk(rnd, SECTORS, part=part, **more)
    data = [rnd.randbytes(disk.s) for _ in range(SECTORS)]
    with disk.serve() as server:
        equal('filling the disk', Client(server).write(0, b''.join(data)), None)
        server.stop()
    return disk, data


@contextlib.contextmanager
def serving(disk, *options, env=None):
    with disk.serve(*options, env=env) as server:
        if not server.up:
            raise Failed(f'the server does not start: {server.said()}')
        yield server, Client(server)


def refused(disk, words, key='key', options=()):
    """That a server with these files ends at once, says why, and has changed nothing."""
    before = disk.state()
    with disk.serve(*options, key=key) as server:
        due(not server.up, f'a server starts, and "{words}" was due')
        has('the server that does not start', server.said(), words)
        due(server.process.returncode not in (0, None), 'a server that refuses ends with 0')
    due(disk.state() == before, f'a server that refuses ("{words}") has changed a file')


def all_right(disk, client, data, but=()):
    for x in range(SECTORS):
        if x not in but:
            equal(f'sector {x}', client.read(x), data[x])


def whole_after(disk):
    status = disk.tool('status')
    due(status.returncode == 0, f'status is {status.returncode}: {status.stdout.decode()}')
    due(disk.same_superblocks(), 'a superblock has changed')


# ---- one place


def one_place(rnd):
    """Each place by noise, by a single bit and by zeros: right data, one line in the log, the old bytes in the file."""
    disk, data = new_disk(rnd)
    with serving(disk) as (server, client):
        for x, place in enumerate(PLACES * 3):
            old = disk.place(place, x)
            bad = (rnd.randbytes(len(old)), bytes([old[0] ^ 4]) + old[1:], bytes(len(old)))[x // 3]
            disk.put(place, disk.at(place, x), bad)
            server.said()
            equal(f'{place} of {x} damaged', client.read(x), data[x])
            equal('the log', named(server.said(), f'doubtful at {WORDS[place]}, mended'), [x])
            due(disk.place(place, x) == old, f'{place} of sector {x} is not mended')
            equal(f'{x} again', client.read(x), data[x])
            equal('the log at the second read', server.said(), '')
    whole_after(disk)
    disk.remove()


def neighbours(rnd):
    """Requests over several sectors and parts, from anywhere to anywhere, with neighbours damaged alike and not alike: all of them are
    mended in the files."""
    disk, data = new_disk(rnd)
    with serving(disk) as (server, client):
        for first, count in ((5, 3), (5, 15), (5, 16), (10, 20), (19, 2), (19, 42), (39, 25), (0, SECTORS)):
            fresh = [rnd.randbytes(disk.s) for _ in range(count)]
            equal(f'{count} sectors to {first}', client.write(first, b''.join(fresh)), None)
            data[first:first + count] = fresh
            before = disk.state()
            for x in range(first, first + count):
                disk.harm(rnd, rnd.choice(PLACES) if x % 20 > 10 else PLACES[x // 20 % 3], x)
            server.said()
            equal(f'{count} sectors from {first}', client.read(first, count), b''.join(fresh))
            equal('what is mended', sorted(named(server.said(), 'doubtful at ')), list(range(first, first + count)))
            due(disk.state() == before, 'not all neighbours are mended')
        all_right(disk, client, data)
    whole_after(disk)
    disk.remove()


def not_mending(rnd):
    """mend=false: the data is given, and the file's bytes stay as they are; a write makes the sector whole all the same."""
    disk, data = new_disk(rnd)
    with serving(disk, 'mend=false') as (server, client):
        for x, place in enumerate(PLACES, 18):  # from one part into the next
            disk.harm(rnd, place, x)
        before = disk.state()
        for x, place in enumerate(PLACES, 18):
            equal(f'{place} of {x} damaged', client.read(x), data[x])
            has('the log', server.said(), f'sector {x}: doubtful at {WORDS[place]}, left as it is')
        equal('all in one', client.read(0, SECTORS), b''.join(data))
        due(disk.state() == before, 'with mend=false a read has changed a file')
        for x in (18, 19, 20):
            equal('a write', client.write(x, data[0]), None)
            equal('what was written', client.read(x), data[0])
    whole_after(disk)
    disk.remove()


def read_only(rnd):
    """nbdkit -r: as mend=false, and writes are refused."""
    disk, data = new_disk(rnd)
    for x, place in enumerate(PLACES, 18):
        disk.harm(rnd, place, x)
    before = disk.state()
    with serving(disk, '-r') as (server, client):
        all_right(disk, client, data)
        equal('what is left', sorted(named(server.said(), 'doubtful at ')), [18, 19, 20])
        equal('a write', client.write(3, data[3]), 'EPERM')
    due(disk.state() == before, 'with -r a file was changed')
    disk.remove()


def writes_over_one(rnd):
    """Whole and partial writes, and zeros, over a sector with one damaged place, alone and among others."""
    disk, data = new_disk(rnd)
    with serving(disk) as (_, client):
        for i, place in enumerate(PLACES):
            x = 10 * i
            for near in (x, x + 2, x + 4, x + 6, x + 8):
                disk.harm(rnd, place, near)
            data[x], data[x + 6] = rnd.randbytes(disk.s), bytes(disk.s)
            equal('a whole write', client.write(x, data[x]), None)
            equal('a partial write', client.write(x + 2, b'part', 100), None)
            data[x + 2] = data[x + 2][:100] + b'part' + data[x + 2][104:]
            span = rnd.randbytes(disk.s + 200)  # the end of one, and nearly all of the next, the damaged one
            equal('a write over an edge', client.write(x + 3, span, disk.s - 300), None)
            both = data[x + 3] + data[x + 4]
            both = both[:disk.s - 300] + span + both[2 * disk.s - 100:]
            data[x + 3], data[x + 4] = both[:disk.s], both[disk.s:]
            equal('zeros', client.zero(x + 6), None)
        all_right(disk, client, data)
    whole_after(disk)
    disk.remove()


def unreadable(rnd):
    """A page that the medium does not give is a damaged place, and no error; its neighbours in the same request are whole."""
    disk, data = new_disk(rnd)
    for place, whole in [(place, whole) for place in PLACES for whole in '01']:
        x = 7
        env = {'FAIL_READ': f'{place}:{disk.at(place, x)}', 'FAIL_WHOLE': whole}
        with serving(disk, env=env) as (server, client):
            equal(f'{place} of {x} unreadable', client.read(0, 20), b''.join(data[:20]))
            heard = server.said()
            bad = [x] if place != 'tags' else list(range(20))  # one page has all tags of this disk
            equal('what cannot be read', named(heard, f'{place} cannot be read'), bad)
            equal('what is mended', named(heard, f'doubtful at {WORDS[place]}, mended'), bad)
            equal('a partial write', client.write(x, b'part', 5), None)
            data[x] = data[x][:5] + b'part' + data[x][9:]
        with serving(disk) as (server, client):
            all_right(disk, client, data)
    whole_after(disk)
    disk.remove()


def cut_short(rnd):
    """A file that loses its end while it is served; a new server refuses it until it has its length again, and mends it then."""
    for place in PLACES:
        disk, data = new_disk(rnd)
        length = disk.at(place, SECTORS)
        with serving(disk) as (server, client):
            os.truncate(disk.path(place), disk.at(place, 40) + 3)
            equal('a sector behind the end', client.read(50), data[50])
            has('the log', server.said(), 'sector 50', 'cannot be read', f'doubtful at {WORDS[place]}')
            equal('the sector at the end', client.read(40), data[40])
            data[45] = rnd.randbytes(disk.s)
            equal('a write behind the end', client.write(45, data[45]), None)
            all_right(disk, client, data[:55], but=range(55, SECTORS))
        due(os.path.getsize(disk.path(place)) < length, 'the file was not short any more')
        refused(disk, 'cut short')
        os.truncate(disk.path(place), length)
        with serving(disk) as (server, client):
            all_right(disk, client, data)
        whole_after(disk)
        disk.remove()


# ---- two places, and more


def two_places(rnd):
    """Each pair of places: EIO, and the sectors beside are right, also where a write met a lost one."""
    disk, data = new_disk(rnd)
    with serving(disk) as (server, client):
        for x, pair in enumerate(PAIRS, 19):
            for place in pair:
                disk.harm(rnd, place, x)
        for x in (19, 20, 21):
            equal(f'{PAIRS[x - 19]} of {x} damaged', client.read(x), 'EIO')
            has('the log', server.said(), f'sector {x}: lost')
        equal('a read from 17 to 23', client.read(17, 7), 'EIO')
        all_right(disk, client, data, but=(19, 20, 21))
        equal('a part of 19', client.write(19, b'part', 7), 'EIO')
        equal('the end of 18 and a part of 19', client.write(18, bytes(200), disk.s - 100), 'EIO')
        equal('all of 19', client.write(19, data[0]), 'EIO')
        equal('zeros to 20', client.zero(20), 'EIO')
        equal('18, whole or not written', client.read(18) in (data[18], data[18][:-100] + bytes(100)), True)
        data[18] = client.read(18)
        all_right(disk, client, data, but=(19, 20, 21))
    equal('status', disk.tool('status').returncode, 2)
    disk.remove()


def lost_stay(rnd):
    """Refused writes leave each place of a lost sector as it is, and of the sectors beside it too."""
    disk, data = new_disk(rnd)
    for place, x in (('local', 33), ('tags', 33), ('remote', 34)):
        disk.harm(rnd, place, x)
    before = disk.state()
    for options in ((), ('overwrite-lost=false',), ('mend=false',)):
        with serving(disk, *options) as (_, client):
            for text, got in (('a read', client.read(33)), ('a part', client.write(33, b'part', 7)), ('all', client.write(33, data[0])),
                              ('all and two beside', client.write(32, b''.join(data[:3]))), ('zeros', client.zero(33))):
                equal(f'{text} of a lost sector, {options}', got, 'EIO')
    due(disk.state() == before, 'a refused write has changed a file')
    disk.remove()


def overwriting(rnd):
    """overwrite-lost=true: all of a lost sector may be written, a part may not; reads stay EIO until then."""
    disk, data = new_disk(rnd)
    for x, pair in enumerate(PAIRS * 2, 18):
        for place in pair:
            disk.harm(rnd, place, x)
    with serving(disk, 'overwrite-lost=true') as (server, client):
        for x in range(18, 24):
            equal('a read', client.read(x), 'EIO')
            before = disk.state()
            equal('a part', client.write(x, b'part', 7), 'EIO')
            due(disk.state() == before, 'a refused write has changed a file')
        equal('all of 20, and a part of 21', client.write(20, bytes(disk.s + 100)), 'EIO')
        equal('a part of 20, and all of 21', client.write(20, bytes(disk.s + 100), disk.s - 100), 'EIO')
        due(disk.state() == before, 'a refused write has changed a file')
        for x in (18, 19, 20):
            data[x] = rnd.randbytes(disk.s)
            equal('all of it', client.write(x, data[x]), None)
            equal('all of it again', client.read(x), data[x])
        fresh = rnd.randbytes(4 * disk.s)  # one that is right, and three lost ones
        equal('several', client.write(20, fresh), None)
        data[20:24] = [fresh[i:i + disk.s] for i in range(0, len(fresh), disk.s)]
        all_right(disk, client, data)
    whole_after(disk)
    disk.remove()


def overwriting_cut(rnd):
    """The power goes while a lost sector is written anew, at each write and each sync: it stays lost or is the new one, and no other; the
    sectors beside it in the same request are the old ones or the new ones."""
    disk, data = new_disk(rnd)
    ends = set()
    for turn in range(36):
        for place in PAIRS[turn % 3]:
            disk.harm(rnd, place, 19)
        fresh = [rnd.randbytes(disk.s) for _ in range(2)]
        cut = {'CUT_AT': str(4 + turn // 2), 'CUT_SEED': str(rnd.randrange(1 << 30))}
        with serving(disk, 'overwrite-lost=true', env=cut) as (_, client):
            done = client.write(18, b''.join(fresh)) is None
        with serving(disk) as (_, client):
            beside, got = client.read(18), client.read(19)
            due(beside == fresh[0] or (not done and beside == data[18]), f'turn {turn}: the sector beside is neither old nor new')
            due(got == fresh[1] or (not done and got == 'EIO'), f'turn {turn}: the lost sector is neither lost nor new')
            data[18] = beside
            ends.add((done, got == 'EIO'))
            all_right(disk, client, data, but=(19,))
    equal('all ends have come', ends, {(True, False), (False, False), (False, True)})
    disk.remove()


def clashing(rnd):
    """Two plaintexts with one tag, made by a hash key that is the field's one: then blocks may change places. One's local sector and the
    other's remote sector clash: EIO, whatever is written, and nothing is changed."""
    one = next(key for key in (b'\x80' + bytes(15), bytes(15) + b'\x01', b'\x01' + bytes(15)) if same_tag(rnd, key))
    disk, data = new_disk(rnd, key=one + rnd.randbytes(16))
    with serving(disk) as (server, client):
        for content in (data[5], swapped_blocks(data[5])):
            old = disk.place('local', 5)
            equal('a write', client.write(5, content), None)
        disk.put('local', disk.at('local', 5), old)
        before = disk.state()
        server.said()
        equal('a clashing sector', client.read(5), 'EIO')
        has('the log', server.said(), 'sector 5: clashing')
        equal('a part', client.write(5, b'part', 3), 'EIO')
        equal('all of it', client.write(5, data[0]), 'EIO')
        due(disk.state() == before, 'a clashing sector was changed')
        all_right(disk, client, data, but=(5,))
    equal('status', disk.tool('status').returncode, 2)
    disk.remove()


def swapped_blocks(plain):
    return plain[16:32] + plain[:16] + plain[32:]


def same_tag(rnd, hash_key):
    disk = Disk(rnd, 2, key=hash_key + rnd.randbytes(16))
    plain = rnd.randbytes(disk.s)
    tags = []
    with serving(disk) as (_, client):
        for content in (plain, swapped_blocks(plain)):
            equal('a write', client.write(0, content), None)
            tags.append(disk.place('tags', 0))
    disk.remove()
    return tags[0] == tags[1]


# ---- files and keys that are not the disk's


def wrong_keys(rnd):
    disk, _ = new_disk(rnd)
    keys = {'other': rnd.randbytes(32), 'short': disk.key[:31], 'long': disk.key + b'\n', 'zero': bytes(16) + disk.key[16:],
            'half': disk.key[:16] + rnd.randbytes(16), 'bit': disk.key[:31] + bytes([disk.key[31] ^ 1])}
    for name, key in keys.items():
        disk.put_key(name, key)
        words = '32 bytes' if name in ('short', 'long') else 'the hash key' if name == 'zero' else 'the key is not that of this disk'
        for options in ((), ('overwrite-lost=true', 'scrub=true')):
            refused(disk, words, key=name, options=options)
    refused(disk, 'No such file', key='none')
    disk.remove()


def patched(superblock, at, form, value):
    fresh = bytearray(superblock)
    struct.pack_into(form, fresh, at, value)
    return sealed(bytes(fresh))


def wrong_numbers(rnd):
    """Another first number or UUID in the superblocks, with the CRC made right: the key check finds it. And numbers that cannot be."""
    disk, _ = new_disk(rnd, number=7)
    changes = ((56, '<Q', 8, 'the key is not'), (16, '16s', rnd.randbytes(16), 'the key is not'), (8, '<I', 2, 'another version'),
               (100, '<B', 1, 'no disk has'), (32, '<I', 8192, 'no disk has'), (40, '<Q', 0, 'no disk has'), (48, '<I', 5, 'no disk has'),
               (56, '<Q', (1 << 64) - 3, 'no disk has'))
    for at, form, value, words in changes:
        for place, old in zip(PLACES, disk.superblocks):
            disk.put(place, 0, patched(old, at, form, value))
        refused(disk, words)
        for place, old in zip(PLACES, disk.superblocks):
            disk.put(place, 0, old)
    with serving(disk):
        pass
    disk.remove()


def other_disks_superblocks(rnd):
    """The superblocks of a second disk under the same key, with another number: they hold, but no sector does. Nothing may be written."""
    disk, data = new_disk(rnd)
    other, _ = new_disk(rnd, key=disk.key, number=100)
    for place, superblock in zip(PLACES, other.superblocks):
        disk.put(place, 0, superblock)
    before = disk.state()
    for options in ((), ('scrub=true',)):
        with serving(disk, *options) as (server, client):
            for x in range(SECTORS):
                equal(f'sector {x} under another number', client.read(x), 'EIO')
            equal('what is lost in the log', set(named(server.said(), 'lost')), set(range(SECTORS)))
            for text, got in (('all of a sector', client.write(3, data[3])), ('a part', client.write(4, b'part', 9)),
                              ('everything', client.write(0, b''.join(data))), ('zeros', client.zero(0, SECTORS))):
                equal(f'a write of {text} under another number', got, 'EIO')
            server.stop()
    due(disk.state() == before, 'under another number something was changed')
    for place, superblock in zip(PLACES, disk.superblocks):
        disk.put(place, 0, superblock)
    with serving(disk) as (_, client):
        all_right(disk, client, data)
    whole_after(disk)
    disk.remove(), other.remove()


def exchange(disk, one, two):
    os.rename(disk.path(one), disk.path('between'))
    os.rename(disk.path(two), disk.path(one))
    os.rename(disk.path('between'), disk.path(two))


def wrong_files(rnd):
    """Exchanged, foreign, too long, too short, missing, with a damaged superblock."""
    disk, data = new_disk(rnd)
    other, _ = new_disk(rnd, key=disk.key, number=1)
    for one, two in PAIRS:
        exchange(disk, one, two)
        refused(disk, f'is the {two} file of a disk')
        exchange(disk, one, two)
    for place in PLACES:
        mine, length = disk.path(place), disk.at(place, SECTORS)
        os.rename(mine, disk.path('kept'))
        with open(mine, 'wb') as f:
            f.write(other.bytes_of(place))
        refused(disk, 'is of another disk')
        os.unlink(mine)
        with disk.serve() as server:
            due(not server.up, 'a server starts without a file')
            has('the server', server.said(), 'No such file')
            due(not os.path.exists(mine), 'a server has made a file')
        os.rename(disk.path('kept'), mine)
        os.truncate(mine, length + 1)
        refused(disk, 'bytes')
        os.truncate(mine, length)
        for at, words in ((0, 'no superblock'), (40, 'damaged superblock'), (3000, 'damaged superblock'), (4077, 'damaged superblock'),
                          (4090, 'the key is that of another of the three files')):
            old = disk.bytes_of(place)[at:at + 1]
            disk.put(place, at, bytes([old[0] ^ 1]))
            refused(disk, words)
            disk.put(place, at, old)
    with serving(disk) as (_, client):
        all_right(disk, client, data)
    disk.remove(), other.remove()


def one_at_a_time(rnd):
    """While one serves, a second server and the tool are refused; a server is refused where another holds one of the files."""
    disk, data = new_disk(rnd)
    with serving(disk) as (_, client):
        before = disk.state()
        again = Disk.__new__(Disk)
        again.__dict__.update(disk.__dict__, socket=disk.socket + '2', folder=disk.folder)
        second = again.serve()
        due(not second.up, 'a second server starts')
        has('the second server', second.said(), 'in use')
        second.kill()
        for what, more, given in (('status', (), None), ('mend', (), None), ('read', ('sector=1',), None),
                                  ('write', ('sector=1',), bytes(disk.s)), ('replace', ('place=remote',), None)):
            ended = disk.tool(what, *more, data=given)
            due(ended.returncode == 3, f'{what} ends with {ended.returncode} beside a server')
            has(what, ended.stderr, 'is there' if what == 'replace' else 'in use')
        due(disk.state() == before, 'who was refused has changed something')
        all_right(disk, client, data)
    for place in PLACES:
        with open(disk.path(place), 'rb') as held:
            fcntl.flock(held, fcntl.LOCK_SH)
            refused(disk, 'in use')
    disk.remove()


# ---- all of a place, and stopping


def made_anew(disk, place):
    """One of the files is lost, and made anew by the tool: it has the superblock of the old one, and zeros in all places."""
    old = disk.bytes_of(place)
    os.unlink(disk.path(place))
    made = disk.tool('replace', f'place={place}')
    due(made.returncode == 0, f'replace: {made.returncode}, {made.stderr}')
    due(disk.bytes_of(place)[:SUPERBLOCK] == old[:SUPERBLOCK], 'replace makes another superblock')
    due(disk.bytes_of(place)[SUPERBLOCK:] == bytes(len(old) - SUPERBLOCK), 'replace makes something else than zeros')
    return old


def replaced(rnd):
    """Each file lost and made anew: a server with scrub=true mends all of it, though no client reads."""
    for place in PLACES:
        disk, data = new_disk(rnd)
        old = made_anew(disk, place)
        equal('status', disk.tool('status').returncode, 1)
        with serving(disk, 'scrub=true') as (server, client):
            has('the scrub', server.waits_for('scrub: done'), f'{SECTORS} of {SECTORS} sectors read, {SECTORS} doubtful, {SECTORS} mended',
                ' 0 suspect now')
            due(disk.bytes_of(place) == old, 'the mended file is not what it was')
            all_right(disk, client, data)
            server.stop()
            has('the end', server.said(), f'stopped: 0 of {SECTORS}')
        whole_after(disk)
        disk.remove()


def slow_scrub(rnd):
    """On a slow medium the scrub says how far it is, others read and write beside it, and a stop does not wait for its end."""
    disk = Disk(rnd, 1024, part=50)  # each part that is mended takes a sync
    made_anew(disk, 'remote')
    slow, zeros = {'SYNC_US': '300000'}, bytes(disk.s)
    with serving(disk, 'scrub=true', env=slow) as (server, client):
        server.stop()
        has('a scrub that is stopped', server.said(), 'scrub: stopped', 'stopped: ')
    equal('status', disk.tool('status').returncode, 1)
    with serving(disk, 'scrub=true', env=slow) as (server, client):
        data = rnd.randbytes(disk.s)
        equal('a write beside the scrub', client.write(1000, data), None)
        equal('a read beside the scrub', client.read(999, 3), zeros + data + zeros)
        heard = server.waits_for('scrub: done')
        due(re.search(r'scrub: \d+ of 1024 sectors read, \d+ suspect', heard), f'it says no progress, but: {heard}')
        equal('all of it', client.read(0, 1024), 1000 * zeros + data + 23 * zeros)
        server.stop()
    whole_after(disk)
    disk.remove()


def scrub_alone(rnd):
    """A scrub says what it has found; with mend=false it leaves it as it is."""
    disk, data = new_disk(rnd)
    for x, places in ((1, ('local',)), (30, ('tags',)), (40, ('remote',)), (63, ('local', 'remote'))):
        for place in places:
            disk.harm(rnd, place, x)
    before = disk.state()
    with serving(disk, 'scrub=true', 'mend=false') as (server, client):
        has('the scrub', server.waits_for('scrub: done'), '3 doubtful, 0 mended', '1 lost or clashing', '4 suspect now')
        all_right(disk, client, data, but=(63,))
    due(disk.state() == before, 'a scrub with mend=false has changed a file')
    with serving(disk, 'scrub=true') as (server, client):
        heard = server.waits_for('scrub: done')
        has('the scrub', heard, '3 doubtful, 3 mended', '1 lost or clashing', '1 suspect now')
        for x, place in ((1, 'local'), (30, 'tags'), (40, 'remote')):
            equal(f'what is doubtful at {place}', named(heard, f'doubtful at {WORDS[place]}, mended'), [x])
        equal('what is lost', named(heard, 'lost'), [63])
        all_right(disk, client, data, but=(63,))
    equal('status', disk.tool('status').returncode, 2)
    disk.remove()


def tool_and_server(rnd):
    """What the one has written the other reads, in each part; what the tool has mended the server finds whole."""
    disk, data = new_disk(rnd, number=(1 << 64) - 4)  # four parts: the last has the greatest number that there is
    for x in (0, 19, 20, 59, 60, 63):
        got = disk.tool('read', f'sector={x}')
        equal(f'sector {x} by the tool', got.stdout, data[x])
        data[x] = rnd.randbytes(disk.s)
        written = disk.tool('write', f'sector={x}', data=data[x])
        due(written.returncode == 0, f'write by the tool: {written.stderr}')
    equal('all sectors by the tool', disk.tool('read', 'sector=0', f'count={SECTORS}').stdout, b''.join(data))
    for x, place in enumerate(PLACES * 3, 18):
        disk.harm(rnd, place, x)
    equal('status', disk.tool('status').returncode, 1)
    equal('mend', disk.tool('mend').returncode, 0)
    with serving(disk) as (server, client):
        all_right(disk, client, data)
        equal('the log after a mend by the tool', named(server.said(), 'doubtful'), [])
    whole_after(disk)
    disk.remove()


def suspects(rnd):
    """At a clean stop the server says how many sectors are suspect."""
    disk, data = new_disk(rnd)
    for place in ('local', 'remote'):
        disk.harm(rnd, place, 3)
    with serving(disk) as (server, client):
        all_right(disk, client, data, but=(3,))
        equal('3', client.read(3), 'EIO')
        equal('the end', server.stop(), 0)
        has('the log', server.said(), 'stopped: 1 of 64')
    disk.remove()


# ---- a medium that fails


def failing_syncs(rnd):
    """A sync that fails: at the start the server does not start; later no more writes are taken, and reads go on."""
    disk, data = new_disk(rnd)
    for k in (1, 2, 3):
        with disk.serve(env={'FAIL_SYNC_AT': str(k)}) as server:
            due(not server.up, f'a server starts though sync {k} has failed')
            has('the server', server.said(), 'cannot be flushed')
    for k in (4, 5, 6, 7, 8, 9):
        with serving(disk, env={'FAIL_SYNC_AT': str(k)}) as (server, client):
            fresh = [rnd.randbytes(disk.s) for _ in range(2)]
            results = [client.write(x, fresh[x]) for x in (0, 1)]
            equal(f'two writes, sync {k} failing', results, ['EIO', 'EIO'] if k < 7 else [None, 'EIO'])
            has('the log', server.said(), 'flushing has failed')
            before = disk.state()
            for text, got in (('a write', client.write(9, fresh[0])), ('a part', client.write(10, b'part', 4)), ('zeros', client.zero(11)),
                              ('a flush', client.flush())):
                equal(f'{text} after a failed sync', got, 'EIO')
            due(disk.state() == before, 'after a failed sync something was written')
            all_right(disk, client, data, but=(0, 1))
            equal('0 and 1', all(client.read(x) in (data[x], fresh[x]) for x in (0, 1)), True)
        with serving(disk) as (_, client):
            got = [client.read(x) for x in (0, 1)]
            due(all(got[x] in ((fresh[x],) if results[x] is None else (data[x], fresh[x])) for x in (0, 1)), 'neither old nor new')
            data[:2] = got
            all_right(disk, client, data)
    whole_after(disk)
    disk.remove()


def failing_writes(rnd):
    """A write that the medium refuses, half done: EIO, the old data or the new, and the server goes on."""
    disk, data = new_disk(rnd)
    for k in range(1, 7):
        with serving(disk, env={'FAIL_WRITE_AT': str(k)}) as (server, client):
            fresh = [rnd.randbytes(disk.s) for _ in range(2)]
            results = [client.write(x, content) for x, content in zip((19, 20), fresh)]
            equal(f'two writes, pwrite {k} failing', results, ['EIO', None] if k < 4 else [None, 'EIO'])
            has('the log', server.said(), 'cannot be written')
            for i, x in enumerate((19, 20)):
                got = client.read(x)
                due(got == fresh[i] or (results[i] and got == data[x]), f'sector {x} is neither old nor new')
                data[x] = got
            all_right(disk, client, data)
            equal('a flush', client.flush(), None)
    whole_after(disk)
    disk.remove()


def failing_mends(rnd):
    """A mend that the medium refuses: the data is given all the same, the log says that it is not mended, and a later read mends it."""
    disk, data = new_disk(rnd)
    for place in PLACES:
        disk.harm(rnd, place, 21)
        with serving(disk, env={'FAIL_WRITE_AT': '1'}) as (server, client):
            equal('a read whose mend fails', client.read(20, 3), b''.join(data[20:23]))
            equal('the log', named(server.said(), f'doubtful at {WORDS[place]}, not mended'), [21])
            equal('the next read', client.read(21), data[21])
            equal('the log', named(server.said(), f'doubtful at {WORDS[place]}, mended'), [21])
            equal('a write', client.write(21, data[21]), None)
        disk.harm(rnd, place, 22)
        with serving(disk, env={'FAIL_SYNC_AT': '4'}) as (server, client):
            equal('a read whose mend is not synced', client.read(22), data[22])
            equal('the log', named(server.said(), f'doubtful at {WORDS[place]}, not mended'), [22])
            disk.harm(rnd, place, 23)
            before = disk.state()
            equal('a write after that', client.write(30, data[30]), 'EIO')
            all_right(disk, client, data)
            due(disk.state() == before, 'after a failed sync something was written')
        with serving(disk) as (_, client):
            all_right(disk, client, data)
    whole_after(disk)
    disk.remove()


# ---- several clients at once


def quarters(rnd):
    """Four clients, each with a quarter of each sector of its own: what one writes never undoes what another has written."""
    disk, data = new_disk(rnd)
    size, last, wrong = disk.s // 4, {}, []
    with serving(disk) as (server, client):
        def work(me, dice):
            mine = Client(server)
            for _ in range(60):
                x, piece = dice.randrange(3), dice.randbytes(size)
                if mine.write(x, piece, me * size) is not None:
                    wrong.append(f'client {me} cannot write')
                last[x, me] = piece
        threads = [threading.Thread(target=work, args=(me, random.Random(rnd.random()))) for me in range(4)]
        for thread in threads:
            thread.start()
        for thread in threads:
            thread.join()
        due(not wrong, f'{wrong}')
        for (x, me), piece in last.items():
            data[x] = data[x][:me * size] + piece + data[x][(me + 1) * size:]
        all_right(disk, client, data)
    whole_after(disk)
    disk.remove()


CASES = (one_place, neighbours, not_mending, read_only, writes_over_one, unreadable, cut_short, two_places, lost_stay, overwriting,
         overwriting_cut, clashing, wrong_keys, wrong_numbers, other_disks_superblocks, wrong_files, one_at_a_time, replaced, slow_scrub,
         scrub_alone, tool_and_server, suspects, failing_syncs, failing_writes, failing_mends, quarters)


def main(seed, *names):
    bad = 0
    for case in CASES:
        if names and case.__name__ not in names:
            continue
        began = time.time()
        try:
            case(random.Random(f'{case.__name__} {seed}'))
            if names:
                print(f'{case.__name__}: good, {time.time() - began:.2f} s')
        except Failed as failure:
            bad += 1
            print(f'damage, {case.__name__}, seed {seed}: {failure}', file=sys.stderr)
    print(f'damage: {len(CASES)} cases, {bad} of them failed')
    return bad != 0


if __name__ == '__main__':
    sys.exit(main(*sys.argv[1:]))
