#!/usr/bin/env bash
# export.sh [PROGRAM]: times an image that the program exports over three layers, beside the same image as a chain of three qcow2
# files and a fourth for writes that qemu-nbd exports. Each figure is the median of ROUNDS (3) runs of SECONDS_EACH (4) seconds, in
# which the two servers take turns; the third column is what the program does for each that qemu-nbd does, the last two are the
# microseconds of processors that each server uses for a request, or for a MiB. Each run has a server of its own, over an image in
# which nothing was written. The caches of the system are warm. The program's cache has room for the whole image, which was read once,
# but where a line says otherwise. Then it prints
#   - the time from the server's start to the first byte of a read, over 1, 16 and 64 layers (milliseconds: less is better);
#   - the reads of a client beside another that writes 4 KiB and flushes, again and again, and how long 99 of 100 of them take;
#   - the most memory that a server had while four connections read and write 32 MiB at a time, with a cache of 64 MiB, and what it
#     keeps while they stay open;
#   - requests of 4 KiB, one by one, before a commit of the whole image and while it goes on;
#   - the system calls of each request, by strace, with such a cache that is empty at first.
# It needs libnbd-bin, qemu-utils, fio, strace and python3, takes nine minutes and 12 GB of temporary room; MIB is the image's size
# (1024 where it is not said, a multiple of 128). PARTS names what is printed (rates opening beside memory commit calls). PROGRAM is
# crates/overlay_tool/out/overlay_tool, as `rt run` leaves it, where none is named.
set -eu
top=$(cd "$(dirname "$0")/.." && pwd)
program=$(realpath "${1:-$top/crates/overlay_tool/out/overlay_tool}")
[ -x "$program" ] || { echo "run 'rt run' in crates/overlay_tool first"; exit 1; }
work=$(mktemp -d)
trap 'rm -rf "$work"' EXIT
cd "$work"
python3 - "$top" "$program" <<'PYTHON'
import json, os, random, signal, socket, statistics, struct, subprocess, sys, threading, time

top, program = sys.argv[1:]
mib = int(os.environ.get('MIB', 1024))
seconds = os.environ.get('SECONDS_EACH', '4')
rounds = int(os.environ.get('ROUNDS', 3))
parts = os.environ.get('PARTS', 'rates opening beside memory commit calls').split()
quiet = dict(check=True, stdout=subprocess.DEVNULL, stderr=subprocess.PIPE)
draw = random.Random(1)


def run(*words):
    return subprocess.run(list(map(str, words)), **quiet)


def free_port():
    with socket.socket() as it:
        it.bind(('127.0.0.1', 0))
        return it.getsockname()[1]


def make_chain(name, size, count, changes):
    """Layers and qcow2 files of the same stack of images, and the raw image that they make."""
    image, below, parent = bytearray(size), None, []
    for number in range(count):
        for _ in range(changes):
            at = 4096 * draw.randrange(size // 4096 - 32)
            image[at:at + 131072] = draw.randbytes(131072)
        raw, own = f'{name}-{number}.raw', f'{number + 1:08x}-1111-1111-1111-111111111111'
        with open(raw, 'wb') as file:
            file.write(image)
        over = ['--over', below] if below else []
        run(f'{top}/tools/make_layer.py', raw, f'{name}-{number}.layer', *over, *parent, '--uuid', own)
        chain = ['-B', f'{name}-{number - 1}.qcow2', '-F', 'qcow2'] if below else []
        run('qemu-img', 'convert', '-q', '-f', 'raw', '-O', 'qcow2', *chain, raw, f'{name}-{number}.qcow2')
        if below:
            os.remove(below)
        below, parent = raw, ['--parent', own]


def open_stream(port):
    """A connection behind its handshake."""
    until = time.monotonic() + 20
    while True:
        try:
            stream = socket.create_connection(('127.0.0.1', port))
            break
        except ConnectionRefusedError:
            if time.monotonic() > until:
                raise
    stream.setsockopt(socket.IPPROTO_TCP, socket.TCP_NODELAY, 1)
    def take(count):
        got = b''
        while len(got) < count:
            more = stream.recv(count - len(got))
            if not more:
                raise EOFError
            got += more
        return got
    take(18)
    stream.sendall(struct.pack('>I8sIIIH', 3, b'IHAVEOPT', 7, 6, 0, 0))
    while True:
        _, _, kind, length = struct.unpack('>QIII', take(20))
        take(length)
        if kind == 1:
            return stream, take


def ask(stream, take, command, at, size=4096):
    """A read, or a write, of 4 KiB or of another size."""
    stream.sendall(struct.pack('>IHHQQI', 0x25609513, 0, command, 1, at, size) + bytes(size * command))
    take(16 + size * (1 - command))


def read_first(port):
    stream, take = open_stream(port)
    with stream:
        ask(stream, take, 0, 0)


class Ours:
    name = 'overlay_tool'
    cache = 16384

    def __init__(self, chain, count):
        files = [f'{chain}-{number}.layer' for number in range(count)]
        self.port, self.control = free_port(), free_port()
        run('rm', '-rf', 'disk')
        os.mkdir('disk')
        with open('image.json', 'w') as config:
            json.dump({'disk': 'disk', 'lowers': {'files': files}, 'cache_blocks': self.cache, 'lanes': 8,
                       'listen': f'127.0.0.1:{self.port}', 'control': f'127.0.0.1:{self.control}'}, config)
        run(program, '--config', 'image.json', 'create')
        self.words = [program, '--config', 'image.json', 'export']


class Peer:
    name = 'qemu-nbd'

    def __init__(self, chain, count):
        self.port = free_port()
        run('rm', '-f', 'top.qcow2')
        run('qemu-img', 'create', '-q', '-f', 'qcow2', '-b', f'{chain}-{count - 1}.qcow2', '-F', 'qcow2', 'top.qcow2')
        self.words = ['qemu-nbd', '-t', '-e', '8', '-p', str(self.port), '-b', '127.0.0.1', '-f', 'qcow2', '--cache=writeback', 'top.qcow2']


class Served:
    """A server over an image in which nothing was written, for as long as it is needed."""

    def __init__(self, kind, chain='wide', count=3):
        self.kind = kind(chain, count)

    def __enter__(self):
        self.process = subprocess.Popen(self.kind.words)
        self.port, self.uri = self.kind.port, f'nbd://127.0.0.1:{self.kind.port}'
        read_first(self.port)
        return self

    def __exit__(self, *_):
        self.process.send_signal(signal.SIGKILL)
        self.process.wait()

    def used(self):
        """The microseconds of processors that the server has used."""
        with open(f'/proc/{self.process.pid}/stat') as file:
            fields = file.read().rpartition(')')[2].split()
        return (int(fields[11]) + int(fields[12])) * 1e6 / os.sysconf('SC_CLK_TCK')

    def memory(self, kind):
        with open(f'/proc/{self.process.pid}/status') as file:
            return next(int(line.split()[1]) // 1024 for line in file if line.startswith(kind))


def fio_words(server, way, size, *more):
    return ['fio', '--name=x', '--ioengine=nbd', f'--uri={server.uri}', f'--rw={way}', f'--bs={size}', f'--size={mib}m', '--group_reporting',
            '--output-format=json', *more]


def fio(server, way, size, *more):
    out = subprocess.run(fio_words(server, way, size, *more), capture_output=True, text=True, check=True).stdout
    return json.loads(out[out.index('{'):])['jobs'][0]['write' if 'write' in way else 'read']


def timed(server, way, size, *more):
    return fio(server, way, size, '--time_based', f'--runtime={seconds}', *more)


# Each of these gives a figure, and how many requests or MiB there were.
def rate(*words):
    def measure(server):
        job = timed(server, *words)
        return job['iops'], job['total_ios']
    return measure


def bandwidth(*words):
    def measure(server):
        job = fio(server, *words)
        return job['bw'] / 1024, job['io_bytes'] / 2 ** 20
    return measure


def copied(server):
    start = time.monotonic()
    for _ in range(2):
        run('nbdcopy', '--connections=4', server.uri, 'null:')
    return 2 * mib / (time.monotonic() - start), 2 * mib


def line(name, ours, peer, used=''):
    print(f'{name:50}{ours:12.{0 if ours >= 100 else 1}f}{peer:12.{0 if peer >= 100 else 1}f}{ours / peer:8.2f}{used}', flush=True)


def compare(name, measure, warm=False):
    found, used = {Ours: [], Peer: []}, {Ours: [], Peer: []}
    for number in range(rounds):
        for kind in (Ours, Peer) if number % 2 == 0 else (Peer, Ours):
            with Served(kind) as server:
                if warm:
                    fio(server, 'read', '1m', '--iodepth=4')
                before = server.used()
                figure, count = measure(server)
                found[kind].append(figure)
                used[kind].append((server.used() - before) / count)
    line(name, *(statistics.median(found[it]) for it in (Ours, Peer)),
         ''.join(f'{statistics.median(used[it]):14.1f}' for it in (Ours, Peer)))


def jobs(count):
    return '--iodepth=16', f'--numjobs={count}'


def opened(kind, count):
    """The milliseconds from a server's start to the first bytes of a read."""
    times = []
    for _ in range(5):
        served = Served(kind, 'deep', count)
        start = time.monotonic()
        with served:
            times.append(1000 * (time.monotonic() - start))
    return statistics.median(times)


def beside(kind):
    """The reads of a client beside one that flushes, and the milliseconds within which 99 of 100 were answered."""
    found = []
    for _ in range(rounds):
        with Served(kind) as server:
            words = fio_words(server, 'randwrite', '4k', '--iodepth=1', '--fsync=1', '--time_based', f'--runtime={int(seconds) + 2}')
            other = subprocess.Popen(words, stdout=subprocess.DEVNULL, stderr=subprocess.DEVNULL)
            time.sleep(1)
            job = timed(server, 'randread', '4k', '--iodepth=16')
            found.append((job['iops'], job['clat_ns']['percentile']['99.000000'] / 1e6))
            other.wait()
    return [statistics.median(it) for it in zip(*found)]


def most_memory(kind):
    with Served(kind) as server:
        copy = 'copy.raw'
        with open(copy, 'wb') as file:
            file.truncate(mib << 20)
        run('nbdcopy', '--connections=4', '--request-size=33554432', server.uri, copy)
        read = server.memory('VmHWM')
        run('nbdcopy', '--connections=4', '--request-size=33554432', copy, server.uri)
        return read, server.memory('VmHWM')


def kept_memory(kind):
    """What the server holds while four connections are open, each of which read and wrote 32 MiB at once, and then read 4 KiB."""
    with Served(kind) as server:
        streams = [open_stream(server.port) for _ in range(4)]
        for size in 1 << 25, 4096:
            for stream, take in streams:
                ask(stream, take, 0, 0, size)
        before = server.memory('VmRSS')
        for command, size in (1, 1 << 25), (0, 4096):
            for stream, take in streams:
                ask(stream, take, command, 0, size)
        after = server.memory('VmRSS')
        for stream, _ in streams:
            stream.close()
        return before, after


def beside_commit(command):
    """Requests of 4 KiB, one by one, in a second before a commit of the whole image and while it goes on."""
    with Served(Ours) as server:
        fio(server, 'write', '1m', '--iodepth=4')
        stream, take = open_stream(server.port)
        def commit():
            with socket.create_connection(('127.0.0.1', server.kind.control)) as control:
                control.sendall(b'commit 99999999-1111-1111-1111-111111111111\n')
                said.append(control.recv(1000))
        said, told = [], []
        for other in (threading.Thread(target=time.sleep, args=[1]), threading.Thread(target=commit)):
            waits, start = [], time.monotonic()
            other.start()
            while other.is_alive():
                before = time.monotonic()
                ask(stream, take, command, 4096 * draw.randrange(mib << 8))
                waits.append(time.monotonic() - before)
            seconds = time.monotonic() - start
            waits.sort()
            told.append((len(waits) / seconds, 1000 * waits[len(waits) * 99 // 100], 1000 * waits[-1], seconds))
        assert said[0].startswith(b'committed'), said
        return told


def calls(kind, way, size, most, *more):
    """The system calls of each request, those with two in a hundred or more."""
    with Served(kind) as server:
        trace = subprocess.Popen(['strace', '-f', '-c', '-o', 'trace', '-p', str(server.process.pid)], stderr=subprocess.DEVNULL)
        time.sleep(1)
        count = fio(server, way, size, f'--number_ios={most}', *more)['total_ios']
        trace.send_signal(signal.SIGINT)
        trace.wait()
    rows = []
    with open('trace') as file:
        for words in map(str.split, file):
            if len(words) >= 5 and words[0][0].isdigit() and words[-1] != 'total' and int(words[3]) >= count / 50:
                rows.append((int(words[3]) / count, words[-1]))
    return ', '.join(f'{each:.2f} {name}' for each, name in sorted(rows, reverse=True))


if set(parts) - {'opening'}:
    make_chain('wide', mib << 20, 3, mib * 4)
    for kind in (Ours, Peer):
        with Served(kind) as server:
            run('qemu-img', 'compare', '-q', '-f', 'raw', '-F', 'raw', server.uri, 'wide-2.raw')
print(f'{"":50}{Ours.name:>12}{Peer.name:>12}{"ratio":>8}{"us of one":>14}{"of the other":>14}')
if 'rates' in parts:
    again = '--iodepth=4', '--time_based', f'--runtime={seconds}'
    compare('reads of 1 MiB, MiB/s', bandwidth('read', '1m', *again), warm=True)
    compare('reads by nbdcopy with 4 connections, MiB/s', copied, warm=True)
    for count in (1, 2, 4):
        compare(f'random reads of 4 KiB, connections: {count}, /s', rate('randread', '4k', *jobs(count)), warm=True)
    compare('the same, 1 connection, a cache that is empty', rate('randread', '4k', *jobs(1)))
    Ours.cache = 1024
    compare('the same, 1 connection, a cache of 64 MiB', rate('randread', '4k', *jobs(1)), warm=True)
    Ours.cache = 16384
    compare('random reads of 4 KiB one by one, /s', rate('randread', '4k', '--iodepth=1'), warm=True)
    compare('random writes of 4 KiB, /s', rate('randwrite', '4k', '--iodepth=16'))
    compare('writes of 4 KiB with a flush each, /s', rate('randwrite', '4k', '--iodepth=1', '--fsync=1'))
    compare('writes of 1 MiB, each place once, MiB/s', bandwidth('write', '1m', '--iodepth=4'))
    compare('writes of 1 MiB, again and again, MiB/s', bandwidth('write', '1m', *again))
if 'opening' in parts:
    make_chain('deep', 16 << 20, 64, 8)
    for count in (1, 16, 64):
        line(f'to the first byte, layers: {count}, ms', opened(Ours, count), opened(Peer, count))
if 'beside' in parts:
    ours, peer = beside(Ours), beside(Peer)
    line('random reads beside a client that flushes, /s', ours[0], peer[0])
    line('99 of 100 of them within, ms', ours[1], peer[1])
Ours.cache = 1024
if 'memory' in parts:
    ours, peer = most_memory(Ours), most_memory(Peer)
    line('most memory, four readers of 32 MiB, MiB', ours[0], peer[0])
    line('the same with four writers, MiB', ours[1], peer[1])
    ours, peer = kept_memory(Ours), kept_memory(Peer)
    line('memory kept by four open connections that read 32 MiB each, MiB', ours[0], peer[0])
    line('the same behind writes of 32 MiB each, MiB', ours[1], peer[1])
if 'commit' in parts:
    for name, command in ('reads', 0), ('writes', 1):
        before, beside_it = beside_commit(command)
        for when, (each, most, longest, seconds) in ('before a commit', before), (f'while {mib} MiB are committed', beside_it):
            print(f'{name} of 4 KiB one by one, {when}: {each:.0f} /s, 99 of 100 within {most:.2f} ms, all within {longest:.0f} ms, for {seconds:.1f} s', flush=True)
if 'calls' in parts:
    print()
    for name, *words in (
        ('random read of 4 KiB, 16 under way', 'randread', '4k', 20000, '--iodepth=16'),
        ('random read of 4 KiB, one by one', 'randread', '4k', 5000, '--iodepth=1'),
        ('random write of 4 KiB, 16 under way', 'randwrite', '4k', 20000, '--iodepth=16'),
        ('write of 4 KiB and a flush', 'randwrite', '4k', 200, '--iodepth=1', '--fsync=1'),
        ('read of 1 MiB', 'read', '1m', 200, '--iodepth=4'),
        ('write of 1 MiB', 'write', '1m', 200, '--iodepth=4'),
    ):
        for kind in (Ours, Peer):
            print(f'{name}, {kind.name}: {calls(kind, *words)}', flush=True)
PYTHON
