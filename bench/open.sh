#!/usr/bin/env bash
# open.sh [PROGRAM]: times `read 0 1` of an image whose top has 1,048,576 rows of 4 KiB, which is nearly all the opening of the image,
# and prints the memory that it had at most. The rows rise and leave room between them, or are drawn in any order all over 8 GiB, where
# many hide earlier ones, or over 1 TiB, where nearly none does. It writes the rows itself, as docs/format.md says them; the data
# is a hole of the file system. Then the same of an image of 1 TiB after 100 commits of 8,192 rows of zeros each, with the calls
# that read the sealed files: of each one for its front and one for its end, and two of 64 KiB for its rows, once each.
# It needs python3 and strace. PROGRAM is crates/overlay_tool/out/overlay_tool, as `rt run` leaves it.
set -eu
top=$(cd "$(dirname "$0")/.." && pwd)
program=${1:-$top/crates/overlay_tool/out/overlay_tool}
[ -x "$program" ] || { echo "run 'rt run' in crates/overlay_tool first"; exit 1; }
work=$(mktemp -d)
trap 'rm -rf "$work"' EXIT
python3 - "$work" "$(realpath "$program")" <<'PYTHON'
import array, collections, json, os, random, re, struct, subprocess, sys
work, program = sys.argv[1:]
ROWS = 1 << 20
COMMITS, COMMITTED = 100, 8192
# The peak is the largest of all children's, so each run has a python of its own.
one = '''
import resource, subprocess, sys, time
start = time.monotonic()
subprocess.run(sys.argv[1:], check=True, stdout=subprocess.DEVNULL)
print(time.monotonic() - start, resource.getrusage(resource.RUSAGE_CHILDREN).ru_maxrss)
'''

def run(config, *words):
    subprocess.run([program, '--config', config, *words], check=True, stdout=subprocess.DEVNULL)

def new(name, sectors):
    """The folder of an image of so many sectors, and its configuration."""
    folder = f'{work}/{name}'
    os.mkdir(folder)
    with open(f'{folder}.json', 'w') as config:
        json.dump({'disk': folder}, config)
    run(f'{folder}.json', 'create', '--sectors', str(sectors))
    return folder, f'{folder}.json'

def put(folder, epoch, rows, sectors):
    """Gives the top of that epoch these rows, with so many sectors of data."""
    with open(f'{folder}/index-{epoch}', 'r+b') as index:
        index.seek(4096)
        index.write(rows.tobytes())
    with open(f'{folder}/data-{epoch}', 'r+b') as data:
        data.truncate(4096 + 512 * sectors)
    with open(f'{folder}/mark-{epoch}', 'r+b') as mark:
        mark.write(struct.pack('<B7xQQQ', 0xA5, 1000, len(rows) // 2, sectors))

def made(name, sectors, starts):
    """An image of so many sectors, whose top has a row of eight sectors at each of these."""
    folder, config = new(name, sectors)
    rows = array.array('Q')
    for number, at in enumerate(starts):
        rows.append(at | 8 << 50)
        rows.append(8 + 8 * number)
    put(folder, 0, rows, 8 * ROWS)
    return config

def committed(name, sectors):
    """An image of so many sectors after its commits, each of rows of eight zeros that have room between them."""
    folder, config = new(name, sectors)
    for epoch in range(COMMITS):
        rows = array.array('Q')
        for at in draw.sample(range(sectors // 16), COMMITTED):
            rows.append(16 * at | 8 << 50)
            rows.append(1 << 55)
        put(folder, epoch, rows, 0)
        run(config, 'commit', f'00000000-0000-0000-0000-{epoch + 1:012}')
    return config

def timed(config):
    """The seconds of a read of one sector, and the most memory in KiB, in the middle of three runs."""
    runs = []
    for _ in range(3):
        words = [sys.executable, '-c', one, program, '--config', config, 'read', '0', '1']
        seconds, peak = subprocess.run(words, check=True, capture_output=True, text=True).stdout.split()
        runs.append((float(seconds), int(peak)))
    return sorted(runs)[1]

def reads(config):
    """How many reads of the sealed files an opening makes, by their sizes in bytes."""
    run_under = ['strace', '-f', '-y', '-e', 'trace=pread64', '-o', f'{work}/calls', program, '--config', config, 'read', '0', '1']
    subprocess.run(run_under, check=True, stdout=subprocess.DEVNULL)
    with open(f'{work}/calls') as calls:
        return collections.Counter(int(call[1]) for call in re.finditer(r'/sealed-[0-9]+>.* = ([0-9]+)$', calls.read(), re.M))

draw = random.Random(1)
for name, sectors, starts in (
    ('rising', 1 << 25, (32 * number for number in range(ROWS))),
    ('8 GiB', 1 << 24, (8 * draw.randrange(1 << 21) for _ in range(ROWS))),
    ('1 TiB', 1 << 31, (8 * draw.randrange(1 << 28) for _ in range(ROWS))),
):
    seconds, peak = timed(made(name, sectors, starts))
    print(f'{name}: {seconds:.2f} s, at most {peak // 1024} MiB')
config = committed('commits', 1 << 31)
seconds, peak = timed(config)
print(f'{COMMITS} commits: {seconds:.2f} s, at most {peak // 1024} MiB')
for size, count in sorted(reads(config).items()):
    print(f'  reads of {size} bytes of the sealed files: {count}')
PYTHON
