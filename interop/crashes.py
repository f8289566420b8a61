#!/usr/bin/env python3
"""crashes.py [PROGRAM [ROUNDS [SEED]]]: kills the server again and again while clients write and a control commits.

Each round serves one image with `export`. Two clients write, trim, write zeroes, flush and read, up to eight requests under way, each in half of the
image; a third one commits over the control's stream. At some moment the server is killed (`kill -9`). The image that the next round finds must be, for
each client, the state after a beginning of what it had asked, and one that has all that a flush, a write with FUA or a commit answered for. Reads that
were answered must fit too. Sealed files must stay as they were when they were sealed. `sweep`, `read` and `flatten` run between rounds.
PROGRAM is crates/overlay_tool/out/overlay_tool where none is named. It needs python3 alone, and takes a second or two a round."""
import hashlib, json, os, random, signal, socket, struct, subprocess, sys, tempfile, threading, time, uuid

TOP = os.path.dirname(os.path.dirname(os.path.abspath(__file__)))
PROGRAM = os.path.abspath(sys.argv[1] if len(sys.argv) > 1 else f"{TOP}/crates/overlay_tool/out/overlay_tool")
ROUNDS = int(sys.argv[2]) if len(sys.argv) > 2 else 20
SEED = int(sys.argv[3]) if len(sys.argv) > 3 else random.randrange(1 << 30)
SECTORS = 8192
HALF = SECTORS // 2
READ, WRITE, FLUSH, TRIM, ZEROES, FUA = 0, 1, 3, 4, 6, 1
draw = random.Random(SEED)


def fail(text):
    sys.exit(f"FAILED (seed {SEED}): {text}")


def free_port():
    with socket.socket() as it:
        it.bind(("127.0.0.1", 0))
        return it.getsockname()[1]


def of_tag(tag, count=1):
    return struct.pack("<Q", tag) * 64 * count


def tags_of(data):
    """The tag of each sector: what it holds sixty-four times. None where a sector was written in part."""
    return [struct.unpack_from("<Q", data, at)[0] if data[at:at + 512] == data[at:at + 8] * 64 else None for at in range(0, len(data), 512)]


class Client:
    """A client with a half of the image, and all that it asked for since the image was opened."""

    def __init__(self, number, found):
        self.base, self.found, self.asked, self.answered, self.kept, self.bad = number * HALF, found, [], 0, 0, None
        self.draw = random.Random(draw.randrange(1 << 60))

    def connect(self, port):
        self.wire = socket.create_connection(("127.0.0.1", port))
        self.wire.setsockopt(socket.IPPROTO_TCP, socket.TCP_NODELAY, 1)
        self.get(18)
        self.wire.sendall(struct.pack(">I", 3) + b"IHAVEOPT" + struct.pack(">II", 1, 0))
        size, _ = struct.unpack(">QH", self.get(10))
        if size != SECTORS * 512:
            fail(f"the export has {size} bytes")

    def get(self, count):
        data = bytearray()
        while len(data) < count:
            more = self.wire.recv(count - len(data))
            if not more:
                raise ConnectionError
            data += more
        return bytes(data)

    def next(self, tag):
        kind = self.draw.choices([READ, WRITE, TRIM, ZEROES, FLUSH], [3, 9, 1, 1, 1])[0]
        count = self.draw.choice([1, 2, 8, 8, 64, self.draw.randint(1, 300)])
        at = self.base + self.draw.randrange(HALF - count + 1)
        flag = FUA if kind != READ and self.draw.random() < 0.1 else 0
        return (FLUSH, 0, 0, 0, 0) if kind == FLUSH else (kind, at, count, flag, tag if kind == WRITE else 0)

    def ask(self, request):
        kind, at, count, flag, tag = request
        self.asked.append(request)
        head = struct.pack(">IHHQQI", 0x25609513, flag, kind, len(self.asked) - 1, at * 512, count * 512)
        self.wire.sendall(head + (of_tag(tag, count) if kind == WRITE else b""))

    def take(self):
        magic, error, cookie = struct.unpack(">IIQ", self.get(16))
        kind, at, count, flag, _ = self.asked[self.answered]
        if magic != 0x67446698 or cookie != self.answered or error:
            self.bad = f"request {self.answered} got the answer {magic:x} {error} {cookie}"
            raise ConnectionError
        if kind == READ:
            tags, now = tags_of(self.get(count * 512)), self.state(self.answered)
            if tags != now[at - self.base:at - self.base + count]:
                self.bad = f"a read of {at} {count} got other bytes"
                raise ConnectionError
        self.answered += 1
        if kind == FLUSH or flag:
            self.kept = self.answered

    def state(self, count):
        """The tags of its sectors after so many of its requests. What was kept of a shorter beginning serves again."""
        done, tags = getattr(self, "last", (0, list(self.found)))
        if done > count:
            done, tags = 0, list(self.found)
        for kind, at, n, _, tag in self.asked[done:count]:
            if kind in (WRITE, TRIM, ZEROES):
                tags[at - self.base:at - self.base + n] = [tag] * n
        self.last = (count, tags)
        return tags

    def run(self, first):
        depth = self.draw.choice([1, 1, 4, 8])
        try:
            while True:
                while len(self.asked) - self.answered < depth:
                    self.ask(self.next(first + len(self.asked)))
                self.take()
        except (OSError, ConnectionError):
            pass

    def fits(self, tags):
        """How many of its requests were kept: the image is the state after these, and all that was flushed is among them."""
        for count in range(self.kept, len(self.asked) + 1):
            if self.state(count) == tags:
                return count
        return None


def control(port, clients, pending, committed, bad):
    """Commits again and again. A commit that is answered keeps all that was answered before it was asked."""
    try:
        with socket.create_connection(("127.0.0.1", port)) as wire:
            lines = wire.makefile("rb")
            for _ in range(3):
                time.sleep(draw.random() * 0.2)
                is_again, before = bool(pending), [it.answered for it in clients]
                if not is_again:
                    pending.append(str(uuid.UUID(int=draw.getrandbits(128))))
                name = pending[0]
                wire.sendall(f"commit {name}\n".encode())
                answer = lines.readline()
                if not answer:
                    return
                # (a commit that was sealed when the server was killed is a layer already)
                if answer != f"committed {name}\n".encode() and not (is_again and answer == b"refused uuid twice\n"):
                    bad.append(f"a commit was answered {answer}")
                    return
                pending.pop()
                if answer.startswith(b"refused"):
                    before = [0, 0]
                committed.append(name)
                for it, count in zip(clients, before):
                    it.kept = max(it.kept, count)
    except OSError:
        pass


def tool(*words):
    done = subprocess.run([PROGRAM, "--config", "image.json", *words], stdout=subprocess.PIPE, stderr=subprocess.PIPE)
    if done.returncode:
        fail(f"{words}: {done.stderr.decode()}")
    return done.stdout


def sealed():
    """The sums of the sealed files."""
    names = sorted((it for it in os.listdir("disk") if it.startswith("sealed-")), key=lambda it: int(it.split("-")[1]))
    return {it: hashlib.sha256(open(f"disk/{it}", "rb").read()).hexdigest() for it in names}


def main():
    work = tempfile.mkdtemp()
    os.chdir(work)
    os.mkdir("disk")
    with open("lower.raw", "wb") as it:
        it.write(b"".join(of_tag((1 << 40) + n) if n % 64 < 48 else bytes(512) for n in range(SECTORS)))
    subprocess.run([sys.executable, f"{TOP}/tools/make_layer.py", "lower.raw", "lower.layer"], check=True, stdout=subprocess.DEVNULL)
    port, at = free_port(), free_port()
    json.dump({"disk": "disk", "lowers": {"files": ["lower.layer"]}, "lanes": 3, "listen": f"127.0.0.1:{port}", "control": f"127.0.0.1:{at}"},
              open("image.json", "w"))
    tool("create")
    tags, tag, pending, committed, sums, asked, lost = tags_of(open("lower.raw", "rb").read()), 1, [], [], {}, 0, 0
    for number in range(ROUNDS):
        server = subprocess.Popen([PROGRAM, "--config", "image.json", "export"])
        clients = [Client(k, tags[k * HALF:(k + 1) * HALF]) for k in range(2)]
        for it in clients:
            for _ in range(200):
                try:
                    it.connect(port)
                    break
                except OSError:
                    time.sleep(0.02)
            else:
                fail("the server does not listen")
        was, bad = list(pending), []
        threads = [threading.Thread(target=it.run, args=(tag + k * 1_000_000,)) for k, it in enumerate(clients)]
        threads.append(threading.Thread(target=control, args=(at, clients, pending, committed, bad)))
        for it in threads:
            it.start()
        time.sleep(draw.random() * draw.choice([0.05, 0.3, 1.0]))
        server.send_signal(signal.SIGKILL)
        server.wait()
        for it in threads:
            it.join()
        for it in clients:
            it.wire.close()
        # (a thread that ends the program ends itself alone)
        for it in bad + [it.bad for it in clients if it.bad]:
            fail(it)
        after = tags_of(tool("read", "0", str(SECTORS)))
        for k, it in enumerate(clients):
            count = it.fits(after[k * HALF:(k + 1) * HALF])
            if count is None:
                fail(f"round {number}, client {k}: no beginning with {it.kept} of {len(it.asked)} requests gives what was found")
            asked, lost = asked + len(it.asked), lost + len(it.asked) - count
        if draw.random() < 0.3:
            tool("sweep")
        now = sealed()
        if any(now.get(it) != sum for it, sum in sums.items()):
            fail("a sealed file changed")
        # (the file of a commit that was stopped may be copied anew)
        sums = {f"sealed-{k}": now[f"sealed-{k}"] for k in range(len(committed))}
        if tags_of(tool("flatten")) != tags_of(open("lower.raw", "rb").read()):
            fail("the lower layer changed")
        tags, tag = after, tag + 2_000_000
        if was != pending and pending:
            print(f"round {number}: the commit {pending[0]} was stopped")
    print(f"{ROUNDS} rounds, seed {SEED}: {asked} requests, {lost} of them behind the last flush and lost; {len(committed)} commits: all as it should be")
    subprocess.run(["rm", "-rf", work])


main()
