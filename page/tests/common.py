"""What the tests share: the host, the library's own words, sessions, and the count."""
import http.client, json, os, random, struct, subprocess, sys, time

ROOT = os.path.abspath(os.path.join(os.path.dirname(__file__), '..', '..'))
OUT = os.environ.get('PAGE_OUT', os.path.join(ROOT, 'target/page'))
WIDTH = {1: 2, 2: 3, 3: 7, 4: 2, 5: 2, 6: 2, 7: 3, 8: 2}
TYPE = 'application/octet-stream'


class Enough(BaseException):
    """Of a wrong page or host the first failure is enough."""


class Count:
    passed = failed = 0

    def __call__(self, what, good, more=''):
        if good:
            self.passed += 1
        else:
            self.failed += 1
            print(f'FAILED: {what}: {str(more)[:600]}', flush=True)
            if os.environ.get('PAGE_FIRST'):
                raise Enough

    def run(self, groups, names):
        """These groups of tests, or all; what breaks a test is seen too."""
        try:
            try:
                for group in groups:
                    if not names or group.__name__ in names:
                        began = time.time()
                        group()
                        print(f'{group.__doc__} {time.time() - began:.0f} s', flush=True)
            except Exception as e:
                self('no exception', False, repr(e))
        except Enough:
            pass

    def end(self):
        print(f'{self.passed} passed, {self.failed} failed', flush=True)
        os._exit(1 if self.failed else 0)


check = Count()


class Host:
    """The host on a free port."""

    def __init__(self, program=None):
        self.process = subprocess.Popen([program or os.path.join(OUT, 'host'), '0'], stdout=subprocess.PIPE, stderr=subprocess.PIPE, text=True)
        line = self.process.stdout.readline().strip()
        self.url, self.port = line, int(line.rstrip('/').rsplit(':', 1)[1])

    def request(self, method, path, body=None, headers=None):
        c = http.client.HTTPConnection('127.0.0.1', self.port, timeout=30)
        try:
            c.request(method, path, body, headers or {})
            r = c.getresponse()
            return r.status, r.headers, r.read()
        finally:
            c.close()

    def post(self, path, body):
        status, _, text = self.request('POST', path, bytes(body), {'Content-Type': TYPE})
        return json.loads(text) if status == 200 else status

    def rss(self):
        for line in open(f'/proc/{self.process.pid}/status'):
            if line.startswith('VmRSS'):
                return int(line.split()[1])

    def stop(self):
        self.process.terminate()
        _, errors = self.process.communicate(timeout=20)
        return self.process.returncode, errors


class Ask:
    """The library itself, by page/tests/ask.c."""

    def __init__(self):
        self.process = subprocess.Popen([os.path.join(OUT, 'ask')], stdin=subprocess.PIPE, stdout=subprocess.PIPE)

    def part(self):
        return self.process.stdout.read(struct.unpack('<I', self.process.stdout.read(4))[0])

    def __call__(self, session):
        self.process.stdin.write(struct.pack('<I', len(session)) + bytes(session))
        self.process.stdin.flush()
        report, state, answers, both = self.part(), self.part(), self.part(), self.part()
        last, shown = struct.unpack('<2Q', both)
        return {'report': report.decode(), 'state': state.decode(), 'answers': [taken_apart(a) for a in struct.unpack(f'<{len(answers) // 8}Q', answers)],
                'answer': taken_apart(last), 'shown': [shown >> 32, shown & 0xffffffff]}

    def stop(self):
        self.process.stdin.close()
        self.process.wait()


def taken_apart(a):
    return [a >> 48, a >> 8 & 0xffffffffff, a & 0xff]


def program(name, session, *args):
    return subprocess.run([os.path.join(ROOT, name), *args], input=bytes(session), capture_output=True)


def composed(path):
    """An example's bytes, by compose or by examples/bytes."""
    command = [os.path.join(ROOT, 'examples/bytes'), path] if path.endswith('.hex') else [os.path.join(OUT, 'compose'), path]
    return subprocess.run(command, capture_output=True, check=True).stdout


def examples(folder='examples', kinds=('.txt', '.hex')):
    folder = os.path.join(ROOT, folder)
    return [os.path.join(folder, f) for f in sorted(os.listdir(folder)) if f.endswith(kinds)]


def key(what, path):
    """The lines of an example's key."""
    text = open(path, encoding='utf-8', newline='').read()
    return [l[len(what) + 4:] for l in text.split('\n') if l.startswith(f'# {what}:')]


def report_key(path):
    other = key('the report of', path)
    return '\n'.join(l.strip() for l in key('report', os.path.join(os.path.dirname(path), other[0].strip()) if other else path)) + '\n'


W = bytes.fromhex('0202000101000101020000020100030000000000070301000000000904000401050005000600070000060102010003010000000009040107000 1'.replace(' ', ''))


def longest():
    return b'\x01\x01\x00\x01\x00' + b'\x02\x00\x00' * 5459 + b'\x01\x01'


def drawn(rng):
    """A session of random commands on few saves: many of them are accepted."""
    nodes, sheets = rng.randint(1, 3), rng.randint(1, 4)
    b = bytearray([nodes, sheets] + [rng.randrange(nodes) for _ in range(sheets)])
    for _ in range(rng.randint(0, 50)):
        c = rng.choice([1, 2, 2, 2, 3, 3, 4, 4, 5, 5, 5, 6, 6, 7, 7, 8] if rng.random() < .9 else [1, 2, 3, 4, 5, 6, 7, 8, 9])
        t, k, n = rng.randrange(4), rng.randrange(sheets), rng.randrange(nodes)
        b += bytes({1: [1, t], 2: [2, t, k], 3: [3, t, k, 0, 0, 0, rng.randrange(9)], 4: [4, t], 5: [5, n], 6: [6, t], 7: [7, n, t], 8: [8, t], 9: [9]}[c])
    return bytes(b)


def grown(ask, rng, steps=40, saves=5):
    """A session made of accepted commands only, with a stop at its end every other time."""
    nodes, sheets = rng.randint(1, 3), rng.randint(1, 4)
    b = bytes([nodes, sheets] + [rng.randrange(nodes) for _ in range(sheets)])
    for _ in range(steps * 6):
        t, k, n = rng.randrange(saves), rng.randrange(sheets), rng.randrange(nodes)
        c = rng.choice([[1, t], [2, t, k], [2, t, k], [3, t, k, 0, 0, 0, rng.randrange(9)], [4, t], [5, n], [5, n], [6, t], [7, n, t]] + ([[8, t]] if rng.random() < .1 else []))
        more = b + bytes(c)
        if ask(more)['answer'][0] != 7:
            b = more
        elif rng.random() < .004:
            return more
    return b


def commands(b):
    """The commands of a session whose bytes can all be read, also those behind a stop."""
    at, all = 2 + b[1], []
    while at < len(b):
        all.append(b[at:at + WIDTH[b[at]]])
        at += WIDTH[b[at]]
    return all


def damaged(rng):
    b = bytearray(W)
    for _ in range(rng.randint(1, 4)):
        b[rng.randrange(len(b))] = rng.randrange(10)
    return bytes(b[:rng.randint(0, len(b))] if rng.random() < .3 else b)


def sessions(rng, n):
    for i in range(n):
        yield [lambda: bytes(rng.randrange(256) for _ in range(rng.randrange(80))), lambda: damaged(rng), lambda: drawn(rng), lambda: drawn(rng)][i % 4]()
