"""The host's surface: every status, bad input, many at once, slow clients, and what it says against the library. Usage: http_test.py HOST [GROUP...]"""
import json, os, random, socket, sys, threading, time
from common import *

host, ask, rng, full = Host(sys.argv[1]), Ask(), random.Random(11), longest()
HERE = f'127.0.0.1:{host.port}'

# 30 saves that wait for each other on three sheets of 64: under 400 commands, and long states
CROWD = bytes([8, 64] + [k % 8 for k in range(64)]) + b''.join(bytes([1, t]) for t in range(30)) + b''.join(bytes([2, t, k, 3, t, k, 255, 255, 255, 255]) for t in range(30) for k in range(3)) \
    + b''.join(bytes([4, t]) for t in range(30)) + b''.join(bytes([5, n]) for _ in range(30) for n in range(3)) + bytes([1, 30]) + bytes([2, 30, 40]) * 40


def status(method, path, body=None, **headers):
    return host.request(method, path, body, {k.replace('_', '-'): v for k, v in headers.items()})[0]


def raw(text, wait=5, more=b''):
    """What comes back for these very bytes."""
    s = socket.create_connection(('127.0.0.1', host.port), timeout=wait)
    try:
        s.sendall(text + more)
        s.settimeout(wait)
        got = b''
        while True:
            part = s.recv(65536)
            if not part:
                return got
            got += part
    except (socket.timeout, ConnectionError):
        return got if 'got' in dir() else b''
    finally:
        s.close()


def post_head(length, path='/session', host_name=HERE):
    return f'POST {path} HTTP/1.1\r\nHost: {host_name}\r\nContent-Type: {TYPE}\r\nContent-Length: {length}\r\n\r\n'.encode()


def surface():
    """Files, methods, types and names."""
    for path, kind in {'/': 'text/html', '/page.css': 'text/css', '/colours.css': 'text/css', '/lanes.css': 'text/css', '/page.js': 'text/javascript', '/words.js': 'text/javascript',
                       '/state.js': 'text/javascript', '/dom.js': 'text/javascript', '/editor.js': 'text/javascript', '/examples.js': 'text/javascript', '/sentences.js': 'text/javascript', '/lanes.js': 'text/javascript', '/panels.js': 'text/javascript',
                       '/icon.svg': 'image/svg+xml', '/examples.json': 'application/json', '/words.json': 'application/json'}.items():
        code, headers, body = host.request('GET', path)
        check(f'GET {path}', code == 200 and headers['Content-Type'].startswith(kind) and len(body) > 100, (code, dict(headers)))
        check(f'HEAD {path}', host.request('HEAD', path)[0::2] == (200, b''))
    POLICY = {'default-src': "'none'", 'script-src': "'self'", 'style-src': "'self'", 'img-src': "'self'", 'connect-src': "'self'", 'base-uri': "'none'", 'form-action': "'none'", 'frame-ancestors': "'none'"}
    for method, path, given in [('GET', '/', {}), ('POST', '/session', {'Content-Type': TYPE}), ('GET', '/none', {}), ('PUT', '/', {}), ('GET', '/', {'Host': 'evil.example'})]:
        _, h, _ = host.request(method, path, b'' if method == 'POST' else None, given)
        check(f'headers of {method} {path} {given}', h['X-Content-Type-Options'] == 'nosniff' and h['Referrer-Policy'] == 'no-referrer' and h['Cache-Control'] == 'no-store'
              and h['Cross-Origin-Resource-Policy'] == 'same-origin' and h['Cross-Origin-Opener-Policy'] == 'same-origin'
              and dict(p.strip().split(' ', 1) for p in h['Content-Security-Policy'].split(';')) == POLICY, dict(h))
    for path in ['/none', '/index.html', '/page.js/', '//', '/../../etc/passwd', '/..%2f..%2fetc/passwd', '/%2e%2e/%2e%2e/etc/passwd', '/session/', '/host', '/PAGE.JS', '/' + 'a' * 3000]:
        check(f'404 {path[:40]}', status('GET', path) == 404, status('GET', path))
    for method, path, allow in [('PUT', '/', 'GET, HEAD'), ('DELETE', '/page.js', 'GET, HEAD'), ('POST', '/', 'GET, HEAD'), ('GET', '/session', 'POST'), ('HEAD', '/state', 'POST'), ('PUT', '/session', 'POST'),
                                ('OPTIONS', '/session', 'POST'), ('PATCH', '/words.json', 'GET, HEAD'), ('BREW', '/', 'GET, HEAD')]:
        code, h, _ = host.request(method, path, None, {'Content-Type': TYPE})
        check(f'405 {method} {path}', code == 405 and h['Allow'] == allow, (code, dict(h)))
    for kind in [None, 'text/plain', 'application/x-www-form-urlencoded', 'multipart/form-data', 'application/json', TYPE + '; charset=x']:
        check(f'415 {kind}', host.request('POST', '/session', W, {'Content-Type': kind} if kind else {})[0] == 415)
    for name, code in [('evil.example', 403), (f'evil.example:{host.port}', 403), ('127.0.0.1', 403), ('127.0.0.1:1', 403), (f'127.0.0.1:{host.port}.evil.example', 403), ('', 403), (f'localhost:{host.port}', 200), (HERE, 200)]:
        check(f'Host {name!r}', status('GET', '/', Host=name) == code, status('GET', '/', Host=name))
        check(f'Host {name!r} of a session', host.request('POST', '/session', W, {'Host': name, 'Content-Type': TYPE})[0] == code)
    check('no Host', b' 403 ' in raw(b'GET / HTTP/1.0\r\n\r\n').split(b'\r\n')[0] or b' 400 ' in raw(b'GET / HTTP/1.0\r\n\r\n').split(b'\r\n')[0])
    for name, twice in [('Host', f'Host: {HERE}\r\nHost: evil.example'), ('Content-Length', f'Host: {HERE}\r\nContent-Length: 3\r\nContent-Length: 20000'), ('Content-Type', f'Host: {HERE}\r\nContent-Type: {TYPE}\r\nContent-Type: text/plain')]:
        got = raw(f'POST /session HTTP/1.1\r\n{twice}\r\n\r\n'.encode())
        check(f'{name} twice', got.startswith(b'HTTP/1.1 400'), got[:60])
    check('a type in capitals', host.request('POST', '/session', W, {'Content-Type': TYPE.upper()})[0] == 200)
    for name, line, code in [('an address of this host', f'GET http://{HERE}/ HTTP/1.1', b'404'), ('an address of another', 'GET http://evil.example/ HTTP/1.1', b'404'), ('HTTP/1.0', 'GET / HTTP/1.0', b'200'), ('a query', 'GET /?a=b HTTP/1.1', b'200')]:
        got = raw(f'{line}\r\nHost: {HERE}\r\n\r\n'.encode())
        check(f'{name}', got.startswith(b'HTTP/1.1 ' + code), got[:60])
    check('not HTTP', raw(b'\x16\x03\x01\x02\x00\x01\x00\x01\xfc\x03\x03 nonsense\r\n\r\n', 3)[:9] in (b'', b'HTTP/1.1 '))


def sizes():
    """Bodies of every size."""
    for name, body, report in [('empty', b'', 'R 0 1\n'), ('one byte', b'\x01', 'R 0 1\n'), ('short header', b'\x01\x40\x00', 'R 0 1\n'), ('16,384', full, 'O 0 0 0\nT 5461 0 0\n'), ('16,385', full + b'\x01', 'R 0 1\n'),
                               ('zeros', bytes(16385), 'R 0 1\n'), ('fresh', b'\x01\x01\x00', 'O 0 0 0\nT 0 0 0\n')]:
        r = host.post('/session', body)
        check(f'{name}: report', isinstance(r, dict) and r['report'] == report and r['length'] == len(body), r)
        check(f'{name}: state', isinstance(host.post('/state', body), dict))
    for n in [16386, 16387, 100000, 10 ** 7, 2 ** 32, 2 ** 63]:
        began = time.time()
        check(f'413 for {n} before it is read', raw(post_head(n)).startswith(b'HTTP/1.1 413') and time.time() - began < 3)
    for path in ['/session', '/state']:
        check(f'413 at {path}', raw(post_head(16386, path)).startswith(b'HTTP/1.1 413'))
        check(f'chunked at {path}', raw(f'POST {path} HTTP/1.1\r\nHost: {HERE}\r\nContent-Type: {TYPE}\r\nTransfer-Encoding: chunked\r\n\r\n'.encode()).startswith(b'HTTP/1.1 413'))
    check('10 MB sent', raw(post_head(10 ** 7), 5, bytes(10 ** 7))[:12] in (b'HTTP/1.1 413', b''))
    check('10 MB chunked', subprocess.run(['curl', '-s', '-o', '/dev/null', '-w', '%{http_code}', '-H', f'Content-Type: {TYPE}', '-H', 'Transfer-Encoding: chunked', '--data-binary', '@-', host.url + 'session'],
                                          input=bytes(10 ** 7), capture_output=True).stdout in (b'413', b'000'))
    for length in ['-1', 'x', '1e3', '99999999999999999999999', '']:
        got = raw(post_head(length), 3)
        check(f'Content-Length {length!r}', got[:12] in (b'HTTP/1.1 400', b'HTTP/1.1 413') or (length == '' and got[:12] == b'HTTP/1.1 200'), got[:40])
    for cut in [0, 1, 50, 98]:
        s = socket.create_connection(('127.0.0.1', host.port))
        s.sendall(post_head(99) + b'a' * cut)
        s.close()
    check('alive after hang-ups', host.post('/session', W)['report'].endswith('T 17 1 1\n'))
    flood = raw(b'GET / HTTP/1.1\r\nHost: ' + HERE.encode() + b'\r\n' + b''.join(b'X-%d: %s\r\n' % (i, b'y' * 200) for i in range(2000)) + b'\r\n', 5)
    check('a flood of headers', flood[:10] in (b'HTTP/1.1 4', b''), flood[:60])
    check('alive after it', status('GET', '/') == 200)
    for said in ['Content-Length: 60000', 'Transfer-Encoding: chunked']:
        check(f'a GET with a body, {said}', raw(f'GET / HTTP/1.1\r\nHost: {HERE}\r\n{said}\r\n\r\n'.encode()).startswith(b'HTTP/1.1 413'))


def said():
    """What is said, against the library and its programs."""
    def compare(b, programs):
        r, own = host.post('/session', b), ask(b)
        good = r['length'] == len(b) and r['report'] == own['report'] and [s[2:] for s in r['steps']] == own['answers'] and r['shown'] == own['shown'] and r['refusal'] == (own['answer'][1:] if own['answer'][0] == 7 else None)
        at = r['commands']
        for i, (start, size, kind, value, number) in enumerate(r['steps']):
            good = good and start == at and (size == WIDTH.get(b[at]) if kind != 7 else [start, size] == own['shown'] and value == start)
            at += size
        if r['nodes']:
            good = good and r['nodes'] == b[0] and r['owners'] == list(b[2:2 + b[1]]) and r['commands'] == 2 + b[1]
        if r['states']:
            cuts = [r['commands']] + [s[0] + s[1] for s in r['steps'] if s[2] != 7]
            good = good and len(cuts) == len(r['states']) and all(ask(b[:cut])['state'] == text for cut, text in zip(cuts, r['states']))
        else:
            good = good and (not r['nodes'] or len(r['steps']) > 400 or r['limit']['over'] == 'bytes')
        if programs:
            good = good and program('target/bin/report', b).stdout.decode() == r['report']
            said = program('target/bin/answer', b).stdout.decode().split('\n')[0]
            kind, value, number = own['answer']
            words = {0: 'none', 1: 'accepted', 2: f'content {value}', 3: f'take {value} valid', 4: f'take {value & 0xffff} invalid {value >> 16} {["", "granted", "waiting", "behind"][number & 3]}', 5: 'decide committed',
                     6: 'decide second run', 7: f'refused {value} {number}'}
            good = good and said == words[kind]
        return good

    bad = 0
    for i, b in enumerate(sessions(rng, 2400)):
        if not compare(b, i % 8 == 0):
            bad += 1
            check(f'session {b.hex()}', False)
    check('2,400 random and damaged sessions', bad == 0)
    for _ in range(40):
        b = grown(ask, rng)
        check('a session of accepted commands', compare(b, True), b.hex())
    for path in examples():
        b = composed(path)
        check(f'{os.path.basename(path)}: as the library says', compare(b, True))
        check(f'{os.path.basename(path)}: as its key says', host.post('/session', b)['report'] == report_key(path))
        served = dict(json.loads(host.request('GET', '/examples.json')[2]))
        check(f'{os.path.basename(path)}: served as it is', served[os.path.basename(path)] == open(path, encoding='utf-8', newline='').read())
    check('w.txt comes first', json.loads(host.request('GET', '/examples.json')[2])[0][0] == 'w.txt')
    words = json.loads(host.request('GET', '/words.json')[2])
    check('the words', {c['number']: 1 + sum(w for _, w in c['operands']) for c in words['commands']} == WIDTH and words['bytes'] == 16384)

    def state(b):
        r, own = host.post('/state', b), ask(b)
        good = r['state'] == own['state']
        for step, kind, value, number in rng.sample(r['next'], min(12, len(r['next']))):
            good = good and ask(b + bytes(step))['answer'] == [kind, value, number]
        if own['answers']:
            steps = host.post('/session', b)['steps']
            good = good and r['before'] == ask(b[:steps[-1][0]])['state']
        good = good and (own['answer'][0] != 7 or not r['next'])
        return good, r

    for i in range(150):
        b = grown(ask, rng, 12)
        good, r = state(b)
        check('a state and what may come next', good, b.hex())
        begun = {int(l.split()[1]) for l in r['state'].split('\n') if l.startswith('S ')}
        if ask(b)['answer'][0] != 7:
            fresh = min(set(range(33)) - begun)
            tried = {tuple(s[0]) for s in r['next']}
            wanted = {(5, n) for n in range(b[0])} | {(c, t) for c in (1, 4, 6, 8) for t in begun | {fresh}} | {(7, n, t) for n in range(b[0]) for t in begun | {fresh}} | {(2, t, k) for t in begun | {fresh} for k in range(b[1])}
            check('every step is tried', wanted <= tried and not r['spent'], wanted - tried)


def budgets():
    """The budgets."""
    reads = lambda n: b'\x01\x01\x00\x01\x00' + b'\x02\x00\x00' * (n - 1)
    check('400 commands are drawn', len(host.post('/session', reads(400))['states']) == 401)
    r = host.post('/session', reads(401))
    check('401 are not, and it says so', r['states'] is None and r['limit'] == {'steps': 400, 'bytes': 1048576, 'over': 'steps'}, r.get('limit'))
    check('their answers are all there', len(r['steps']) == 401)
    r = host.post('/session', CROWD)
    check('states over the budget of bytes are not drawn, and it says so', len(r['steps']) < 400 and r['states'] is None and r['limit']['over'] == 'bytes', (len(r['steps']), bool(r['states']), r.get('limit')))
    check('and the reply is short', len(json.dumps(r)) < 100000)
    r = host.post('/state', CROWD)
    check('a crowd: what names no sheet is tried, and it says that not all is', r['spent'] and len(r['next']) > 32 * 12 + 8, (r['spent'], len(r['next'])))
    busy = bytes([8, 64] + [k % 8 for k in range(64)]) + b''.join(bytes([1, t]) for t in range(32)) + bytes([2, 0, 0]) * 5400
    r = host.post('/state', busy)
    check('a long one: the budget is spent, and it says so', r['spent'] and 300 < len(r['next']) < 600 and {s[0][0] for s in r['next']} >= {1, 4, 5, 6, 7, 8}, (r['spent'], len(r['next'])))
    for name, path, b in [('a session of 16,384 bytes', '/session', full), ('its last state', '/state', full[:-2]), ('many saves and sheets', '/state', busy)]:
        times = []
        for _ in range(5):
            began = time.time()
            host.post(path, b)
            times.append(time.time() - began)
        print(f'{name} at {path}: {1000 * min(times):.1f} ms')


def crowd():
    """Many at once, and slow ones."""
    for many in (100, 400):
        sockets = [socket.create_connection(('127.0.0.1', host.port)) for _ in range(many)]
        for s in sockets:
            s.sendall(post_head(len(W)) + W)
        got = []
        for s in sockets:
            s.settimeout(20)
            text = b''
            while part := s.recv(65536):
                text += part
            got.append(text)
            s.close()
        check(f'{many} at once', all(g.startswith(b'HTTP/1.1 200') and b'T 17 1 1' in g for g in got), [g[:20] for g in got if not g.startswith(b'HTTP/1.1 200')][:3])
    slow = [socket.create_connection(('127.0.0.1', host.port)) for _ in range(20)]
    for s in slow[:10]:
        s.sendall(post_head(58))
    for s in slow[10:]:
        s.sendall(b'GET / HTT')
    began = time.time()
    check('others are served beside 20 slow clients', all(isinstance(host.post('/session', W), dict) for _ in range(20)) and time.time() - began < 5)
    idle_since = time.time()

    def dripping(results):
        """A byte a second, never idle."""
        s = socket.create_connection(('127.0.0.1', host.port))
        s.sendall(post_head(16000))
        began = time.time()
        try:
            while time.time() - began < 45:
                s.sendall(b'\x01')
                s.settimeout(1)
                try:
                    if not s.recv(100):
                        break
                except socket.timeout:
                    pass
        except ConnectionError:
            pass
        results.append(time.time() - began)
        s.close()

    results = []
    drip = threading.Thread(target=dripping, args=(results,))
    drip.start()

    while time.time() - idle_since < 13:
        time.sleep(.2)
    closed = 0
    for s in slow:
        s.settimeout(2)
        try:
            closed += s.recv(1000)[:12] in (b'', b'HTTP/1.1 408')
        except ConnectionError:
            closed += 1
        except socket.timeout:
            pass
        s.close()
    check('idle clients are let go', closed == 20, closed)
    drip.join()
    check('a client that drips is let go', results and 25 < results[0] < 40, results)
    check('alive at the end', status('GET', '/') == 200)


def starting():
    """Another address, and what it does not start with."""
    with socket.socket() as free:  # a port that nobody has at 127.0.0.1: the same number may be taken there and free at 127.0.0.2
        free.bind(('127.0.0.1', 0))
        port = free.getsockname()[1]
    other = subprocess.Popen([sys.argv[1], str(port), '--listen', '127.0.0.2'], stdout=subprocess.PIPE, text=True)
    check('it says where', other.stdout.readline().strip() == f'http://127.0.0.2:{port}/')
    ask_other = lambda name: subprocess.run(['curl', '-s', '-o', '/dev/null', '-w', '%{http_code}', '-H', f'Host: {name}', f'http://127.0.0.2:{port}/'], capture_output=True, text=True).stdout
    check('--listen', ask_other(f'127.0.0.2:{port}') == '200' and ask_other('evil.example') == '403' and ask_other(f'127.0.0.3:{port}') == '403')
    elsewhere = subprocess.run(['curl', '-s', '-m', '2', f'http://127.0.0.1:{port}/'], capture_output=True)
    check('and nowhere else', elsewhere.returncode == 7, elsewhere)
    other.terminate()
    check('it ends when told to', other.wait(10) == 0)
    for args, code in [(['--listen', '0.0.0.0'], 2), (['x'], 2), (['70000'], 2), (['-1'], 2), (['--listen'], 2), ([str(host.port)], 1), (['0', '--listen', 'localhost'], 1), (['0', '--listen', '203.0.113.7'], 1)]:
        run = subprocess.run([sys.argv[1], *args], capture_output=True, text=True, timeout=10)
        check(f'does not start with {args}', run.returncode == code and run.stderr.count('\n') == 1 and not run.stdout, run)


def memory():
    """Thousands of requests leave it as large as some hundreds do."""
    for _ in range(300):
        host.post('/session', CROWD)
    first = host.rss()
    for i in range(2000):
        host.post('/state' if i % 5 else '/session', CROWD if i % 100 == 0 else full if i % 100 == 50 else W)
    grew = host.rss() - first
    check('memory stays', grew < 16000, grew)
    print(f'resident: {first} KB after 300 large requests, {grew:+} KB after 2,000 more')


check.run([starting, surface, sizes, said, budgets, crowd, memory], sys.argv[2:])
ask.stop()
code, errors = host.stop()
try:
    check('it ends in peace, without a report of the sanitizers', code == 0 and not errors.strip(), (code, errors[-1500:]))
except Enough:
    pass
check.end()
