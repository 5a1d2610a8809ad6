"""The page in headless Chromium. Usage: browser_test.py HOST [GROUP...]"""
import base64, glob, os, random, re, sys, tempfile, time
import xml.etree.ElementTree as XML
from selenium import webdriver
from selenium.webdriver.common.by import By
from selenium.webdriver.common.keys import Keys
from selenium.webdriver.common.action_chains import ActionChains
from common import *

host, ask, rng = Host(sys.argv[1]), Ask(), random.Random(5)
downloads = tempfile.mkdtemp()


def start():
    o = webdriver.ChromeOptions()
    for a in ['--headless=new', '--no-sandbox', '--disable-gpu', '--disable-dev-shm-usage', '--hide-scrollbars', '--force-prefers-reduced-motion']:
        o.add_argument(a)
    o.set_capability('goog:loggingPrefs', {'browser': 'ALL'})
    o.add_experimental_option('prefs', {'download.default_directory': downloads})
    return webdriver.Chrome(options=o)


d = start()
js = d.execute_script


def view(width=1280, height=800, scheme='light'):
    d.execute_cdp_cmd('Emulation.setDeviceMetricsOverride', {'width': width, 'height': height, 'deviceScaleFactor': 1, 'mobile': False})
    d.execute_cdp_cmd('Emulation.setEmulatedMedia', {'features': [{'name': 'prefers-color-scheme', 'value': scheme}]})


def settle():
    """Until the page shows what it was asked for."""
    for _ in range(400):
        if js("return document.getElementById('panels').getAttribute('aria-busy')") == 'false':
            return
        time.sleep(.02)
    check('the page settles', False, js("return document.body.innerText.slice(0, 300)"))


def load(hash=''):
    d.get('about:blank')
    d.get(host.url + hash)
    settle()


def blur():
    js('document.activeElement.blur()')


def text(id):
    return js('return document.getElementById(arguments[0]).textContent', id)


def hidden(id):
    return js('return document.getElementById(arguments[0]).hidden', id)


def pick(name):
    js("const e = document.getElementById('example'); e.value = arguments[0]; e.dispatchEvent(new Event('change'))", name)
    settle()


def write(words):
    """The text as if it had been typed whole."""
    js("const w = document.getElementById('words'); w.value = arguments[0]; w.dispatchEvent(new Event('input'))", words)
    settle()


def link(b):
    return '#s=' + base64.urlsafe_b64encode(bytes(b)).decode().rstrip('=')


def session(b):
    js('location.hash = arguments[0]', link(b))
    time.sleep(.03)
    settle()


def step(i):
    js("const s = document.getElementById('slider'); s.value = arguments[0]; s.dispatchEvent(new Event('input'))", i)
    settle()


def tick(id, yes):
    if js('return document.getElementById(arguments[0]).checked', id) != yes:
        js('document.getElementById(arguments[0]).click()', id)
        settle()


def press(*keys):
    blur()
    for k in keys:
        d.find_element(By.TAG_NAME, 'body').send_keys(k)
    settle()


def key_lines():
    return js("return [...document.querySelectorAll('#key code')].map(e => e.textContent)")


def answers():
    return js("return [...document.querySelectorAll('#answers li')].map(e => e.textContent)")


def said():
    return re.sub(r'\s+', ' ', text('said')).strip()


def sent():
    """The session of the address."""
    h = js('return location.hash')[3:]
    return base64.urlsafe_b64decode(h + '=' * (-len(h) % 4))


# ---- the worked session

W_SAID = """1 / 17 BEGIN 0 Save 0 begins its first run. It works on copies of its own.
2 / 17 BEGIN 1 Save 1 begins its first run. It works on copies of its own.
3 / 17 READ 0 0 Save 0 reads sheet 0 at node 0 and gets 0.
4 / 17 READ 1 0 Save 1 reads sheet 0 at node 0 and gets 0.
5 / 17 WRITE 0 0 7 Save 0 writes 7 into its own copy of sheet 0.
6 / 17 WRITE 1 0 9 Save 1 writes 9 into its own copy of sheet 0.
7 / 17 SUBMIT 0 Save 0 joins the order at place 0. It claims X on sheet 0.
8 / 17 SUBMIT 1 Save 1 joins the order at place 1. It claims X on sheet 0.
9 / 17 TAKE 0 Node 0 takes save 0 at place 0 and finds it valid. It holds X on sheet 0.
10 / 17 TAKE 0 Node 0 takes save 1 at place 1 and finds it invalid at sheet 0, X granted: save 0’s X is at the front of the queue. It waits on sheet 0 for save 0.
11 / 17 DECIDE 0 Save 0 is not marked failed: committed, from its first run.
12 / 17 APPLY 0 0 Node 0 carries out save 0, which was committed: sheet 0 now holds 7, counter 1. Its entries here go; save 1 now holds X on sheet 0.
13 / 17 DECIDE 1 Save 1 is marked failed, and no entry of it waits: it runs again under its locks, in its later run 2.
14 / 17 READ 1 0 Save 1 reads sheet 0 at node 0 and gets 7.
15 / 17 WRITE 1 0 9 Save 1 writes 9 into its own copy of sheet 0.
16 / 17 SUBMIT 1 Save 1 ends its later run 2 and is committed.
17 / 17 APPLY 0 1 Node 0 carries out save 1, which was committed: sheet 0 now holds 9, counter 2. Its entries here go.""".split('\n')


WIDE_SAID = """11 / 32 TAKE 0 Node 0 takes save 1 at place 1 and finds it invalid at sheet 0, counter behind: it saw counter 0, and the sheet’s is 1. It holds S on sheet 0.
17 / 32 READ 1 1 Save 1 reads sheet 1 at node 0 and gets 0. With this its run is wide.
18 / 32 SUBMIT 1 Save 1 joins the order at place 3 once more, for its run was wide; place 1 is a former place now. It claims S on sheets 0 and 1; its entries go and its failed mark is cleared.
20 / 32 TAKE 0 Node 0 takes save 1 at place 3 and finds it invalid at sheet 1, X granted: save 2’s X is at the front of the queue. It holds S on sheet 0 and waits on sheet 1 for save 2.
22 / 32 APPLY 0 2 Node 0 carries out save 2, which was committed: sheet 1 now holds 5, counter 1. Its entries here go; save 1 now holds S on sheet 1.
26 / 32 TAKE 1 Node 1 takes save 0 at place 0 and finds it valid. It has no entry here.
27 / 32 TAKE 1 Node 1 comes to place 1, a former place of save 1: it only moves on.
32 / 32 DECIDE 1 Save 1 is not marked failed: committed, from its later run 3.""".split('\n')


def told():
    """Wide runs, causes and what was given up, in sentences."""
    load()
    pick('wide-twice.txt')
    for want in WIDE_SAID:
        step(int(want.split()[0]))
        check(f'said: {want}', said() == want, said())
    for name, at, want in [('cause-waiting.txt', 13, 'finds it invalid at sheet 0, X waiting: the queue holds the X of save 1, and its front entry is an S. It waits on sheet 0 for save 1.'),
                           ('wide-given-up.txt', 15, 'Save 1 is given up in its later run 2, wide: dropped. Its entries stay until APPLY, on sheet 0.'),
                           ('wide-given-up.txt', 16, 'Node 0 carries out save 1, which was dropped: nothing is written. Its entries here go.'),
                           ('empty-claim.txt', 2, 'Save 0 joins the order at place 0. It claims no sheet.'), ('given-up-in-the-first-run.txt', 2, 'Save 0 is given up in its first run: dropped.'),
                           ('neighbours.txt', 17, 'Node 1 carries out save 0, which was committed: no content changes. Its entries here go; save 1 now holds X on sheet 1.')]:
        pick(name)
        step(at)
        check(f'said: {want}', said().endswith(want), said())


# save 1 is found valid by node 1 at place 1, which is a former place later
FORMER = 'nodes 2\nowners 0 1\nBEGIN 0\nBEGIN 1\nREAD 0 0\nWRITE 0 0 4\nREAD 1 0\nREAD 1 1\nSUBMIT 0\nSUBMIT 1\nTAKE 0\nTAKE 0\nTAKE 1\nTAKE 1\nDECIDE 0\nAPPLY 0 0\nDECIDE 1\nREAD 1 0\nWRITE 1 0 9\nSUBMIT 1\nTAKE 0\nDECIDE 1\n'
# save 1 waits at node 0 and has not been taken at node 1; all on four sheets
APART = 'nodes 2\nowners 0 0 0 1\nBEGIN 0\nBEGIN 1\n' + ''.join(f'READ {t} {k}\nWRITE {t} {k} 5\n' for t in (0, 1) for k in range(4)) + 'SUBMIT 0\nSUBMIT 1\nTAKE 0\nTAKE 0\nDECIDE 1\n'


def many():
    """Many sheets, many waits, former places: told shortly, and what is left out is said."""
    load()
    write(FORMER)
    press(Keys.END)
    check('a verdict stays what it was', js("return [...document.querySelectorAll('#order td')].map(e => e.title).filter(Boolean)") == ['found valid', 'found invalid: sheet 0, X granted', 'found valid', 'found valid', 'found valid'])
    check('the last place is not taken', said().endswith('Refusal 10: node 1 has no entry of save 1 yet at sheet 1 of its claim.'), said())
    write(APART)
    press(Keys.END)
    check('both of 10', said().endswith('Refusal 10: node 1 has no entry of save 1 yet at sheet 3 of its claim; save 1 waits for save 0 on sheets 0 to 2.'), said())
    press(Keys.ARROW_LEFT)
    check('sheets together', said().endswith('It waits on sheets 0 to 2 for save 0.'), said())
    step(19)
    check('a claim on many', said().endswith('Save 0 joins the order at place 0. It claims X on sheets 0 to 3.'), said())
    session(crowded())
    for at, arrows, note in [(135, 21, ''), (136, 7, '7 of 28 arrows are drawn: from each save that waits to the latest in the order that it waits for. The queues below name all.'), (160, 31, '31 of 496 arrows'), (100, 0, '')]:
        step(at)
        drawn = js("return [...document.querySelectorAll('.lanes .arrow')].map(a => [+a.dataset.from, +a.dataset.to])")
        check(f'arrows after {at}', len(drawn) == arrows and (hidden('arrows') if not note else text('arrows').startswith(note) and not hidden('arrows')), (len(drawn), text('arrows')))
        check('to the latest', not note or all(u == t - 1 for t, u in drawn), drawn)
    step(136)
    saved = d.execute_async_script("""const done = arguments[0], make = URL.createObjectURL; URL.createObjectURL = b => { b.text().then(done); return make(b); }; document.getElementById('save').click();""")
    check('the file says so too', '7 of 28 arrows are drawn' in saved, saved[:200])
    write('01 01 00 ' + '01 ' * 150000)
    check('a line of 150,003 bytes', key_lines() == ['R 0 1'] and said().startswith('0 / 0 Refusal 1'), said())


def walk():
    """W by keys, from its start to its end."""
    load()
    check('W is there', key_lines() == ['P 0 1 C', 'P 1 2 C', 'O 0 9 2', 'O 1 0 0', 'T 17 1 1'], key_lines())
    check('its answers', [a for a in answers() if a] == ['accepted', 'accepted', '→ 0', '→ 0', 'accepted', 'accepted', 'accepted', 'accepted', 'save 0 valid', 'save 1 invalid', 'committed', 'accepted', 'runs again', '→ 7',
                                                         'accepted', 'accepted', 'accepted'], answers())
    check('its bytes', sent() == W)
    press(Keys.HOME)
    check('the start', said() == '0 / 17 Start: 2 nodes, 2 sheets; every content and counter is 0.', said())
    for want in W_SAID:
        press(Keys.ARROW_RIGHT)
        check(f'said: {want}', said() == want, said())
    press(Keys.ARROW_RIGHT)
    check('the end stays', said() == W_SAID[-1])
    press(Keys.ARROW_LEFT)
    check('back', said() == W_SAID[-2])
    press(Keys.END)
    check('End', said() == W_SAID[-1])
    step(10)
    check('who waits', js("return [...document.querySelectorAll('.entry')].map(e => e.title)") == ['save 0 holds X', 'save 1 waits for save 0'])
    check('the lanes are told', js("return [...document.querySelectorAll('#told li')].map(e => e.textContent)") == [
        'Save 0: first run from step 1 to 6; submitted from step 7 to 10; committed from step 11; holds from step 9 to 11.',
        'Save 1: first run from step 2 to 7; submitted from step 8 to 12; later run 2 from step 13 to 15; committed from step 16; waits for save 0 from step 10 to 11; holds from step 12 to 16.'], text('told'))
    check('a mark can be pressed', js("document.querySelector('.mark[data-step=\"12\"]').dispatchEvent(new MouseEvent('click', {bubbles: true})); return true"))
    settle()
    check('and is shown', said() == W_SAID[11])
    d.find_element(By.ID, 'slider').send_keys(Keys.ARROW_RIGHT)
    settle()
    check('the slider by keys', said() == W_SAID[12])
    for button, at in [('first', 0), ('on', 1), ('last', 17), ('back', 16)]:
        d.find_element(By.ID, button).click()
        settle()
        check(f'the button {button}', said().startswith(f'{at} / 17'))


def typing():
    """Typing to a refusal, and what it says."""
    load()
    js("const w = document.getElementById('words'); w.focus(); const at = w.value.indexOf('APPLY 0 0'); w.setSelectionRange(at, at)")
    d.find_element(By.ID, 'words').send_keys('DECIDE 1\n')
    time.sleep(.2)
    settle()
    lines = js("return document.getElementById('words').value").split('\n')
    marked = js("return [...document.querySelectorAll('#answers li')].map(e => e.className.includes('refused'))")
    check('the refused line is marked, and no other', [lines[i] for i, m in enumerate(marked) if m] == ['DECIDE 1'] and answers()[marked.index(True)] == 'refused 10', (marked, answers()))
    check('lines behind it are not reached', [a for l, a in zip(lines, answers()) if a == 'not reached'] == ['not reached'] * 6)
    check('the refusal', text('refusal') == 'Refusal 10 at byte 38: DECIDE: a concerned node has not taken the save, or an entry of it waits. Here save 1 waits for save 0 on sheet 0. 06 01', text('refusal'))
    check('R in the key', key_lines()[-1] == 'R 38 10')
    press(Keys.END)
    check('and its sentence', said() == '12 / 12 DECIDE 1 Refusal 10: save 1 waits for save 0 on sheet 0.', said())
    check('the lanes mark it', js("return [document.querySelectorAll('.mark.refused').length, document.querySelector('.lanes .refusal').textContent, document.querySelectorAll('.column.bad').length]") == [1, 'refusal 10', 1])
    head = 'nodes 2\nowners 0 1\n'
    for words, want in [('BEGIN 0\nBEGIN 0\n', '2 / 2 BEGIN 0 Refusal 5: save 0 is in its first run.'), ('BEGIN 0\nREAD 0 1\nSUBMIT 0\nREAD 0 0\n', '4 / 4 READ 0 0 Refusal 5: save 0 is submitted.'),
                        ('BEGIN 32\n', '1 / 1 BEGIN 32 Refusal 4: this session has nodes 0 to 1 and sheets 0 to 1, and saves go from 0 to 31.'), ('TAKE 2\n', '1 / 1 TAKE 2 Refusal 4: this session has nodes 0 to 1 and sheets 0 to 1, and saves go from 0 to 31.'),
                        ('BEGIN 0\nREAD 0 2\n', '2 / 2 READ 0 2 Refusal 4: this session has nodes 0 to 1 and sheets 0 to 1, and saves go from 0 to 31.'), ('SUBMIT 3\n', '1 / 1 SUBMIT 3 Refusal 13: save 3 never began.'),
                        ('BEGIN 0\nGIVE UP 0\nREAD 0 0\n', '3 / 3 READ 0 0 Refusal 14: save 0 is dropped.'), ('BEGIN 0\nWRITE 0 0 5\n', '2 / 2 WRITE 0 0 5 Refusal 7: save 0 has no copy of sheet 0 from this run.'),
                        ('TAKE 0\n', '1 / 1 TAKE 0 Refusal 9: no save has been submitted.'), ('BEGIN 0\nSUBMIT 0\nTAKE 0\nTAKE 0\n', '4 / 4 TAKE 0 Refusal 9: node 0 has taken all 1 place of the order.'),
                        ('BEGIN 0\nREAD 0 1\nSUBMIT 0\nDECIDE 0\n', '4 / 4 DECIDE 0 Refusal 10: node 1 has no entry of save 0 yet at sheet 1 of its claim.'), ('BEGIN 0\nSUBMIT 0\nDECIDE 0\nAPPLY 0 0\n', '4 / 4 APPLY 0 0 Refusal 11: save 0 has no entry in the queues of node 0.'),
                        ('BEGIN 0\nREAD 0 0\nWRITE 0 0 1\nSUBMIT 0\nTAKE 0\nBEGIN 1\nREAD 1 0\n', '7 / 7 READ 1 0 Refusal 6: save 0’s X is at the front of sheet 0’s queue.')]:
        write(head + words)
        press(Keys.END)
        check(f'refused: {want}', said() == want, said())
        bad = js("return [...document.querySelectorAll('#answers li')].findIndex(e => e.className.includes('refused'))")
        check('its line is marked', bad == 1 + words.count('\n'), bad)
    write('02 02 00 01 # header\n01 00\n09 00')
    press(Keys.END)
    check('an unknown byte in hexadecimal', said() == '2 / 2 09 Refusal 2: unknown command byte.' and key_lines()[-1] == 'R 6 2', said())
    write(head + 'BEGIN 256\nBEGIN 0\n')
    check('a number that does not fit its byte', text('wrong') == 'line 3: refused 4: no such save, node or sheet' and answers()[2:4] == ['refused 4: no such save, node or sheet', 'not read'], (text('wrong'), answers()))
    write(head + '<img src=x onerror=alert(1)><b>x</b>')
    check('markup is text', js("return document.querySelectorAll('main img, #answers b').length") == 0 and '<img' in text('wrong'), text('wrong'))
    write('NODES 1\r\nOwners\t0 # one\r\nbegin 0\r\nGIVE   up 0\r\n')
    check('any case, tabs and CR LF', sent().hex() == '01010001000800', sent().hex())
    write('')
    check('no text', text('wrong') == 'line 1: expected "nodes" and the number of nodes' and said() == '0 / 0 There is no session yet.', (text('wrong'), said()))
    write('nodes 1\nowners 0\n' + 'BEGIN 0\n' + 'READ 0 0\n' * 5461)
    check('over 16,384 bytes', text('wrong') == 'refused 1: the session is over 16,384 bytes' and key_lines() == ['R 0 1'], (text('wrong'), key_lines()))


def bad_texts():
    """The texts that can't be composed, with compose's messages."""
    load()
    for path in examples('examples/bad', '.txt'):
        write(open(path, encoding='utf-8', newline='').read())
        check(f'{os.path.basename(path)}', text('wrong') == key('says', path)[0].strip() and not hidden('wrong'), text('wrong'))
    write('nodes 1\nowners 0\nBEGIN 0\n')
    check('nothing is said of a good one', hidden('wrong') and text('wrong') == '')


def spoilt(words):
    """A text with one or two of its words spoilt."""
    lines = words.split('\n')
    for _ in range(rng.randint(1, 2)):
        i = rng.randrange(len(lines))
        bits = lines[i].split(' ')
        j = rng.randrange(len(bits))
        bits[j] = rng.choice(['', 'x', '-1', '00', '07', '256', '255', '64', '32', '8', '4294967295', '4294967296', '99999999999999999999', 'GIVE', 'UP', 'GIVE UP', 'begin', 'é', '\t', '#', '<b>', 'a' * 50, 'ß' * 30, bits[j] + ' 1', bits[j].lower()])
        lines[i] = ' '.join(bits)
        if rng.random() < .1:
            del lines[i]
    return '\n'.join(lines)


def composing():
    """Spoilt texts: the bytes and the messages are compose's."""
    load()
    texts = [open(p, encoding='utf-8').read() for p in examples(kinds='.txt')]
    spoilt_texts = [spoilt(rng.choice(texts)) for _ in range(1500)]
    read = d.execute_async_script("""const [texts, done] = arguments; (async () => {
      const { Words } = await import('/words.js'), w = new Words(await (await fetch('/words.json')).json());
      done(texts.map(t => { const r = w.compose(t); return [r.hex, r.message, r.late, r.bytes]; })); })()""", spoilt_texts)
    asked = 0
    for words, (in_hex, message, late, own) in zip(spoilt_texts, read):
        if in_hex:
            continue
        run = subprocess.run([os.path.join(OUT, 'compose')], input=words.encode(), capture_output=True)
        want = run.stderr.decode().strip('\n')
        if run.returncode == 0:
            check('composed', not message and bytes(own) == run.stdout, (words, message))
        elif 'refused' not in want:
            check('a message', message == want and not late, (words, message, want))
        else:
            check('a refusal is not a matter of spelling', not message or late, (words, message, want))
            if asked < 25:
                asked += 1
                write(words)
                check('the page says the refusal', text('wrong') == want, (words, text('wrong'), want))


def all_examples():
    """Every example against its key and against compose's bytes."""
    load()
    for path in examples():
        name = os.path.basename(path)
        pick(name)
        check(f'{name}: bytes', sent() == composed(path), sent().hex())
        check(f'{name}: key', '\n'.join(key_lines()) + '\n' == report_key(path), key_lines())
        check(f'{name}: the page says so', text('matches') == f'As {name} has it.', text('matches'))
        check(f'{name}: its key is not in the text', '# report' not in js("return document.getElementById('words').value"))
        last = ask(composed(path))['answers'][-1:]
        shown = [a for a in answers() if a and not a.startswith('not reached')]
        check(f'{name}: an answer for each step', not last or shown[-1].endswith(f'refused {last[0][2]}') == (last[0][0] == 7), shown[-1:])


# ---- the drawing against the state's text

SNAPSHOT = """
const all = (s, f, from = document) => [...from.querySelectorAll(s)].map(f), txt = e => e.textContent, seen = e => { const c = e.cloneNode(true); c.querySelectorAll('.sr').forEach(x => x.remove()); return c.textContent.trim(); };
const head = document.querySelector('.lanes .playhead'), x = head ? +head.getAttribute('x1') - 0.5 : 0;
const over = (cls, y) => all(`.lanes rect.${cls}`, r => r).filter(r => +r.getAttribute('x') <= x && x < +r.getAttribute('x') + +r.getAttribute('width') && Math.abs(+r.getAttribute('y') - y) < 12 && !r.classList.contains('future')).map(r => [...r.classList].slice(1).join(' '));
return {
  sheets: all('#nodes .sheet', e => [+e.dataset.sheet, txt(e.querySelector('.content')), txt(e.querySelector('.counter')), all('.entry', q => [seen(q.querySelector('.mode')), seen(q.querySelector('.token')), q.classList.contains('holds') ? 'holds' : 'waits', txt(q).replace(/\\s+/g, ' ').trim(), q.querySelector('.token').className.slice(6)], e)]),
  nodes: all('#nodes .node', e => [+e.dataset.node, txt(e.querySelector('.nodehead .quiet')), all('.sheet', s => +s.dataset.sheet, e)]),
  places: all('#order thead th', e => e).slice(1).map(e => [seen(e.querySelector('.token')), e.classList.contains('former')]),
  verdicts: all('#order tbody tr:not(.outs)', r => all('td', seen, r)),
  outs: all('#order .outs td', txt),
  copies: all('#copies .save', e => [+e.dataset.save, txt(e.querySelector('.savephase')), all('li', txt, e)]),
  key: all('#key code', txt),
  names: all('.lanes .names .name', txt), phases: all('.lanes .names .phase', txt),
  bands: all('.lanes .names .name', e => over('band', +e.getAttribute('y') - 5)), locks: all('.lanes .names .name', e => over('lock', +e.getAttribute('y') + 13)),
  arrows: all('.lanes .arrow', a => [+a.dataset.from, +a.dataset.to]).sort((a, b) => a[0] - b[0] || a[1] - b[1]),
  tips: all('.lanes .arrow', a => { const t = a.querySelector('.tip').getBBox(), lane = u => 24 + document.querySelectorAll('.lanes .names .name').length && [...document.querySelectorAll('.lanes .names .name')].find(n => n.textContent === 'Save ' + u).getBBox(); const to = lane(a.dataset.to), from = lane(a.dataset.from); const mid = t.y + t.height / 2; return Math.abs(mid - to.y - 8) < Math.abs(mid - from.y - 8); }),
};"""


def expected(own, at):
    """What the page is to show, from the state's text and the answers up to this step."""
    lines = [l.split(' ') for l in own['state'].split('\n') if l]
    by = lambda tag: [l[1:] for l in lines if l[0] == tag]
    phase = {t: p for t, p, *_ in by('S')}
    name = {'F': 'first run', 'S': 'submitted', 'C': 'committed', 'D': 'dropped'}
    later = {t: f'later run {r}' if p == 'L' else name[p] for t, p, r, *_ in by('S')}
    wide = {t for t, p, r, f, w, q in by('S') if w == 'W'}
    entry = lambda t, c, g, us: [c, t, 'holds' if g == 'G' else 'waits', f'{c} save {t} ' + ('holds' if g == 'G' else f'waits for save {", ".join(us)}'), phase[t]]
    e = {'sheets': {int(k): [v, f'counter {w}', [entry(t, c, g, us) for kk, t, c, g, *us in by('Q') if kk == k]] for k, v, w in by('O')},
         'nodes': [f'has taken {q} of {len(by("L"))}' for _, q in by('N')], 'places': [[t, x == 'F'] for _, t, x in by('L')], 'key': [' '.join(l) for l in lines if l[0] in 'POT']}
    rows = {t: f'{r} {o}' for t, r, o in by('P')}
    e['outs'] = [rows[t] if x == 'L' else '' for _, t, x in by('L')]
    marks = {t: [f'sheet {k}'] for t, k in []}
    copies = {}
    for t, k, c, m, *more in by('C'):
        counter = next(w for kk, v, w in by('O') if kk == k)
        tail = 'no copy' if m == '-' else f'{more[0]} saw counter {more[1]}' + (f', now {counter}' if more[2] == 'B' else '')
        copies.setdefault(t, []).append((f'{c} ' if c != '-' else '') + f'sheet {k}: {tail}')
    e['copies'] = [[int(t), later[t], (copies.get(t) or ['none yet' if p in 'FL' else 'none']) + (['marked failed'] if f == 'F' else []) + (['wide'] if w == 'W' else [])] for t, p, r, f, w, q in by('S')]
    e['saves'] = {t: later[t] for t in later}
    e['bands'] = {t: phase[t] + (' wide' if t in wide else '') for t in phase}
    waits = {t for k, t, c, g, *us in by('Q') if g == 'W'}
    e['locks'] = {t: 'waits' if t in waits else 'holds' for k, t, c, g, *us in by('Q')}
    e['arrows'] = sorted({(int(t), int(u)) for k, t, c, g, *us in by('Q') if g == 'W' for u in us})
    e['taken'] = [int(q) for _, q in by('N')]
    return e


def same(b, steps, i):
    """The drawing after step i of this session, against the library's text."""
    end = steps[i - 1][0] + steps[i - 1][1] if i else 2 + b[1]
    own = ask(b[:end])
    s, e = js(SNAPSHOT), expected(own, i)
    where = f'{b.hex()} after step {i}: '
    check('sheets and queues', {k: v for k, *v in s['sheets']} == e['sheets'], where + f"{s['sheets']} {e['sheets']}")
    check('nodes', [q for _, q, _ in s['nodes']] == e['nodes'] and all(b[2 + k] == n for n, _, ks in s['nodes'] for k in ks), where + str(s['nodes']))
    check('the order', s['places'] == e['places'] and s['outs'] == e['outs'], where + f"{s['places']} {e['places']} {s['outs']}")
    found = [[] for _ in e['taken']]
    for at, size, kind, value, number in steps[:i]:
        if kind in (3, 4):
            found[b[at + 1]].append('✓' if kind == 3 else '✗')
    cells = [[found[n][q] if q < taken else 'next' if q == taken else '' for q in range(len(e['places']))] for n, taken in enumerate(e['taken'])]
    check('what the nodes found', (s['verdicts'] or [[] for _ in found]) == cells, where + f"{s['verdicts']} {cells}")
    check('copies and claims', s['copies'] == e['copies'], where + f"{s['copies']} {e['copies']}")
    refused = i and steps[i - 1][2] == 7
    check('the key of this step', s['key'] == e['key'] + ([f'R {steps[i - 1][3]} {steps[i - 1][4]}'] if refused else []), where + str(s['key']))
    if s['names']:
        lanes = [n[5:] for n in s['names']]
        check('names and phases', {t: p for t, p in zip(lanes, s['phases']) if p != 'not begun'} == e['saves'], where + f"{s['names']} {s['phases']}")
        check('bands', {t: x[0] for t, x in zip(lanes, s['bands']) if x} == e['bands'], where + f"{s['bands']} {e['bands']}")
        check('locks', {t: x[0] for t, x in zip(lanes, s['locks']) if x} == e['locks'], where + f"{s['locks']} {e['locks']}")
        check('arrows', [tuple(a) for a in s['arrows']] == e['arrows'] and all(s['tips']), where + f"{s['arrows']} {e['arrows']} {s['tips']}")


def compare():
    """Random sessions and examples: report, answers, and the drawing step by step."""
    load()
    tick('here', True)
    some = [composed(os.path.join(ROOT, 'examples', n)) for n in ('w.txt', 'wide-twice.txt', 'wide-s-to-x.txt', 'waiting-behind-a-waiting-x.txt', 'given-up-in-the-second-run.txt', 'refusal-10.txt')]
    for b in some + [grown(ask, rng, 30) for _ in range(7)] + [x for x in sessions(rng, 40) if x and ask(x)['state']][:14]:
        session(b)
        own, steps = ask(b), host.post('/session', b)['steps']
        step(len(steps))
        check('the report', '\n'.join(key_lines()) + '\n' == own['report'], b.hex())
        check('the session is sent as it is', sent() == b, (b.hex(), sent().hex()))
        for i in range(len(steps) + 1):
            step(i)
            same(b, steps, i)
    tick('here', False)


def keys():
    """The key, whole or as of a step."""
    load()
    step(10)
    check('whole', key_lines() == ['P 0 1 C', 'P 1 2 C', 'O 0 9 2', 'O 1 0 0', 'T 17 1 1'])
    tick('here', True)
    check('as of this step', key_lines() == ['P 0 1 U', 'P 1 1 U', 'O 0 0 0', 'O 1 0 0', 'T 10 0 0'], key_lines())
    tick('here', False)
    check('whole again', key_lines()[-1] == 'T 17 1 1')
    check('a gloss for each line', js("return [...document.querySelectorAll('#key .quiet')].map(e => e.textContent)") == ['save 0: 1 run, committed', 'save 1: 2 runs, committed', 'sheet 0: content 9, counter 2', 'sheet 1: content 0, counter 0',
                                                                                                            '17 accepted; committed 1 from the first run, 1 from a later one'], text('key'))


# ---- what may come next, undo, late answers

def chips():
    """What may come next is the engine's, and can be pressed, and taken back."""
    load()
    pick('fresh.txt')
    for want in ['BEGIN 0', 'READ 0 0', 'SUBMIT 0', 'TAKE 0', 'DECIDE 0', 'APPLY 0 0']:
        found = [e for e in d.find_elements(By.CSS_SELECTOR, 'button.chip') if e.text.startswith(want)]
        check(f'{want} may come next', bool(found))
        js('arguments[0].click()', found[0])
        settle()
    check('a session of presses', key_lines() == ['P 0 1 C', 'O 0 0 0', 'T 6 1 0'], key_lines())
    before = js("return document.getElementById('words').value")
    for want in ['BEGIN 1', 'READ 1 0']:
        js("[...document.querySelectorAll('button.chip')].find(e => e.textContent.startsWith(arguments[0])).click()", want)
        settle()
    after = js("return document.getElementById('words').value")
    check('two more lines', after == before.rstrip('\n') + '\nBEGIN 1\nREAD 1 0\n', after)
    d.find_element(By.ID, 'words').click()
    for _ in range(2):
        ActionChains(d).key_down(Keys.CONTROL).send_keys('z').key_up(Keys.CONTROL).perform()
        time.sleep(.05)
    time.sleep(.2)
    settle()
    check('Ctrl+Z takes them back', js("return document.getElementById('words').value") == before, js("return document.getElementById('words').value"))
    load()
    step(8)
    js("[...document.querySelectorAll('button.chip')].find(e => e.textContent.startsWith('TAKE 1')).click()")
    settle()
    check('it is put behind the shown step', said().startswith('9 / 18 TAKE 1') and sent() == W[:32] + b'\x05\x01' + W[32:], said())
    js("const c = [...document.querySelectorAll('button.chip')].find(e => e.textContent.startsWith('BEGIN 2')); c.click(); c.click()")
    settle()
    check('pressed twice at once it is put once', sent() == W[:32] + b'\x05\x01\x01\x02' + W[32:], sent().hex())
    pick('refusal-10.txt')
    press(Keys.END)
    n = len(ask(sent())['answers'])
    js("[...document.querySelectorAll('button.chip')].find(e => e.textContent.startsWith('APPLY')).click()")
    settle()
    check('at a refused step it is put before it', said().startswith(f'{n} / ') and 'APPLY' in said(), said())
    load()
    for i in (0, 5, 10, 13):
        step(i)
        b = W[:[4, 14, 36, 43][[0, 5, 10, 13].index(i)]]
        tried = host.post('/state', b)['next']
        yes = sorted(words_of(s[0]) for s in tried if s[1] != 7)
        check(f'after step {i} every accepted one is shown', sorted(re.match(r'[A-Z ]+[0-9 ]+', t)[0].strip() for t in js("return [...document.querySelectorAll('.chip')].map(e => e.firstChild.textContent)")) == yes)
        check('and the others are counted', js("return document.querySelector('.refusednow summary').textContent") == f'Refused here: {sum(s[1] == 7 for s in tried)}')
    write('02 02 00 01 # header\n01 00\n')
    js("[...document.querySelectorAll('button.chip')].find(e => e.textContent.startsWith('READ 0 1')).click()")
    settle()
    check('in hexadecimal too', js("return document.getElementById('words').value") == '02 02 00 01 # header\n01 00\n02 00 01 # READ 0 1\n', js("return document.getElementById('words').value"))


NAMES = {1: 'BEGIN', 2: 'READ', 3: 'WRITE', 4: 'SUBMIT', 5: 'TAKE', 6: 'DECIDE', 7: 'APPLY', 8: 'GIVE UP'}


def words_of(s):
    return ' '.join([NAMES[s[0]], *map(str, s[1:] if s[0] != 3 else [s[1], s[2], s[6]])])


def stale():
    """An answer that arrives late does not overwrite a newer one."""
    load()
    js("""const real = window.fetch; let n = 0;
      window.fetch = async (...a) => { const mine = ++n, r = await real(...a); if (a[0] === '/session' && mine === 1) await new Promise(done => setTimeout(done, 700)); return r; };""")
    js("const w = document.getElementById('words'); w.value = 'nodes 1\\nowners 0\\nBEGIN 0\\n'; w.dispatchEvent(new Event('input'))")
    time.sleep(.25)
    js("const w = document.getElementById('words'); w.value = 'nodes 1\\nowners 0\\nBEGIN 0\\nSUBMIT 0\\nDECIDE 0\\n'; w.dispatchEvent(new Event('input'))")
    time.sleep(1.1)
    settle()
    check('a late session', key_lines() == ['P 0 1 C', 'O 0 0 0', 'T 3 1 0'] and [a for a in answers() if a] == ['accepted', 'accepted', 'committed'], (key_lines(), answers()))
    load()
    js("""const real = window.fetch; let n = 0;
      window.fetch = async (...a) => { const r = await real(...a); if (a[0] === '/state' && ++n === 1) await new Promise(done => setTimeout(done, 600)); return r; };""")
    js("const s = document.getElementById('slider'); s.value = 0; s.dispatchEvent(new Event('input'))")
    time.sleep(.2)
    js("const s = document.getElementById('slider'); s.value = 8; s.dispatchEvent(new Event('input'))")
    time.sleep(.9)
    chips = js("return [...document.querySelectorAll('.chip')].map(e => e.firstChild.textContent)")
    check('a late list of steps', 'TAKE 0' in chips and 'TAKE 1' in chips, chips)
    js("const s = document.getElementById('slider'); s.value = 3; s.dispatchEvent(new Event('input')); document.querySelector('.chip').click()")
    settle()
    check('a step that was tried elsewhere is not put here', sent() == W and said().startswith('3 / 17'), said())
    js("window.honest = window.fetch; window.fetch = async () => new Response('busy: come again', { status: 503 })")
    step(8)
    check('a host that is busy is said', text('alarm') == 'The host answers 503: busy: come again.' and not hidden('alarm') and not text('next'), text('alarm'))
    js('window.fetch = window.honest')
    step(9)
    check('and not longer than it is', hidden('alarm') and 'TAKE 0' in text('next'), text('alarm'))
    load(link(longest()))
    js("window.blank = 0; new MutationObserver(() => { window.blank += document.getElementById('nodes').textContent.includes('no state'); }).observe(document.getElementById('nodes'), { childList: true })")
    step(100)
    check('the panels of a long session wait for theirs', js('return window.blank') == 0 and text('nodes').startswith('Node 0'))
    js("window.fetch = async () => { throw new Error(); }")
    step(90)
    check('and are of no other step', text('nodes') == 'There is no state.' and not hidden('alarm'), text('nodes'))


# ---- the hidden future

def veil():
    """One step at a time: nothing that is ahead is in the document."""
    load()
    tick('veiled', True)
    check('it starts at the start', said().startswith('0 / 17'))
    check('the remarks are gone from the text', '#' not in js("return document.getElementById('words').value"))
    for i in range(18):
        step(i)
        seen = js("return document.body.innerHTML")
        got = [a for a in answers() if a]
        check(f'answers up to step {i} only', len(got) == i, got)
        check('no step ahead in the lanes', js("return [...document.querySelectorAll('.lanes .mark')].length") == i and js("return document.querySelectorAll('.lanes .future').length") == 0)
        check('the key is of this step', key_lines()[-1].startswith(f'T {i} '), key_lines())
        check('nothing to press', js("return document.querySelectorAll('.chip').length") == 0 and hidden('ahead'))
        for answer, at in [('save 0 valid', 9), ('save 1 invalid', 10), ('runs again', 13), ('→ 7', 14), ('T 17 1 1', 17), ('later run 2', 13)]:
            check(f'{answer!r} is not in the document before its step', (answer in seen) <= (i >= at), i)
    pick('refusal-10.txt')
    n = len(ask(composed(os.path.join(ROOT, 'examples/refusal-10.txt')))['answers'])
    total = str(len(commands(composed(os.path.join(ROOT, 'examples/refusal-10.txt')))))
    for i in range(n):
        step(i)
        check('no refusal is told ahead', 'refused' not in ' '.join(answers()) and hidden('refusal') and text('refusal') == '' and not js("return document.querySelectorAll('#answers .refused, #answers .beyond, .lanes .refused').length")
              and not any(l.startswith('R') for l in key_lines()), i)
        check('nor by the number of steps', js("return document.getElementById('slider').max") == total and js("return document.getElementById('on').ariaDisabled") == 'false')
    step(n)
    check('then it is', 'refused 10' in answers() and not hidden('refusal') and key_lines()[-1].startswith('R '))
    tick('veiled', False)
    check('all is back', len([a for a in answers() if a]) >= n)


# ---- links, files, looks

def links():
    """A link holds the session."""
    load()
    for b in [W, b'', b'\x01', b'\x01\x01\x00\x09\xff', bytes([1, 2, 3]), longest(), bytes(range(256))] + [drawn(rng) for _ in range(6)]:
        load(link(b))
        check(f'a link of {len(b)} bytes', sent() == b if b else js('return location.hash') == '', sent().hex()[:80] if b else '')
        check('its key', '\n'.join(key_lines()) + '\n' == ask(b)['report'], key_lines()[:3])
    load(link(W))
    js('Object.defineProperty(navigator, "clipboard", { value: { writeText: async t => { window.copied = t; } } })')
    d.find_element(By.ID, 'link').click()
    time.sleep(.1)
    check('the button copies it', js('return window.copied') == host.url + link(W) and 'Copied' in text('copied'))
    load('#s=%%%')
    check('a broken link gives the first example', sent() == W)
    load(link(longest()))
    check('the longest session: honestly not drawn', text('lanes').startswith('Not drawn: only sessions of at most 400 steps') and hidden('save'), text('lanes'))
    check('its sentence', said() == '5,461 / 5,461 BEGIN 1 Save 1 begins its first run. It works on copies of its own.', said())
    check('its panels', text('nodes').startswith('Node 0') and 'save 1' in text('copies'))
    began = time.time()
    step(100)
    check('a step of it', said() == '100 / 5,461 READ 0 0 Save 0 reads sheet 0 in its own copy and gets 0.', said())
    print(f'a step of the longest session: {time.time() - began:.2f} s in the page')


def files():
    """The drawing as a file of its own."""
    load()
    step(10)
    for f in glob.glob(downloads + '/*'):
        os.remove(f)
    d.find_element(By.ID, 'save').click()
    for _ in range(100):
        if glob.glob(downloads + '/*.svg'):
            break
        time.sleep(.05)
    time.sleep(.1)
    path = (glob.glob(downloads + '/*.svg') or [''])[0]
    check('saved', path.endswith('saves.svg'), os.listdir(downloads))
    source = open(path, encoding='utf-8').read()
    root = XML.fromstring(source)
    texts = [''.join(e.itertext()) for e in root.iter('{http://www.w3.org/2000/svg}text')]
    check('it is whole: its words', all(t in texts for t in ['Save 0', 'Save 1', 'submitted', 'waits for 0', 'T0✗', 'Saves over time, after step 10 of 17: TAKE 0', 'first run', 'dropped']), texts)
    check('its styles are in it', 'var(' not in source and root.find('{http://www.w3.org/2000/svg}style') is not None and '#5b9bd0' in source.lower().replace('rgb(91, 155, 208)', '#5b9bd0'))
    check('and nothing from elsewhere', not re.search(r'(href|src|@import|url\((?!"?#))', source), re.findall(r'(?:href|src|@import|url\().{20}', source))
    d.get('file://' + path)
    check('it shows alone', js("const e = document.querySelector('.band.F'); return getComputedStyle(e).fill") == 'rgb(91, 155, 208)' and js("return getComputedStyle(document.querySelector('.letter')).fontSize") == '11px')
    check('nothing of it is cut off', js("const v = document.documentElement.getBoundingClientRect(); return [...document.querySelectorAll('text')].every(t => { const r = t.getBoundingClientRect(); return r.right <= v.right + 1 && r.bottom <= v.bottom + 1 && r.left >= v.left - 1; })"))


CONTRAST = """
const parse = c => { const m = c.match(/[\\d.]+/g).map(Number); return { rgb: m.slice(0, 3), a: m[3] ?? 1 }; };
const lum = rgb => { const [r, g, b] = rgb.map(v => { v /= 255; return v <= .03928 ? v / 12.92 : ((v + .055) / 1.055) ** 2.4; }); return .2126 * r + .7152 * g + .0722 * b; };
const ratio = (a, b) => { const [x, y] = [lum(a), lum(b)].sort((p, q) => q - p); return (x + .05) / (y + .05); };
const over = (top, under) => top.rgb.map((v, i) => v * top.a + under[i] * (1 - top.a));
const ground = e => { const stack = []; for (let n = e; n; n = n.parentElement) { const c = parse(getComputedStyle(n).backgroundColor); stack.push(c); if (c.a === 1) break; } return stack.reverse().reduce((u, c) => over(c, u), [255, 255, 255]); };
const fade = e => { let o = 1; for (let n = e; n; n = n.parentElement) o *= +getComputedStyle(n).opacity; return o; };
const low = []; let count = 0;
const walker = document.createTreeWalker(document.body, NodeFilter.SHOW_TEXT);
for (let n; n = walker.nextNode();) {
  const e = n.parentElement;
  if (!n.data.trim() || e.closest('.sr, option, [hidden], .skip, script') || !e.getClientRects().length) continue;
  if (e.closest('details:not([open])') && !e.closest('summary')) continue;
  const svg = e.closest('svg'), style = getComputedStyle(e);
  let back;
  if (svg) {
    e.scrollIntoView({ block: 'center', inline: 'center' });
    const r = e.getBoundingClientRect(), hit = document.elementsFromPoint(r.x + r.width / 2, r.y + r.height / 2);
    const under = hit.find(h => h.closest('svg') && !['text', 'tspan', 'svg', 'line', 'path', 'g'].includes(h.tagName) && !h.closest('.arrow') && parse(getComputedStyle(h).fill.startsWith('rgb') ? getComputedStyle(h).fill : 'rgb(0,0,0,0)').a === 1 && getComputedStyle(h).opacity === '1');
    back = under ? parse(getComputedStyle(under).fill).rgb : ground(svg.parentElement);
  } else back = ground(e);
  const colour = parse(svg ? style.fill : style.color);
  colour.a *= fade(e);
  const got = ratio(over(colour, back), back);
  count++;
  if (got < 4.5) low.push([n.data.trim().slice(0, 30), +got.toFixed(2), e.className.baseVal ?? e.className, back.map(Math.round).join(), colour.rgb.join()]);
}
const w = document.getElementById('words');
for (const b of [w.parentElement, ...document.querySelectorAll('#numbers .here, #numbers .refused, #numbers .wrong')]) { const got = ratio(parse(getComputedStyle(w).color).rgb, ground(b)); count++; if (got < 4.5) low.push(['the text', got]); }
return [count, low];"""


def contrast():
    """Every text on its ground, in both schemes."""
    for scheme in ('light', 'dark'):
        view(1280, 900, scheme)
        load()
        for name, at in [('w.txt', 10), ('w.txt', 17), ('wide-twice.txt', 17), ('wide-twice.txt', 26), ('refusal-10.txt', 99), ('given-up-in-the-second-run.txt', 99), ('refusal-1.hex', 0), ('waiting-behind-a-waiting-x.txt', 10)]:
            pick(name)
            step(at)
            js("document.querySelectorAll('details').forEach(d => { d.open = true; })")
            time.sleep(.1)
            count, low = js(CONTRAST)
            check(f'{scheme}: {name} after {at}: {count} texts', count > 40 and not low, low)
        write('nodes 1\nowners 0\nBEGN 0\nBEGIN 1\n')
        count, low = js(CONTRAST)
        check(f'{scheme}: a line that can’t be read', not low, low)
        ground = js("return getComputedStyle(document.body).backgroundColor")
        check(f'{scheme}: its own ground', (sum(map(int, re.findall(r'\d+', ground)[:3])) < 200) == (scheme == 'dark'), ground)
    view()


OVERLAP = """
const boxes = s => [...document.querySelectorAll(s)].map(e => [e.textContent, e.getBoundingClientRect()]);
const hit = (a, b) => Math.min(a.right, b.right) - Math.max(a.left, b.left) > 1.5 && Math.min(a.bottom, b.bottom) - Math.max(a.top, b.top) > 3;
const found = [], labels = boxes('.lanes > g:not(.names) text.phase, .lanes text.locked');
labels.forEach(([t, a], i) => labels.slice(i + 1).forEach(([u, b]) => { if (hit(a, b)) found.push([t, u]); }));
const numbers = boxes('.lanes .number'); numbers.forEach(([t, a], i) => { const next = numbers[i + 1]; if (next && hit(a, next[1])) found.push([t, next[0]]); });
return found;"""


def crowded():
    saves = range(32)
    return bytes([8, 64] + [k % 8 for k in range(64)]) + b''.join(bytes([1, t]) for t in saves) + b''.join(bytes([2, t, k, 3, t, k, 255, 255, 255, 255]) for t in saves for k in range(1)) + b''.join(bytes([4, t]) for t in saves) \
        + bytes([5, 0]) * 32 + bytes([6, 0, 7, 0, 0])


def widths():
    """From a phone to a large screen: no sideways scroll, nothing on top of another."""
    for width in (390, 480, 640, 768, 900, 1024, 1180, 1280, 1440, 1920):
        view(width, 844)
        load()
        for name in ['w.txt', 'wide-twice.txt', 'sheets-64.txt', 'refusal-10.txt', link(crowded())] if width in (390, 1024, 1280, 1920) else ['w.txt']:
            if name.startswith('#'):
                session(crowded())
            else:
                pick(name)
            js("document.querySelectorAll('details').forEach(d => { d.open = true; })")
            wide = js('return document.documentElement.scrollWidth')
            check(f'{width}: {name[:20]}: no sideways scroll', wide <= width, wide)
            check(f'{width}: {name[:20]}: no label on another', not js(OVERLAP), js(OVERLAP))
            out = js("return [...document.querySelectorAll('main *')].filter(e => { const r = e.getBoundingClientRect(); return r.width && r.right > innerWidth + 1 && !e.closest('.score, .scroll, .editor, .sr, svg'); }).map(e => e.id || e.className).slice(0, 5)")
            check(f'{width}: {name[:20]}: nothing sticks out', not out, out)
    view()


def keyboard():
    """Every control by Tab, with a focus that is seen; landmarks, headings and labels."""
    load()
    step(10)
    reached, plain = [], []
    for _ in range(60):
        ActionChains(d).send_keys(Keys.TAB).perform()
        name, ring = js("""const e = document.activeElement, s = getComputedStyle(e), box = e.id === 'words' ? getComputedStyle(e.parentElement).boxShadow !== 'none' : false;
          return [e === document.body ? 'BODY' : e.id || e.className || e.tagName.toLowerCase() + ':' + e.textContent.slice(0, 12), (s.outlineStyle !== 'none' && parseFloat(s.outlineWidth) >= 2) || box]""")
        if name == 'BODY' or (reached and name == reached[0]):
            break
        reached.append(name)
        if not ring:
            plain.append(name)
    for name in ['skip', 'example', 'veiled', 'words', 'link', 'summary:Bytes', 'first', 'back', 'slider', 'on', 'last', 'save', 'lanes', 'chip', 'here', 'key', 'scroll']:
        check(f'{name} is reached by Tab', name in reached, reached)
    check('each focus is seen', not plain, plain)
    load()
    step(10)
    ActionChains(d).send_keys(Keys.TAB).perform()
    check('the skip link is first and can be seen', js("const e = document.activeElement; return e.className === 'skip' && e.getBoundingClientRect().top >= 0"))
    ActionChains(d).send_keys(Keys.ENTER).perform()
    check('and leads to the steps', js("return document.activeElement.id") == 'steps')
    check('which leaves the session and its address alone', sent() == W)
    js("const w = document.getElementById('words'); w.focus(); w.setSelectionRange(0, 0)")
    at = said()
    ActionChains(d).send_keys(Keys.ARROW_RIGHT).send_keys(Keys.END).perform()
    settle()
    check('keys in the text move in the text', said() == at, said())
    d.find_element(By.ID, 'last').click()
    settle()
    check('a button at the end keeps the focus', js("return [document.activeElement.id, document.activeElement.ariaDisabled]") == ['last', 'true'])
    pick('refusal-10.txt')
    js("window.changes = 0; for (const id of ['refusal', 'wrong']) new MutationObserver(l => { window.changes += l.length; }).observe(document.getElementById(id), { childList: true, characterData: true, subtree: true })")
    press(Keys.HOME, Keys.ARROW_RIGHT, Keys.END)
    check('a refusal is said once, and not at every step', js('return window.changes') == 0 and not hidden('refusal'), js('return window.changes'))
    check('what is said of a step is not in a part that is busy', js("return !document.getElementById('said').closest('[aria-busy]')"))
    load()
    check('landmarks', js("return [document.querySelectorAll('main').length, document.querySelectorAll('header').length, document.querySelectorAll('h1').length, document.documentElement.lang]") == [1, 1, 1, 'en'])
    check('headings go down one by one', js("let last = 0; return [...document.querySelectorAll('h1, h2, h3, h4')].every(h => { const n = +h.tagName[1], ok = n <= last + 1; last = n; return ok; })"))
    unnamed = js("return [...document.querySelectorAll('button, input, select, textarea, [tabindex=\"0\"]')].filter(e => !(e.getAttribute('aria-label') || e.getAttribute('aria-labelledby') || e.labels?.length || e.textContent.trim())).map(e => e.id || e.className)")
    check('every control has a name', not unnamed, unnamed)
    check('each step is told', js("return document.getElementById('said').getAttribute('aria-live')") == 'polite')
    tree = d.execute_cdp_cmd('Accessibility.getFullAXTree', {})
    names = [n.get('name', {}).get('value', '') for n in tree['nodes'] if not n.get('ignored')]
    check('a reader meets the sections', all(any(n == x for n in names) for x in ['Session', 'Saves over time', 'Nodes, sheets and queues', 'Own copies and claims', 'The order', 'The key', 'What may come next']), names[:60])


def gone():
    """The console is clean; a host that is gone is said."""
    logs = [l for l in d.get_log('browser') if l['level'] in ('SEVERE', 'WARNING')]
    check('the console is clean', not logs, logs[:3])
    load()
    host.process.terminate()
    host.process.wait()
    js("const w = document.getElementById('words'); w.value = 'nodes 1\\nowners 0\\nBEGIN 0\\n'; w.dispatchEvent(new Event('input'))")
    time.sleep(.6)
    check('the host is gone, and it is said', text('alarm') == 'The host does not answer. Is it still running?' and not hidden('alarm'), text('alarm'))


GROUPS = [walk, told, many, typing, bad_texts, composing, all_examples, compare, keys, chips, stale, veil, links, files, contrast, widths, keyboard, gone]
if __name__ == '__main__':
    view()
    check.run(GROUPS, sys.argv[2:])
    d.quit()
    ask.stop()
    host.process.terminate()
    host.process.wait()
    check.end()
