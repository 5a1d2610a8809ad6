"""Wrong pages and wrong hosts: each edit is made in a copy, and the tests must fail. Usage: wrong.py [NAME...]"""
import os, shutil, signal, subprocess, sys, tempfile
from common import ROOT, OUT

HTTP, BROWSER = 'http_test.py', 'browser_test.py'
# what is wrong, the file, what stands there, what is put instead, and the tests that must see it
WRONG = [
    ('a granted entry drawn as waiting', 'www/panels.js', "const does = e.granted ? 'holds' : 'waits',", "const does = e.granted ? 'waits' : 'holds',", BROWSER, 'compare'),
    ('an entry read as granted', 'www/state.js', "granted: granted === 'G', waitsFor", "granted: granted === 'G' || mode === 'S', waitsFor", BROWSER, 'compare'),
    ('a lane that holds although it waits', 'www/lanes.js', 'waits: entries.some(e => !e.granted)', 'waits: entries.every(e => !e.granted) && entries.length > 1', BROWSER, 'compare'),
    ('arrows the wrong way', 'www/lanes.js', 'const from = this.y(t) + MIDDLE, to = this.y(u) + MIDDLE,', 'const from = this.y(u) + MIDDLE, to = this.y(t) + MIDDLE,', BROWSER, 'compare'),
    ('an arrow too few', 'www/lanes.js', 'u of count <= MOST_ARROWS ? on', 'u of count <= 1 ? on', BROWSER, 'compare'),
    ('arrows left out without a word', 'www/page.js', "$('arrows').hidden = !fewer;", '', BROWSER, 'many'),
    ('an entry that is there told as missing', 'www/sentences.js', '!queue(s, c.sheet).some(e => e.save === t)', 'queue(s, c.sheet).some(e => e.save === t)', BROWSER, 'many'),
    ('a refusal said at every step', 'www/editor.js', 'if (box.textContent !== whole.textContent) box', 'box', BROWSER, 'keyboard'),
    ('a former place drawn as the last', 'www/panels.js', "heading('col', last ? '' : 'former',", "heading('col', '',", BROWSER, 'compare'),
    ('a counter behind is not told', 'www/state.js', "behind: behind === 'B'", 'behind: false', BROWSER, 'compare'),
    ('a failed mark that goes at DECIDE', 'www/state.js', "failed: failed === 'F'", "failed: failed === 'F' && phase === 'S'", BROWSER, 'compare'),
    ('wide runs not told', 'www/state.js', "wide: wide === 'W'", 'wide: false', BROWSER, 'compare'),
    ('a claim where there is none', 'www/state.js', "claim: claim === '-' ? '' : claim", "claim: claim === '-' ? 'S' : claim", BROWSER, 'compare'),
    ('phases a step too early', 'www/lanes.js', 'const y = this.y(t), all = phasesOf(this.states.slice(0, this.end + 1), t);', 'const y = this.y(t), all = phasesOf(this.states.slice(1, this.end + 1), t);', BROWSER, 'compare'),
    ('the verdicts of another node', 'www/panels.js', 'verdictCell(q < taken ? found[n][q]', 'verdictCell(q < taken ? found[0][q]', BROWSER, 'compare'),
    ('the key of the whole as of the step', 'www/page.js', "whole = at === steps.length || !($('here').checked || veiled());", 'whole = true;', BROWSER, 'keys'),
    ('the wrong cause', 'www/sentences.js', "RULES = ['', 'X granted', 'X waiting', 'counter behind']", "RULES = ['', 'X waiting', 'X granted', 'counter behind']", BROWSER, 'walk'),
    ('the state behind the step told as before it', 'www/page.js', "{ before: states[refused ? at - 1 : Math.max(0, at - 1)],", '{ before: states[refused ? at - 1 : at],', BROWSER, 'walk'),
    ('the refused line off by one', 'www/editor.js', 'lineOf.forEach((line, i) => own[line]?.push(steps[i]));', 'lineOf.forEach((line, i) => own[line + (steps[i].kind === REFUSED ? 1 : 0)]?.push(steps[i]));', BROWSER, 'typing'),
    ('a late session that overwrites', 'www/page.js', '  if (mine !== asked) return;\n', '', BROWSER, 'stale'),
    ('a late list of steps that overwrites', 'www/page.js', "  if (mine !== askedNext) return;\n  alarm('');", "  alarm('');", BROWSER, 'stale'),
    ('an alarm that stays', 'www/page.js', "  alarm('');\n  takeNext(answer);", '  takeNext(answer);', BROWSER, 'stale'),
    ('a hidden answer left in the document', 'www/editor.js', "return hidden ? ['', ''] : [lineAnswer(own),", "return [lineAnswer(own),", BROWSER, 'veil'),
    ('hidden lanes left in the document', 'www/page.js', 'shown: veiled() ? at : steps.length, total', 'shown: steps.length, total', BROWSER, 'veil'),
    ('the number of steps tells of a stop ahead', 'www/page.js', "most = veiled() ? now.written : steps.length;", 'most = steps.length;', BROWSER, 'veil'),
    ('contents spelled from the wrong end', 'www/words.js', 'value / 256 ** (width - 1 - i)', 'value / 256 ** i', BROWSER, 'all_examples'),
    ('no-break spaces taken for blanks', 'www/words.js', 'return text.split(/[ \\t]+/)', 'return text.split(/\\s+/)', BROWSER, 'bad_texts'),
    ('a message of a later line first', 'www/words.js', 'if (read.message && !(read.late && !e.late)) return;', 'if (read.message && read.late && !e.late) return;', BROWSER, 'composing'),
    ('numbers with leading zeros', 'www/words.js', "if (word.length > 1 && word[0] === '0')", 'if (false)', BROWSER, 'composing'),
    ('a link without its last byte', 'www/words.js', 'for (const b of bytes) binary', 'for (const b of bytes.slice(0, -1)) binary', BROWSER, 'links'),
    ('the step is put at another line', 'www/page.js', ".slice(0, line + 1).join", ".slice(0, line + 2).join", BROWSER, 'chips'),
    ('a step put twice', 'www/page.js', "if ($('words').value !== now.text) return;", '', BROWSER, 'chips'),
    ('what may come next of the step before', 'www/page.js', 'refusedHere() ? step.at : step.at + step.size', 'step.at', BROWSER, 'chips'),
    ('no way back by Ctrl+Z', 'www/editor.js', "text.length > UNDO_LENGTH || !document.execCommand('insertText', false, text)", 'true', BROWSER, 'chips'),
    ('a file without its styles', 'www/lanes.js', "svg('style', {}, styles()),", '', BROWSER, 'files'),
    ('soft text too pale', 'www/colours.css', '--ink: #1f2630; --soft: #56606b;', '--ink: #1f2630; --soft: #8a949f;', BROWSER, 'contrast'),
    ('a style that the policy forbids', 'www/index.html', '<p id="about">', '<p id="about" style="color: red">', BROWSER, 'walk gone'),
    ('no ring around the focus', 'www/page.css', ':focus-visible { outline: 2px solid', ':focus-visible { outline: 0 solid', BROWSER, 'keyboard'),
    ('the order makes the page scroll', 'www/page.css', '.scroll { overflow-x: auto; }', '', BROWSER, 'widths'),
    ('413 off by one', 'host/http.c', 'strtoull(length, NULL, 10) > BODY_BYTES)', 'strtoull(length, NULL, 10) > BODY_BYTES + 1)', HTTP, 'sizes'),
    ('413 a byte too early', 'host/http.c', 'strtoull(length, NULL, 10) > BODY_BYTES)', 'strtoull(length, NULL, 10) >= BODY_BYTES)', HTTP, 'sizes'),
    ('chunked bodies let in', 'host/http.c', 'return header(c, MHD_HTTP_HEADER_TRANSFER_ENCODING) || (length', 'return (length', HTTP, 'sizes'),
    ('any Host', 'host/http.c', 'if (!host_is_ours(c))', 'if (0)', HTTP, 'surface'),
    ('a Host that only begins like ours', 'host/http.c', 'strcmp(host, name) == 0 ||', 'strncmp(host, name, strlen(name)) == 0 ||', HTTP, 'surface'),
    ('two hosts in a request', 'host/http.c', 'if (ambiguous(c))', 'if (0)', HTTP, 'surface'),
    ('any type', 'host/http.c', 'posted(url) && !is_session(c)', '0', HTTP, 'surface'),
    ('scripts from elsewhere', 'host/http.c', "script-src 'self'; ", "script-src *; ", HTTP, 'surface'),
    ('no budget of steps', 'host/session.c', 'bool drawn = room && s->count <= DRAWN_STEPS;', 'bool drawn = room != NULL;', HTTP, 'budgets'),
    ('no budget of bytes', 'host/session.c', '    *left -= (size_t)CUSPHEWA_VALUE(written);\n', '', HTTP, 'budgets'),
    ('no budget of tries', 'host/next.c', 't->spent = t->spent || cost > t->left;', '', HTTP, 'budgets'),
    ('a spent budget that is not told', 'host/next.c', 't.spent ? "true" : "false"', '"false"', HTTP, 'budgets'),
    ('each state a command too early', 'host/session.c', 'put_text(j, session, i ? s->ends[i - 1] : from, room, &left)', 'put_text(j, session, i > 1 ? s->ends[i - 2] : from, room, &left)', HTTP, 'said'),
    ('the last answer left out', 'host/session.c', 'for (size_t i = 0; i < s->count; i++) {\n        uint64_t a', 'for (size_t i = 0; i + 1 < s->count; i++) {\n        uint64_t a', HTTP, 'said'),
    ('memory that is not given back', 'host/next.c', '    json_put(j, "}");\n    free(room);\n', '    json_put(j, "}");\n', HTTP, 'budgets'),
    ('who drips stays', 'host/http.c', 'shutdown(guests[i].socket, SHUT_RDWR);', '(void)now;', HTTP, 'crowd'),
]


def tried(name, file, old, new, test, groups):
    """The last lines of the tests on this wrong copy, and whether they failed."""
    work = tempfile.mkdtemp()
    try:
        for part in ('www', 'host'):
            shutil.copytree(os.path.join(ROOT, 'page', part), os.path.join(work, part))
        path = os.path.join(work, file)
        text = open(path, encoding='utf-8').read()
        if text.count(old) != 1:
            return f'the edit does not fit any more: {text.count(old)} places', False
        open(path, 'w', encoding='utf-8').write(text.replace(old, new))
        env = dict(os.environ, PAGE_WWW=work + '/www', PAGE_HOST=work + '/host', PAGE_OUT=work + '/out', CFLAGS='-w -O1 ' + ('-fsanitize=address,undefined' if test == HTTP else ''))
        built = subprocess.run([os.path.join(ROOT, 'page/build')], env=env, capture_output=True, text=True)
        if built.returncode:
            return 'it does not build: ' + built.stderr[-300:], False
        run = subprocess.Popen([sys.executable, os.path.join(ROOT, 'page/tests', test), work + '/out/host', *groups.split()], env=dict(os.environ, PAGE_FIRST='1'), stdout=subprocess.PIPE,
                               stderr=subprocess.STDOUT, text=True, start_new_session=True)
        try:
            said = run.communicate(timeout=240)[0]
        except subprocess.TimeoutExpired:
            os.killpg(run.pid, signal.SIGKILL)  # and what it has started
            said = run.communicate()[0]
        lines = [l for l in said.split('\n') if l.startswith('FAILED')]
        return (lines or [said[-400:]])[0], run.returncode != 0 and bool(lines)
    finally:
        shutil.rmtree(work)


passed = failed = 0
for wrong in WRONG:
    if len(sys.argv) > 1 and not any(a in wrong[0] for a in sys.argv[1:]):
        continue
    said, seen = tried(*wrong)
    passed, failed = passed + seen, failed + (not seen)
    print(f'{wrong[0]}: {"seen" if seen else "NOT SEEN"}: {said[:150] if not seen else said[8:90]}', flush=True)
print(f'{passed} passed, {failed} failed')
sys.exit(failed > 0)
