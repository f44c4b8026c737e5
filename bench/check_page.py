#!/usr/bin/env python3
"""check_page.py [FOLDER]: opens what omid_view writes in a browser, uses its page by keyboard and mouse, and keeps what it looks like.

    bench/check_page.py                       the programs that a green gate left in crates/omid/out and crates/omid_view/out
    bench/check_page.py --with out            those that bench/keep.py left there
    bench/check_page.py /tmp/views --with out screenshots into that folder (/tmp/views if none is named)

For a takeover, both write skews, a lost update that MariaDB let through, direct commits, 2,000 and 20,000 items it makes the page and a
picture, opens them in chromium without a screen, light and dark, and the picture in rsvg-convert too. Of a page it checks, by real keys
and clicks: signs are drawn, nothing is fetched and nothing fails; a filter, the next refusal with just the witnesses that `explain` tells,
one transaction in focus, the ringed breach, the items one by one, zoom, another history and another page dropped on it; and how long a
drawing takes. The page's script is outside the proofs, and this alone checks it. The PNG files are for a person to look at.
Where chromium or rsvg-convert is not there it says so, leaves its part out, and ends with 0 (Debian: chromium, librsvg2-bin)."""
import argparse
import base64
import json
import os
import re
import shutil
import subprocess
import sys
import tempfile
import time

ROOT = os.path.dirname(os.path.dirname(os.path.abspath(__file__)))
# the most that a drawing, and that a filter over 20,000 items may take, in milliseconds
DRAWING, FILTER = 50, 400


class Browser:
    """Chromium without a screen, asked by its protocol over a pipe: JSON objects with a zero byte behind each."""

    def __init__(self, path):
        self.folder = tempfile.TemporaryDirectory()
        theirs, self.to = os.pipe()
        self.got, ours = os.pipe()
        words = [path, '--headless=new', '--no-sandbox', '--disable-gpu', '--remote-debugging-pipe', '--no-first-run', f'--user-data-dir={self.folder.name}', '--window-size=1400,700']
        # the pipe's ends are 3 and 4 for the browser
        self.process = subprocess.Popen(['bash', '-c', f'exec "$@" 3<&{theirs} 4>&{ours}', 'bash', *words], pass_fds=(theirs, ours), stderr=subprocess.DEVNULL)
        os.close(theirs)
        os.close(ours)
        self.number, self.rest, self.session, self.events = 0, b'', None, []
        target = self.call('Target.createTarget', url='about:blank')['targetId']
        self.session = self.call('Target.attachToTarget', targetId=target, flatten=True)['sessionId']
        for domain in ('Page', 'Runtime', 'Network', 'Log', 'DOM'):
            self.call(domain + '.enable')

    def read(self):
        while b'\0' not in self.rest:
            more = os.read(self.got, 1 << 20)
            if not more:
                sys.exit('check_page: the browser ended')
            self.rest += more
        one, self.rest = self.rest.split(b'\0', 1)
        return json.loads(one)

    def call(self, method, **words):
        self.number += 1
        asked = {'id': self.number, 'method': method, 'params': words, **({'sessionId': self.session} if self.session else {})}
        os.write(self.to, json.dumps(asked).encode() + b'\0')
        while True:
            said = self.read()
            if said.get('id') == self.number:
                if 'error' in said:
                    sys.exit(f'check_page: {method}: {said["error"]["message"]}')
                return said['result']
            self.events.append(said)

    def open(self, address):
        self.call('Page.navigate', url='about:blank')
        self.events = []
        self.call('Page.navigate', url=address)
        while self.ask('location.href == "about:blank" || document.readyState') != 'complete':
            time.sleep(0.02)
        self.settle()

    def ask(self, words):
        said = self.call('Runtime.evaluate', expression=words, returnByValue=True, awaitPromise=True)
        if 'exceptionDetails' in said:
            self.events.append({'method': 'Runtime.exceptionThrown', 'params': said})
        return said['result'].get('value')

    def settle(self):
        """Waits until what was asked is drawn."""
        self.ask('new Promise(done => requestAnimationFrame(() => requestAnimationFrame(done)))')

    def key(self, key):
        text = {'text': key} if len(key) == 1 else {}
        self.call('Input.dispatchKeyEvent', type='keyDown', key=key, **text)
        self.call('Input.dispatchKeyEvent', type='keyUp', key=key)
        self.settle()

    def write(self, text):
        self.call('Input.insertText', text=text)
        self.settle()

    def drop(self, path):
        data = {'items': [], 'files': [path], 'dragOperationsMask': 1}
        for kind in ('dragEnter', 'dragOver', 'drop'):
            self.call('Input.dispatchDragEvent', type=kind, x=500, y=300, data=data)
        time.sleep(0.3)
        self.settle()

    def dark(self, is_dark):
        self.call('Emulation.setEmulatedMedia', features=[{'name': 'prefers-color-scheme', 'value': 'dark' if is_dark else 'light'}])
        self.settle()

    def shoot(self, path):
        with open(path, 'wb') as file:
            file.write(base64.b64decode(self.call('Page.captureScreenshot')['data']))

    def shoot_both(self, path):
        for is_dark in (False, True):
            self.dark(is_dark)
            self.shoot(f'{path}.{"dark" if is_dark else "light"}.png')
        self.dark(False)

    def faults(self):
        """What failed since the page was opened, and what was fetched beside it."""
        faults = []
        for event in self.events:
            words = event.get('params', {})
            if event.get('method') == 'Runtime.exceptionThrown':
                faults.append('the script failed: ' + json.dumps(words)[:300])
            if event.get('method') == 'Log.entryAdded' and words['entry']['level'] == 'error':
                faults.append('the browser says ' + words['entry']['text'])
            if event.get('method') == 'Network.requestWillBeSent' and words.get('type') != 'Document':
                faults.append('fetched ' + words['request']['url'])
        return faults

    def end(self):
        self.call('Browser.close')
        self.process.wait(timeout=20)
        self.folder.cleanup()


# ---- what is looked at

def ran(words, text):
    return subprocess.run(words, input=text, capture_output=True, text=True)


def long_history(transactions):
    """Writers of sixteen sessions, each of six items, for the time that a large page takes."""
    lines, stamp = [], 0
    for number in range(transactions):
        session, start, commit = f's{number % 16}', stamp + 1, stamp + 2
        stamp += 2
        lines += [f'ask-begin {session} a', f'begin {session} start={start}', f'read {session} start={start} k{number % 64 + 64} none',
                  f'write {session} start={start} k{number % 64} v{number}', f'placed start={start} commit={commit}',
                  f'committed {session} start={start} commit={commit}']
    return '\n'.join(lines) + '\n'


def text_of(path):
    with open(f'{ROOT}/{path}', encoding='utf-8') as file:
        return file.read()


def views(omid):
    """Name, history, word behind the commands, and the words of omid_view for the picture."""
    replay = lambda name: ran([omid, 'replay'], text_of(f'examples/{name}.omid')).stdout
    real = ran([f'{ROOT}/examples/trace.py', f'{ROOT}/examples/real/mariadb_repeatable_read.json'], '').stdout
    yield 'takeover', replay('takeover'), [], ['picture']
    yield 'takeover_brief', replay('takeover'), [], ['picture', 'brief']
    yield 'write_skew', replay('write_skew'), ['strict'], ['breach', 'strict']
    yield 'write_skew_strict', replay('write_skew_strict'), ['strict'], ['picture']
    yield 'lost_update_mariadb', real, [], ['breach']
    yield 'direct', replay('direct'), [], ['picture']
    yield 'items_2000', long_history(334), [], ['picture']
    yield 'items_20000', long_history(3400), [], ['picture', 'brief', '9001', '10200']


# ---- a page, used

def told_witnesses(explained):
    """Of each refusal that `explain` tells of, by its number, the numbers of the items that show it."""
    told, of = {}, None
    for line in explained.splitlines():
        if found := re.match(r'(\d+): refused ', line):
            of = told.setdefault(int(found[1]), [])
        elif of is not None and (found := re.match(r' +shown by (\d+): ', line)):
            of.append(int(found[1]))
    return told


SIGNS = 'document.querySelectorAll("#drawn .sign").length'
FAINT = 'document.querySelectorAll("#drawn .sign.faint").length'
PARTS = 'Object.fromEntries([...document.querySelectorAll("#side h2")].map(head => { const numbers = []; for (let at = head.nextElementSibling; at && at.tagName != "H2"; at = at.nextElementSibling) if (at.dataset.number) numbers.push(+at.dataset.number); return [head.textContent, numbers] }))'


def use(browser, explained, at):
    """Uses the page that is open; answers what is wrong with it."""
    faults = []

    def holds(what, is_so):
        if not is_so:
            faults.append(what)

    count, told = browser.ask('items.length'), told_witnesses(explained)
    holds('no sign is drawn', browser.ask(SIGNS) > 0)
    holds('the verdict is not told', browser.ask('$("verdict").textContent') == explained.splitlines()[0])
    # by the keys: a filter, and all again
    browser.key('/')
    browser.write('s1')
    fitting = browser.ask('items.filter(item => (" " + item.line + " ").includes(" s1 ")).length')
    holds('the filter leaves other items as they are', browser.ask('items.filter(item => !item.faint).length') == fitting and browser.ask(FAINT) > 0)
    browser.shoot_both(f'{at}.filter')
    browser.ask('$("view").focus()')
    browser.key('o')
    holds('only what fits is not alone', browser.ask('shown.every(item => item.words.has("s1"))') and 0 < browser.ask('shown.length') <= fitting)
    browser.key('Escape')
    holds('Escape leaves a filter', browser.ask(FAINT) == 0)
    browser.key('s')
    holds('steps stay hidden', browser.ask('shown.length') == count)
    browser.key('s')
    # refusals, each with its witnesses
    for number in sorted(told)[:3]:
        browser.key('n')
        parts = browser.ask(PARTS)
        holds(f'refusal {number} is not chosen, or its witnesses are others than explain tells', f'Item {number}' in parts and parts.get('Shown by', []) == told[number])
        holds(f'refusal {number} is out of sight', browser.ask(f'(box => box && box.left > 0 && box.right < innerWidth)(document.querySelector("#drawn .chosen")?.getBoundingClientRect())'))
    if told:
        browser.shoot_both(f'{at}.refusal')
        browser.key('f')
        holds('one transaction in focus leaves the others as they are, or none', 0 < browser.ask('items.filter(item => !item.faint).length') < count)
        browser.shoot_both(f'{at}.focus')
        browser.key('f')
    browser.key('Escape')
    # the breach
    if explained.startswith('not isolated'):
        pair = [int(word) for word in explained.splitlines()[0].split()[-2:]]
        browser.key('b')
        holds('the breach is not ringed', browser.ask('[...document.querySelectorAll("#drawn .sign:has(.ring)")].map(sign => +sign.dataset.number)') == pair)
        holds('the breach is not in view', browser.ask('[...document.querySelectorAll("#drawn .ring")].every(ring => (box => box.left > LEFT - 20 && box.right <= $("view").clientWidth)(ring.getBoundingClientRect()))'))
        holds('the breach is not told beside the picture', 'What was found' in browser.ask(PARTS))
        browser.shoot_both(f'{at}.breach')
        browser.key('Escape')
    # one by one, zoom, and a click
    browser.key('ArrowRight')
    browser.key('ArrowRight')
    holds('the keys do not go from item to item', browser.ask('chosen') == browser.ask('shown[1].number'))
    before = browser.ask('pitch()')
    browser.key('+')
    holds('no zoom', browser.ask('pitch()') > before)
    browser.key('Escape')
    box = browser.ask('(box => [box.x + box.width / 2, box.y + box.height / 2])(document.querySelector("#drawn .sign circle").getBoundingClientRect())')
    for kind in ('mousePressed', 'mouseReleased'):
        browser.call('Input.dispatchMouseEvent', type=kind, x=box[0], y=box[1], button='left', clickCount=1)
    browser.settle()
    holds('a click chooses nothing', browser.ask('chosen') == browser.ask('shown[0].number'))
    browser.key('Escape')
    return faults


def timed(browser):
    """How long a drawing takes, and a filter over all items: the least of some, since other work goes on beside."""
    drawing = browser.ask('Math.min(...Array.from({length: 30}, (_, turn) => { const at = performance.now(); $("view").scrollLeft = turn * 3000; draw(); return performance.now() - at }))')
    filtering = browser.ask('Math.min(...["k7", "s1", "k*", "read", ""].map(word => { const at = performance.now(); $("filter").value = word; settle(); return performance.now() - at }))')
    return drawing, filtering


def dropped(browser, program, folder):
    """A history and a page of it, dropped on the page that is open."""
    faults, text, lines = [], f'{folder}/dropped.history', ['begin s0 start=1', 'write s0 start=1 k0 v', 'placed start=1 commit=2']
    json_lines = ['{"kind":"begin","session":"s0","start":1}', '{"key":"k0","kind":"write","session":"s0","start":1,"value":"v"}', '{"commit":2,"kind":"placed","start":1}']
    for history in (lines, json_lines):
        with open(text, 'w', encoding='utf-8') as file:
            file.write('\n'.join(history) + '\n')
        browser.drop(text)
        if browser.ask('items.map(item => item.line)') != lines or 'not judged' not in browser.ask('$("verdict").textContent'):
            faults.append('a history that is dropped on the page is not shown')
    page = f'{folder}/dropped.html'
    with open(page, 'w', encoding='utf-8') as file:
        file.write(ran([program, 'page'], '\n'.join(lines)).stdout)
    browser.drop(page)
    if browser.ask('items.map(item => item.line)') != lines or browser.ask('bars.length') != 1 or 'isolated' not in browser.ask('$("verdict").textContent'):
        faults.append('a page that is dropped on the page is not shown')
    return faults


def looked_at(browser, rsvg, program, folder, view):
    """Makes the page and the picture of a view, and looks at both; answers what is wrong."""
    name, history, words, picture = view
    at, faults = f'{folder}/{name}', []
    explained, page, drawn = (ran([program, *command], history) for command in (['explain', *words], ['page', *words], picture))
    if page.returncode != explained.returncode:
        faults.append(f'the page has status {page.returncode}, explain {explained.returncode}')
    for kind, made in (('html', page), ('svg', drawn)):
        with open(f'{at}.{kind}', 'w', encoding='utf-8') as file:
            file.write(made.stdout)
    if rsvg and subprocess.run([rsvg, f'{at}.svg', '-o', f'{at}.rsvg.png']).returncode:
        faults.append('rsvg-convert refuses the picture')
    if browser:
        browser.open(f'file://{at}.svg')
        browser.shoot_both(f'{at}.picture')
        faults += browser.faults()
        browser.open(f'file://{at}.html')
        browser.shoot_both(f'{at}.page')
        faults += use(browser, explained.stdout, at)
        drawing, filtering = timed(browser)
        print(f'check_page: {name}: {browser.ask("items.length")} items, {len(page.stdout)} bytes; a drawing takes {drawing:.1f} ms, a filter {filtering:.1f} ms', flush=True)
        if drawing > DRAWING or filtering > FILTER:
            faults.append('too slow')
        if name == 'direct':
            faults += dropped(browser, program, folder)
        faults += browser.faults()
    return [f'{name}: {fault}' for fault in faults]


def main():
    words = argparse.ArgumentParser(description=__doc__, formatter_class=argparse.RawDescriptionHelpFormatter)
    words.add_argument('folder', nargs='?', default='/tmp/views')
    words.add_argument('--with', dest='programs', help='the folder that has omid and omid_view')
    words.add_argument('--only', default='', help='names of views, with commas between')
    asked = words.parse_args()
    place = lambda name: f'{asked.programs}/{name}' if asked.programs else f'{ROOT}/crates/{name}/out/{name}'
    omid, program = map(os.path.abspath, (place('omid'), place('omid_view')))
    if not os.path.exists(omid) or not os.path.exists(program):
        sys.exit('check_page: build the programs first (rt ci, or bench/keep.py omid omid_view and --with out)')
    os.makedirs(asked.folder, exist_ok=True)
    path = next(filter(None, map(shutil.which, ('chromium', 'chromium-browser', 'google-chrome'))), None)
    rsvg = shutil.which('rsvg-convert')
    if not path:
        print('check_page: no browser is there, so no page is opened (Debian: apt-get install chromium)')
    if not rsvg:
        print('check_page: no rsvg-convert is there, so no picture is drawn by it (Debian: apt-get install librsvg2-bin)')
    browser = Browser(path) if path else None
    wanted = [view for view in views(omid) if not asked.only or view[0] in asked.only.split(',')]
    faults = [fault for view in wanted for fault in looked_at(browser, rsvg, program, os.path.abspath(asked.folder), view)]
    if browser:
        browser.end()
    print('\n'.join(faults) or f'check_page: nothing is wrong that a program sees; look at {asked.folder}')
    sys.exit(1 if faults else 0)


if __name__ == '__main__':
    main()
