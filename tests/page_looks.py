#!/usr/bin/env python3
"""Opens pages in headless Chromium, as a reader does, if Chromium is installed; otherwise it says so, and ends with status 0.

It tests that pages which `page` prints load nothing, aren't wider than the window at 1,280 and at 400 pixels, and do
in the browser what the manual says: the search finds names, types and creators, and says how many; a click on a column's head
sorts; a file that is chosen, by the mouse or by the keyboard, has its own squares marked; arrow keys say what a square is; the
tree is next to the picture in a wide window and before it in a narrow one; a file whose name is a link is chosen by the rest of its
row, or as the keyboard gets to it. Of the page of a collection of 10,000 volumes, by hfs_collect, the search finds lines by their texts,
and it is opened in at most a second. The page of a large volume is opened by the processor in at most 1.5 seconds, and searched and sorted
in as many, or --slowness times as many. The colours must be legible enough, by the formula
of the Web Content Accessibility Guidelines, in light and in dark.

tests/page_looks.py [--items N] [--volumes N] [--kept FOLDER]      runs $HFS_TOOL and $HFS_COLLECT, or the programs as they are built
tests/page_looks.py --kept FOLDER PAGE.. [--open]    looks at these pages, with all their folders open
tests/page_looks.py --picture docs/page.png          makes the README's picture anew, of its own height, and looks at its page alone

FOLDER gets pictures in light and in dark, NAME-WIDTH-SCHEME.png, and the accessibility tree, NAME.tree. It prints a line for
each page, and ends with status 1 at the first thing that is wrong.
"""
import argparse
import base64
import json
import os
import re
import select
import shutil
import subprocess
import sys
import tempfile
from itertools import combinations
from pathlib import Path

from collection_page import COLLECT, large
from driver.wanted import Difference, ensure
from items import told
from page import VOLUMES, every_part
from slow_volumes import Volume
from slow_volumes import plain as plain_volume

WIDTHS, HEIGHT, PICTURE_HEIGHT = (400, 1_280), 1_400, 880
SCHEMES = ('light', 'dark')
LIMIT, COLLECTION_LIMIT, PATIENCE = 1_500, 1_000, 300
USES = [f'p{it}' for it in range(7)]
BROWSER = next(filter(None, map(shutil.which, ('chromium', 'chromium-browser', 'google-chrome'))), None)


class Browser:
    """Chromium, by its debugging pipe."""

    def __init__(self, folder):
        to_read, self.to = os.pipe()
        self.back, to_write = os.pipe()
        words = [BROWSER, '--headless', '--no-sandbox', '--disable-gpu', '--hide-scrollbars', '--remote-debugging-pipe', f'--user-data-dir={folder}', 'about:blank']

        def at_3_and_4():
            low = [os.dup(to_read), os.dup(to_write)]
            while min(low) < 5:
                low = [os.dup(it) for it in low]
            os.dup2(low[0], 3)
            os.dup2(low[1], 4)

        self.run = subprocess.Popen(words, preexec_fn=at_3_and_4, close_fds=False, stdout=subprocess.DEVNULL, stderr=subprocess.DEVNULL)
        os.close(to_read)
        os.close(to_write)
        self.number, self.rest, self.session, self.events = 0, b'', None, []
        target = next(it for it in self.ask('Target.getTargets')['targetInfos'] if it['type'] == 'page')
        self.session = self.ask('Target.attachToTarget', targetId=target['targetId'], flatten=True)['sessionId']
        for part in ('Page', 'Network', 'Runtime', 'Performance'):
            self.ask(f'{part}.enable')
        self.ask('Emulation.setFocusEmulationEnabled', enabled=True)

    def message(self):
        while b'\0' not in self.rest:
            if not select.select([self.back], [], [], PATIENCE)[0]:
                raise TimeoutError('Chromium says nothing')
            part = os.read(self.back, 1 << 20)
            if not part:
                raise EOFError('Chromium ended')
            self.rest += part
        one, _, self.rest = self.rest.partition(b'\0')
        return json.loads(one)

    def ask(self, method, **words):
        self.number += 1
        call = {'id': self.number, 'method': method, 'params': words}
        if self.session:
            call['sessionId'] = self.session
        os.write(self.to, json.dumps(call).encode() + b'\0')
        while True:
            answer = self.message()
            if answer.get('id') == self.number:
                if 'error' in answer:
                    raise ValueError(f'{method}: {answer["error"]}')
                return answer['result']
            self.events.append(answer)

    def value(self, expression):
        answer = self.ask('Runtime.evaluate', expression=expression, returnByValue=True, awaitPromise=True)
        ensure('exceptionDetails' not in answer, f'{expression}: {answer.get("exceptionDetails")}')
        return answer['result'].get('value')

    def go(self, page):
        """Opens a page, and waits until it is loaded: the addresses that it asked for beside its own."""
        self.events.clear()
        address = page.resolve().as_uri()
        self.ask('Page.navigate', url=address)
        while not any(it.get('method') == 'Page.loadEventFired' for it in self.events):
            self.events.append(self.message())
        asked = [it['params']['request']['url'] for it in self.events if it.get('method') == 'Network.requestWillBeSent']
        faults = [it for it in self.events if it.get('method') == 'Runtime.exceptionThrown']
        ensure(not faults, f'{page.name}: the script fails: {faults[:1]}')
        return [it for it in asked if it not in (address, 'data:,')]

    def busy(self):
        """The milliseconds of processor time that the page's main thread has taken."""
        measured = {it['name']: it['value'] for it in self.ask('Performance.getMetrics')['metrics']}
        return round(1000 * measured.get('ThreadTime', 0))

    def resize(self, width, scheme='light', height=HEIGHT):
        self.ask('Emulation.setDeviceMetricsOverride', width=width, height=height, deviceScaleFactor=1, mobile=width < 500)
        self.ask('Emulation.setEmulatedMedia', features=[{'name': 'prefers-color-scheme', 'value': scheme}])

    def picture(self):
        return base64.b64decode(self.ask('Page.captureScreenshot', format='png')['data'])

    def press(self, key, code=0, text=''):
        """Presses a key, and lets it go."""
        words = {'key': key, 'code': key, 'windowsVirtualKeyCode': code}
        self.ask('Input.dispatchKeyEvent', type='keyDown', text=text, **words)
        self.ask('Input.dispatchKeyEvent', type='keyUp', **words)

    def tree(self):
        """The accessibility tree: a line for each node that is not ignored, with its role and its name. It is asked for after all
        that is measured, since a page of 60,000 items takes longer to open while a tree is kept of it.
        """
        self.ask('Accessibility.enable')
        nodes = self.ask('Accessibility.getFullAXTree')['nodes']
        self.ask('Accessibility.disable')
        by_id = {it['nodeId']: it for it in nodes}
        waiting = [(nodes[0], 0)]
        while waiting:
            node, depth = waiting.pop()
            inside = depth
            if not node.get('ignored'):
                role, name = node['role']['value'], node.get('name', {}).get('value', '')
                if role not in ('InlineTextBox', 'none'):
                    level = [f' {it["value"]["value"]}' for it in node.get('properties', []) if it['name'] == 'level']
                    yield f'{"  " * depth}{role}{"".join(level)}: {name}'
                    inside = depth + 1
            waiting += [(by_id[it], inside) for it in reversed(node.get('childIds', [])) if it in by_id]

    def close(self):
        os.close(self.to)
        self.run.terminate()
        self.run.wait(30)


# ---- what is asked of each page

def look_at(browser, page, kept, is_open=False, limit=None):
    """Looks at a page: what it asks for, how wide it is, and how soon it is open."""
    asked = browser.go(page)
    ensure(not asked, f'{page.name} asks for {asked}')
    milliseconds = browser.value('performance.timing.domContentLoadedEventEnd - performance.timing.navigationStart')
    busy = browser.busy()
    ensure(busy < (limit or LIMIT), f'{page.name} takes {busy} ms of the processor to open')
    if is_open:
        browser.value('for (const it of document.querySelectorAll("details")) it.open = true')
    for width in WIDTHS:
        for scheme in SCHEMES:
            browser.resize(width, scheme)
            wide = browser.value('document.documentElement.scrollWidth')
            ensure(wide <= width, f'{page.name} is {wide} pixels wide in a window of {width}')
            if kept:
                (kept / f'{page.stem}-{width}-{scheme}.png').write_bytes(browser.picture())
    if kept and page.stat().st_size < 4_000_000:
        (kept / f'{page.stem}.tree').write_text(''.join(f'{it}\n' for it in browser.tree()), 'utf-8')
    print(f'{page.name}: {page.stat().st_size} bytes, DOMContentLoaded after {milliseconds} ms, {busy} ms of the processor until it was loaded')


def colours(page, scheme):
    """The colours of the style, by their names."""
    roots = re.findall(r':root\{(.*?)\}', page.read_text('utf-8'), re.S)
    ensure(len(roots) == len(SCHEMES), f'{len(roots)} sets of colours')
    return dict(re.findall(r'--(\w+):(#[0-9a-f]{6})', roots[SCHEMES.index(scheme)]))


def contrast(one, other):
    """The contrast of two colours."""
    def luminance(colour):
        parts = [int(colour[at:at + 2], 16) / 255 for at in (1, 3, 5)]
        red, green, blue = [it / 12.92 if it <= 0.03928 else ((it + 0.055) / 1.055) ** 2.4 for it in parts]
        return 0.2126 * red + 0.7152 * green + 0.0722 * blue

    low, high = sorted((luminance(one), luminance(other)))
    return (high + 0.05) / (low + 0.05)


def look_at_colours(page):
    for scheme in SCHEMES:
        named = colours(page, scheme)
        for one, other in combinations(USES, 2):
            ensure(contrast(named[one], named[other]) >= 1.2, f'{one} and {other} look alike in {scheme}')
        for name, least in [*((it, 3) for it in (*USES[:-1], 'edge')), *((it, 5.8) for it in ('ink', 'faint', 'mark'))]:
            ensure(contrast(named[name], named['paper']) >= least, f'{name} is faint in {scheme}')
    patterns = re.findall(r'<pattern .*?<path class="(?:cut|dot)" d="(.*?)">', page.read_text('utf-8'))
    ensure(len(patterns) == len(set(patterns)) == 5, f'{len(patterns)} patterns')


# ---- what a reader does

def box(browser, element):
    return browser.value(f'(it => [it.left, it.top, it.right, it.bottom])(document.querySelector({json.dumps(element)}).getBoundingClientRect())')


DRAWN = 'new Promise(done => requestAnimationFrame(() => requestAnimationFrame(done)))'


def typed(browser, text):
    """Types a text into the search, and waits until what is found is drawn: what is said of it."""
    browser.value(f'(it => {{ it.value = {json.dumps(text)}; it.dispatchEvent(new Event("input")) }})(document.getElementById("search"))')
    browser.value('new Promise(done => setTimeout(done, 160))')
    browser.value(DRAWN)
    return browser.value('document.getElementById("found").textContent')


def search(browser, text):
    """Types a text into the search: what is said of it, and the names that are shown then."""
    typed(browser, text)
    shown = browser.value('[...document.querySelectorAll("#items b")].filter(it => it.checkVisibility()).map(it => it.textContent)')
    return browser.value('document.getElementById("found").textContent'), shown


def sort(browser, by):
    browser.value(f'[...document.querySelectorAll("#heads button")].find(it => it.textContent === {json.dumps(by)}).click()')
    return browser.value('[...document.querySelectorAll("#items b")].map(it => it.textContent)')


def chosen(browser):
    """The squares that are marked, and what is said."""
    return (browser.value('[...document.querySelectorAll("#picture rect")].flatMap((it, n) => it.classList.contains("chosen") ? [n] : [])'),
            browser.value('document.getElementById("chosen").textContent'))


def read_parts(browser, page, kept):
    """The page of a volume with blocks of each part, of which a file in pieces is chosen."""
    look_at(browser, page, kept, True)
    names = ['D', '<a&b>', 'g"h\'']
    browser.resize(1_280)
    items, blocks = box(browser, '#list'), box(browser, '#blocks')
    ensure(items[2] <= blocks[0] and blocks[1] < items[3], 'the tree is not beside the picture')
    browser.resize(400)
    items, blocks = box(browser, '#list'), box(browser, '#blocks')
    ensure(items[3] <= blocks[1], 'the tree is not before the picture')

    for text, wanted in (('G"h', ('1 of 3', ['D', 'g"h\''])), (r'\00 \00', ('2 of 3', names)), ('folder', ('0 of 3', [])), ('', ('', names))):
        found = search(browser, text)
        ensure(found == wanted, f'a search for {text!r} finds {found}')
    for by, wanted in (('Size', names), ('Size', [names[0], *names[:0:-1]]), ('Name', names), ('Name', [names[0], *names[:0:-1]]), ('Name', names)):
        order = sort(browser, by)
        ensure(order == wanted, f'by {by} the order is {order}')

    places = [10, 11, 13, 15, 40, 41, 43, 45, 47, 48]
    browser.value('document.querySelector("#i16 b").click()')
    squares, said = chosen(browser)
    ensure(squares == places and said.startswith('<a&b>: 10 blocks in 7 pieces'), f'{squares} are marked: {said}')
    if kept:
        browser.resize(1_280)
        (kept / f'{page.stem}-chosen.png').write_bytes(browser.picture())
    browser.value('document.querySelector("#i17 b").focus()')
    browser.press('Enter', 13, '\r')
    ensure(chosen(browser)[0] == [20, 21, 23, *range(30, 36)], 'the keyboard chooses no file')
    browser.press(' ', 32, ' ')
    ensure(chosen(browser) == ([], ''), 'a file stays chosen')

    browser.value('document.getElementById("picture").focus()')
    for key, code in [('ArrowRight', 39)] * 10:
        browser.press(key, code)
    ensure(chosen(browser)[1] == 'Block 10: first extent, data fork of <a&b>', f'the square is {chosen(browser)[1]!r}')
    browser.press('End', 35)
    ensure(chosen(browser)[1].startswith('Block '), 'the last square is none')


def read_linked(browser, page):
    """The same page with links: a file is chosen by its row, and as the keyboard comes to its link."""
    look_at(browser, page, None, True)
    ensure(browser.value('[...document.querySelectorAll("#items a")].map(it => it.getAttribute("href"))') == ['bag/data/=3Ca&b=3E'.replace('=', '%3D').replace('&', '%26'), 'bag/data/g%3D22h%27'],
           'the links lead elsewhere')
    browser.value('document.querySelector("#i17 span").click()')
    ensure(chosen(browser)[0] == [20, 21, 23, *range(30, 36)], 'the row of a link chooses no file')
    browser.value('document.querySelector("#i16 a").focus()')
    ensure(chosen(browser)[1].startswith('<a&b>: 10 blocks in 7 pieces'), 'the keyboard chooses no file by its link')


def read_many(browser, page, kept):
    """The page of a large volume."""
    look_at(browser, page, kept)
    browser.resize(1_280)
    count = browser.value('document.querySelectorAll("#items li").length')
    def taken(what):
        before = browser.busy()
        said = what()
        browser.value(DRAWN)
        return browser.busy() - before, said

    searched, said = taken(lambda: typed(browser, '7'))
    ensure(f' of {count}' in said, f'the search says {said}')
    typed(browser, '')
    ordered, _ = taken(lambda: browser.value('[...document.querySelectorAll("#heads button")].find(it => it.textContent === "Size").click()'))
    opened, _ = taken(lambda: browser.value('document.querySelector("#items details").open = true'))
    ensure(max(searched, ordered) < LIMIT and opened < 2 * LIMIT, f'a search takes {searched} ms, sorting {ordered}, a folder opens in {opened}')
    print(f'{page.name}: {count} items, a search in {searched} ms of the processor, sorted in {ordered}, its root opened in {opened}')


def read_collection(browser, folder, kept, volumes):
    """The page of a collection of so many volumes: how soon it is open, and what its search finds."""
    database, page = folder / 'disks.db', folder / 'disks.html'
    large(database, volumes)
    with open(page, 'wb') as out:
        subprocess.run([COLLECT, 'page', str(database), '--base', 'pages'], stdout=out, check=True)
    look_at(browser, page, kept, limit=COLLECTION_LIMIT)
    browser.resize(1_280)
    ensure(browser.value('document.querySelectorAll("#volumes li").length') == volumes, 'the page has other lines')
    ensure(browser.value('getComputedStyle(document.querySelector("main")).display') == 'block', 'the volumes stand in half of the window')
    first, last = box(browser, '#volumes li b'), box(browser, '#volumes li span:last-child')
    ensure(first[2] < last[0] and last[1] < first[3], 'a line has no columns in a wide window')
    for text, count in (('VOLUME 7', sum(f'volume {it}'.startswith('volume 7') for it in range(volumes))), ('number 00042.img', 1), ('check c7', -(-volumes // 10)), ('none', 0)):
        before = browser.busy()
        said = typed(browser, text)
        took = browser.busy() - before
        ensure(said == f'{count} of {volumes}', f'a search for {text!r} says {said!r}')
        shown = browser.value('[...document.querySelectorAll("#volumes li")].filter(it => !it.hidden && !it.parentElement.hidden).length')
        ensure(shown == count and took < COLLECTION_LIMIT, f'a search for {text!r} shows {shown} lines in {took} ms')
    if kept:
        typed(browser, 'number 0004')
        (kept / f'{page.stem}-search.png').write_bytes(browser.picture())
    ensure(typed(browser, '') == '' and not browser.value('document.querySelectorAll("#volumes [hidden]").length'), 'lines stay hidden')
    ensure(browser.value('document.querySelector("#volumes a").getAttribute("href")') == 'pages/images/shelf%20000/Disk%20number%2000000.img.html', 'a line leads elsewhere')
    ensure(browser.value('document.querySelectorAll("#contents li").length') == min(1_000, volumes), 'the contents are others') if volumes >= 10_000 else None
    print(f'{page.name}: {volumes} volumes, the last search in {took} ms of the processor')


def look_at_own(browser, folder, kept, items, volumes):
    """Pages of the volumes in tests/volumes, of one with each part, and of a large one."""
    def printed(image, status=0, words=(), name='', errors=b''):
        answer = told('page', image, *words, errors=errors)
        ensure(answer[0] == status, f'page of {image.name} ends with {answer[0]}')
        page = folder / f'{image.stem}{name}.html'
        page.write_bytes(answer[1])
        return page

    for image in sorted(VOLUMES.glob('*.img')):
        if image.name.startswith('refused'):
            page = printed(image, told('rescue', image, '--list')[0], errors=told('ls', image)[1])
        else:
            page = printed(image)
        look_at(browser, page, kept, True)
        look_at_colours(page) if 'id="k0"' in page.read_text('utf-8') else None
    parts, many = folder / 'parts.img', folder / 'many.img'
    parts.write_bytes(every_part())
    read_parts(browser, printed(parts), kept)
    read_linked(browser, printed(parts, words=('--base', 'bag'), name='-linked'))
    volume = Volume(10 + items // 1_000)
    plain_volume(volume, items)
    volume.write(many)
    read_many(browser, printed(many), kept)
    read_collection(browser, folder, kept, volumes)


def take_picture(browser, folder, picture):
    """The picture that the README shows, of the disk of its examples, with all folders open."""
    image, page = folder / 'm0.img', folder / 'm0.html'
    shutil.copy(VOLUMES / 'hfsutils-800k.img', image)
    page.write_bytes(told('page', image)[1])
    look_at(browser, page, None, True)
    browser.resize(WIDTHS[-1], height=PICTURE_HEIGHT)
    browser.value(DRAWN)
    picture.write_bytes(browser.picture())


def main():
    parser = argparse.ArgumentParser(description=__doc__, formatter_class=argparse.RawDescriptionHelpFormatter)
    parser.add_argument('pages', nargs='*', type=Path)
    parser.add_argument('--kept', type=Path, help='a folder that gets pictures')
    parser.add_argument('--picture', type=Path, help="a file that gets the README's picture of a page")
    parser.add_argument('--items', type=int, default=60_000, help='how many items the large volume has')
    parser.add_argument('--volumes', type=int, default=10_000, help='how many volumes the large collection has')
    parser.add_argument('--slowness', type=int, default=1, help='how many times as long a page may take as it does alone on a machine')
    parser.add_argument('--open', action='store_true', help='open all folders of the pages')
    words = parser.parse_args()
    global LIMIT, COLLECTION_LIMIT
    LIMIT, COLLECTION_LIMIT = LIMIT * words.slowness, COLLECTION_LIMIT * words.slowness
    if not BROWSER:
        print('skipped: there is no Chromium, and no page was looked at')
        return 0
    if words.kept:
        words.kept.mkdir(parents=True, exist_ok=True)
    with tempfile.TemporaryDirectory(ignore_cleanup_errors=True) as home:
        browser = Browser(f'{home}/browser')
        try:
            for page in words.pages:
                look_at(browser, page, words.kept, words.open)
            if words.picture:
                take_picture(browser, Path(home), words.picture)
            elif not words.pages:
                look_at_own(browser, Path(home), words.kept, words.items, words.volumes)
        except Difference as differs:
            print(f'a page is not as it is to be: {differs}')
            return 1
        finally:
            browser.close()
    return 0


if __name__ == '__main__':
    sys.exit(main())
