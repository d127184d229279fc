"""What is tried of the page in a browser."""
import json
import re
import subprocess
import time
from pathlib import Path

from browser import Browser
from jobs import FULL_JOB, FULL_TOUR, REFUSED, SIX_AXES

ROOT = Path(__file__).resolve().parents[2]
SETTLED = 'polgamirPage.settle()'


class Tried:
    """The page in a browser, with what the checks ask of it."""

    def __init__(self, chromium, page, texts, polgamir, scratch):
        self.browser, self.texts, self.polgamir, self.scratch = Browser(chromium), texts, polgamir, scratch
        self.address = page.as_uri()
        self.files = scratch / 'files'
        self.files.mkdir()
        self.browser.send('Browser.setDownloadBehavior', behavior='allow', downloadPath=str(self.files))

    def open(self, hash=''):
        self.browser.open(self.address + hash)
        self.settle()

    def settle(self):
        self.browser.evaluate(SETTLED)

    def take(self, sheet):
        """Takes a sheet as the page takes an opened file."""
        assert self.browser.evaluate(f'polgamirPage.take({json.dumps(sheet)}, "a file")'), self.text('said')
        self.settle()

    def text(self, id):
        return self.browser.evaluate(f'document.getElementById({json.dumps(id)}).innerText')

    def sheet(self):
        return self.browser.evaluate('polgamirPage.sheet')

    def set(self, id, value):
        """Enters a value in a field as a person does: the field has it, and says so."""
        self.browser.evaluate(f'''(() => {{
            const field = document.getElementById({json.dumps(id)}), value = {json.dumps(value)};
            if (field.type === 'checkbox' || field.type === 'radio') field.click();
            else {{
                field.value = value;
                for (const kind of ['input', 'change']) field.dispatchEvent(new Event(kind, {{ bubbles: true }}));
            }}
            return {SETTLED}; }})()''')

    def press(self, id):
        self.browser.evaluate(f'document.getElementById({json.dumps(id)}).click()', gesture=True)
        self.settle()

    def saved(self, id, name):
        """The file that a button saves."""
        path = self.files / name
        path.unlink(missing_ok=True)
        self.press(id)
        end = time.monotonic() + 10
        while not path.exists() or path.with_name(name + '.crdownload').exists():
            assert time.monotonic() < end, f'{name} was not saved: {self.text("said")}'
            time.sleep(0.02)
        return path

    def command(self, *words):
        return subprocess.run([self.polgamir, *words], text=True, stdout=subprocess.PIPE, stderr=subprocess.PIPE,
            cwd=ROOT)


def first_sight(t):
    t.open()
    verdict = t.text('verdict')
    assert '2.2 s' in verdict and 'tick 110' in verdict, verdict
    answer = t.text('answer')
    for words in ('in proportion to the real pole', 'Jerk and end stops are not limited', 'from -3.5 to 20.5 degree',
        '3 entries were rounded'):
        assert words in answer, answer
    assert t.text('version') == (ROOT / 'VERSION').read_text().strip()


# Tries a field: another value changes the sheet, nonsense is said at the field and stays in it,
# and the first value mends both.
TRY_FIELD = """(id, sheet) => {
  const field = () => document.getElementById(id), { type, value, options, checked } = field();
  const before = polgamirPage.sheet;
  const enter = value => {
    if (type === 'checkbox' || type === 'radio') field().click();
    else {
      field().value = value;
      for (const kind of ['input', 'change']) field().dispatchEvent(new Event(kind, { bubbles: true }));
    }
    polgamirPage.settle();
  };
  if (type === 'radio' && checked) return null;
  enter(options ? [...options].map(one => one.value).find(one => one !== value) ?? value : value + '7');
  const one = options && options.length === 1;
  if (polgamirPage.sheet === before && !one) return `${id}: another value changes nothing`;
  enter(value);
  if (polgamirPage.sheet !== before) polgamirPage.take(sheet, 'a file'), polgamirPage.settle();
  if (type !== 'text' || /f-axis-[0-9]$|-name$|-note$/.test(id)) return null;
  enter('so many');
  const verdict = () => document.getElementById('verdict').textContent;
  const message = (field().closest('.stop') ?? field().closest('.field')).querySelector('.message').textContent;
  if (field().value !== 'so many') return `${id}: what was entered is lost`;
  if (!/so many|found 1/.test(message) || !field().closest('.field').querySelector('[aria-invalid]'))
    return `${id}: nothing is said at it: ${message}`;
  if (verdict() !== 'Not planned yet') return `${id}: ${verdict()}`;
  enter(value);
  return verdict() === 'Not planned yet' ? `${id}: it stays wrong` : null;
}"""


def every_field(t):
    """Each field has its place on the sheet; nonsense in it is said at the field and stays
    there."""
    count = 0
    for sheet in (FULL_JOB, FULL_TOUR):
        t.take(sheet)
        ids = t.browser.evaluate(
            "[...document.querySelectorAll('#form input, #form select, #form textarea')].map(field => field.id)")
        assert all(ids) and len(set(ids)) == len(ids), 'a field without an id of its own'
        for id in ids:
            wrong = t.browser.evaluate(f'({TRY_FIELD})({json.dumps(id)}, {json.dumps(sheet)})')
            assert wrong is None, wrong
        count += len(ids)
    assert count > 90, count


def every_refusal(t):
    """Each number that typed jobs and tours can give, with the header's text and the axis or the
    stop."""
    for number, told, sheet in REFUSED:
        t.take(sheet)
        verdict, answer = t.text('verdict'), t.text('answer')
        assert verdict.startswith('No plan'), f'{number}: {verdict} {answer}'
        assert f'Refusal {number}: {t.texts[number]}.' in answer, f'{number}: {answer}'
        for words in told:
            assert words.lower() in (verdict + answer).lower(), f'{number}: {words!r} is not in {answer!r}'
        assert not t.browser.evaluate("document.getElementById('plan').checkVisibility()"), 'a refused job shows a plan'
    assert {number for number, _, _ in REFUSED} == {3, 4, 12, 5, 15, 6, 16, 17, 13, 8, 9, 11}


def other_arrivals(t):
    """The earliest arrival that a refusal names is one press away."""
    t.take((ROOT / 'sheets/too-soon.sheet').read_text())
    assert 'Earliest: tick 4.' in t.text('answer'), t.text('answer')
    t.browser.evaluate("document.querySelector('[data-arrival=\"4\"]').click()")
    t.settle()
    assert 'tick 4' in t.text('verdict') and 'arrival 4' in t.sheet(), t.text('verdict')


def a_tour(t):
    t.take((ROOT / 'sheets/plot-of-stems.sheet').read_text())
    assert 'tick 1032' in t.text('verdict'), t.text('verdict')
    assert '6 stops' in t.text('verdict')
    t.set('leg', '1')
    t.set('how', 'units')
    t.set('tick', '106')
    row = t.text('row')
    assert 'tick 106' in row and '2050' in row and '900' in row, row
    t.press('add-stop')
    assert 'Not planned yet' in t.text('verdict')
    for place, value in enumerate(('100', '200')):
        t.set(f'f-stop-6-{place}', value)
    t.set('f-stop-6-dwell', '3')
    assert '7 stops' in t.text('verdict') and 'stop  100  200  dwell 3' in t.sheet(), t.sheet()


def sheets_saved_and_opened(t):
    t.open()
    t.set('f-axis-0-target-position', '21.5')
    path = t.saved('save-sheet', 'polgamir.sheet')
    done = t.command('plan', '--json', str(path))
    arrival = json.loads(done.stdout)['arrival']
    assert f'tick {arrival}' in t.text('verdict') and '21.5 degree' in path.read_text()
    csv = t.saved('save-csv', 'polgamir.csv').read_text()
    lines = [line for line in csv.splitlines() if not line.startswith('#')]
    assert lines == [line for line in t.command('plan', '--csv',
        str(path)).stdout.splitlines() if not line.startswith('#')]
    assert t.saved('save-words', 'polgamir.words.txt').read_text() == t.command('words', str(path)).stdout
    t.open()
    choose(t, path)
    assert f'tick {arrival}' in t.text('verdict') and 'counted swings' in t.sheet()
    before = t.sheet()
    for name, content, told in (('picture.png', b'\x89PNG\r\n\x1a\n\0\xff', 'not text'),
        ('letter.txt', b'Dear crew,\nthe pole is long.\n', 'line 1'),
                                ('empty.sheet', b'', 'axis 0')):
        wrong = t.scratch / name
        wrong.write_bytes(content)
        choose(t, wrong)
        assert name in t.text('said') and told in t.text('said') and 'still here' in t.text('said'), t.text('said')
        assert t.sheet() == before, 'a file that is no sheet changed what was entered'


def choose(t, path):
    found = t.browser.send('Runtime.evaluate', expression="document.getElementById('open')")['result']['objectId']
    t.browser.send('DOM.setFileInputFiles', files=[str(path)], objectId=found)
    time.sleep(0.15)
    t.settle()


def addresses(t):
    t.open()
    t.take((ROOT / 'sheets/jointed-pole.sheet').read_text())
    verdict, sheet = t.text('verdict'), t.sheet()
    time.sleep(0.4)
    hash = t.browser.evaluate('location.hash')
    assert hash.startswith('#sheet='), hash
    t.open(hash)
    assert t.text('verdict') == verdict and t.sheet() == sheet, t.text('verdict')
    for wrong, told in (('#nonsense', 'which is no job'), ('#sheet=%%%', 'cannot be read'),
        ('#sheet=aGVsbG8', 'no set-up sheet')):
        t.open(wrong)
        assert told in t.text('said') and '2.2 s' in t.text('verdict'), t.text('said')
    t.browser.evaluate(f'location.hash = {json.dumps(hash)}')
    t.browser.wait(f'document.getElementById("verdict").innerText === {json.dumps(verdict)}')


def run_all(chromium, page, texts, polgamir, scratch, keep):
    import looks
    tried = Tried(chromium, page, texts, polgamir, scratch)
    try:
        for check in (first_sight, every_field, every_refusal, other_arrivals, a_tour, sheets_saved_and_opened,
            addresses,
                      looks.on_a_phone, looks.by_keyboard, looks.for_a_screen_reader, looks.dark_and_light,
                      looks.numbers_past_every_range,
                      looks.on_paper, looks.speed, looks.nothing_leaves):
            began = time.monotonic()
            check(tried)
            print(f'page: {check.__name__.replace("_", " ")}, {time.monotonic() - began:.1f} s', flush=True)
        if keep:
            looks.pictures(tried, keep)
    finally:
        tried.browser.close()
