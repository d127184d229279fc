"""How the page looks and feels: on a phone, by keyboard, to a screen reader, in the dark,
on paper, and how fast it is."""
import json
import re
import time
from pathlib import Path

from jobs import FULL_JOB, JOB, SIX_AXES, changed

ROOT = Path(__file__).resolve().parents[2]
SHOWN = ("[...document.querySelectorAll('button, input, select, textarea, summary, label.button')]"
         ".filter(one => one.checkVisibility() && one.id !== 'open')")


def on_a_phone(t):
    """390 pixels: nothing to scroll sideways, everything large enough for a finger,
    and a row under the finger."""
    t.browser.size(390, 800, touch=True)
    for sheet in (FULL_JOB, (ROOT / 'sheets/plot-of-stems.sheet').read_text(),
        (ROOT / 'sheets/too-soon.sheet').read_text(), SIX_AXES):
        t.open()
        t.take(sheet)
        width = t.browser.evaluate('document.documentElement.scrollWidth')
        assert width <= 390, f'{width} pixels are as wide as the page is'
        small = t.browser.evaluate(f'''{SHOWN}.map(one => [one.id || one.innerText, one.getBoundingClientRect().height,
            (one.closest('label') ?? one).getBoundingClientRect().height])
            .filter(([, own, label]) => Math.max(own, label) < 40)''')
        assert not [one for one in small if one[0] != 'link'], f'too small for a finger: {small}'
        wide = t.browser.evaluate("[...document.querySelectorAll('#form *, #answer *')]"
                                  ".filter(one => one.checkVisibility()"
                                  " && one.getBoundingClientRect().right > 391).length")
        assert wide == 0, f'{wide} parts of the form stick out'
    t.take((ROOT / 'sheets/pan-tilt-stem.sheet').read_text())
    box = t.browser.evaluate('''(() => {
        const one = document.querySelector('svg.panel');
        one.scrollIntoView({ block: 'center' });
        const { left, top, width, height } = one.getBoundingClientRect();
        return [left + width / 2, top + height / 2]; })()''')
    t.browser.touch(*box)
    t.settle()
    tick = int(re.search(r'tick (\d+)', t.text('row')).group(1))
    assert 50 < tick < 100, t.text('row')
    t.browser.evaluate("document.getElementById('scroller').scrollIntoView()")
    t.browser.wait("Boolean(document.querySelector('#rows .marked'))")
    marked = t.browser.evaluate("document.querySelector('#rows .marked th').innerText")
    assert marked == str(tick), f'row {marked} is marked at tick {tick}'
    assert f'Row at tick {tick}' in t.text('row')
    t.browser.size(1366, 900)


def by_keyboard(t):
    """Tab reaches every field and button in the order in which they stand; keys
    enter, choose and move the tick."""
    t.open()
    t.browser.evaluate('document.activeElement.blur(), scrollTo(0, 0)')
    places, reached = [], []
    for _ in range(400):
        t.browser.key('Tab', 9)
        place, id = t.browser.evaluate(
            '[[...document.querySelectorAll("*")].indexOf(document.activeElement), document.activeElement.id]')
        nowhere = id == '' and t.browser.evaluate('document.activeElement === document.body')
        if nowhere or places and place <= places[-1]:
            break
        places.append(place)
        reached.append(id)
    wanted = t.browser.evaluate(f"{SHOWN}.filter(one => !one.disabled && one.type !== 'radio')"
                                ".map(one => one.id).filter(id => id)")
    lacking = [id for id in wanted if id not in reached and not id.startswith('f-kind')]
    assert not lacking, f'Tab does not reach {lacking}'
    seen = t.browser.evaluate('''(() => { const one = document.getElementById('f-axis-0-target-position'); one.focus();
        return [document.activeElement.id, getComputedStyle(one).outlineStyle]; })()''')
    assert seen == ['f-axis-0-target-position', 'solid'], f'the focus cannot be seen: {seen}'
    t.browser.key('a', 65, modifiers=2)
    t.browser.type('22,5')
    t.settle()
    assert '22.5 degree' in t.sheet(), 'typing does not enter'
    t.browser.evaluate("document.getElementById('tick').focus()")
    before = int(t.browser.evaluate("document.getElementById('tick').value"))
    t.browser.key('ArrowRight', 39)
    t.settle()
    assert f'tick {before + 1}' in t.text('row'), t.text('row')
    t.browser.evaluate("document.getElementById('f-kind-job').focus()")
    t.browser.key('ArrowDown', 40)
    t.settle()
    assert 'stop' in t.sheet() and t.browser.evaluate("document.activeElement.id") == 'f-kind-tour', t.sheet()


def for_a_screen_reader(t):
    """Everything that can be used or seen has a role and a name; what is said of a field belongs to
    it; the answer is announced."""
    roles = {'textbox', 'combobox', 'button', 'checkbox', 'radio', 'slider', 'image', 'img', 'radiogroup', 'group',
        'region', 'table'}
    for sheet in (FULL_JOB, (ROOT / 'sheets/plot-of-stems.sheet').read_text()):
        t.open()
        t.take(sheet)
        t.browser.send('Accessibility.enable')
        nodes = t.browser.send('Accessibility.getFullAXTree')['nodes']
        named, bare = [], []
        for node in nodes:
            role, name = node.get('role', {}).get('value', ''), node.get('name', {}).get('value', '').strip()
            if node.get('ignored') or role not in roles:
                continue
            (named if name else bare).append((role, name))
        assert not [one for one in bare if one[0] not in ('group', 'table')], f'without a name: {bare}'
        fields = [name for role, name in named if role in ('textbox', 'combobox')]
        assert len(fields) > 20
        assert any(node.get('role', {}).get('value') == 'status' for node in nodes), 'no status'
        pictures = [name for role, name in named if role in ('image', 'img')]
        assert any('position' in name and ' to ' in name for name in pictures), pictures[:3]
    t.open()
    t.set('f-axis-0-speed-limit', 'fast')
    told = t.browser.evaluate('''(field => [field.getAttribute('aria-invalid'),
        document.getElementById(field.getAttribute('aria-describedby')).innerText])
        (document.getElementById('f-axis-0-speed-limit'))''')
    assert told[0] == 'true' and 'fast' in told[1], told


CONTRAST = '''(() => {
  const light = colour => {
    const [r, g, b] = colour.match(/[\\d.]+/g).map(Number).map(v => v / 255)
      .map(v => v <= 0.03928 ? v / 12.92 : ((v + 0.055) / 1.055) ** 2.4);
    return 0.2126 * r + 0.7152 * g + 0.0722 * b; };
  const behind = one => {
    for (; one; one = one.parentElement) {
      const c = getComputedStyle(one).backgroundColor;
      if (!c.endsWith(', 0)') && c !== 'transparent') return c;
    }
    return 'rgb(255, 255, 255)'; };
  return [...document.querySelectorAll('#verdict strong, #verdict span, #answer *, label, legend, .message, button, '
    + 'input, select, th, td, footer p, h1 small')]
    .filter(one => one.checkVisibility() && !one.disabled && (one.innerText || one.value)).map(one => {
      const [a, b] = [light(getComputedStyle(one).color), light(behind(one))].sort((x, y) => y - x);
      return [(a + 0.05) / (b + 0.05), (one.innerText || one.value).slice(0, 40)]; }).sort((x, y) => x[0] - y[0])[0];
})()'''


def dark_and_light(t):
    """Both schemes are drawn, and every text stands out from what is behind it by 4.5 to 1."""
    seen = {}
    for scheme in ('light', 'dark'):
        t.browser.scheme(scheme)
        t.open()
        t.set('f-axis-0-speed-limit', '60.3')
        seen[scheme] = t.browser.evaluate('getComputedStyle(document.body).backgroundColor')
        for sheet in (None, (ROOT / 'sheets/too-soon.sheet').read_text()):
            if sheet:
                t.take(sheet)
            ratio, text = t.browser.evaluate(CONTRAST)
            assert ratio >= 4.5, f'{scheme}: {text!r} stands out by {ratio:.2f} alone'
    t.browser.scheme('light')
    assert seen['light'] != seen['dark'], seen


def numbers_past_every_range(t):
    """Numbers of any size and sign end in a sentence or a refusal, never in silence."""
    t.open()
    for id in ('f-axis-0-speed-limit', 'f-axis-0-start-position', 'f-tick', 'f-unit', 'f-axis-0-damping',
        'f-axis-0-half-period', 'f-axis-0-half-period-count'):
        value = t.browser.evaluate(f'document.getElementById({json.dumps(id)}).value')
        for number in ('9' * 40, '9' * 60, '-' + '9' * 30, '1e99', '1e-99', '0', '-0', '', '1/0', '٣', '1e999'):
            t.set(id, number)
            verdict = t.text('verdict')
            assert re.match(r'Arrives at|No plan|Not planned yet', verdict), f'{id} {number}: {verdict}'
            if not verdict.startswith('Arrives'):
                assert t.text('answer').strip(), f'{id} {number}: nothing is said'
        t.set(id, value)
    assert '2.2 s' in t.text('verdict'), t.text('verdict')


def on_paper(t):
    """Two axes take at most four pages of A4, six at most eight."""
    for sheet, most in ((None, 4), (SIX_AXES, 8)):
        t.open()
        if sheet:
            t.take(sheet)
        path = t.scratch / 'page.pdf'
        t.browser.paper(path)
        data = path.read_bytes()
        pages = len(re.findall(rb'/Type\s*/Page\b', data))
        assert 1 <= pages <= most, f'{pages} pages'
        assert t.browser.evaluate("document.getElementById('paper-rows').rows.length > 10"
                                  " && document.getElementById('paper').textContent === polgamirPage.sheet")


def speed(t):
    """Six axes to 4,096 rows, written, read, planned, drawn and laid out as at each
    letter: the processor's time, which a busy machine stretches less than a clock's.
    The bound is far off all the same."""
    t.open()
    t.take(SIX_AXES)
    t.browser.send('Performance.enable', timeDomain='threadTicks')

    def spent():
        return {one['name']: one['value']
                for one in t.browser.send('Performance.getMetrics')['metrics']}['TaskDuration']

    letter = ("polgamirPage.changed('f-axis-0-start-position'), "
              "new Promise(done => requestAnimationFrame(() => setTimeout(() => done(polgamirPage.took))))")
    times, clocks = [], []
    for _ in range(20):
        before = spent()
        clocks.append(t.browser.evaluate(letter))
        times.append(1000 * (spent() - before))
    t.browser.send('Performance.disable')
    times, clocks = sorted(times[5:]), sorted(clocks[5:])
    middle = len(times) // 2
    print(f'page: six axes to 4,096 rows take {times[middle]:.0f} ms of the processor, {times[0]:.0f} at best '
          f'({clocks[middle]:.0f} and {clocks[0]:.0f} by the clock; 50 is the aim)')
    assert times[0] < 250, times


def nothing_leaves(t):
    """No request but for the page itself, none that a script could make, and no error on the
    way."""
    t.open()
    blocked = t.browser.evaluate('''(async () => {
        const told = [];
        addEventListener('securitypolicyviolation', event => told.push(event.effectiveDirective));
        await fetch('http://127.0.0.1:9/').catch(() => 0);
        new Image().src = 'http://127.0.0.1:9/x.png';
        await new Promise(done => setTimeout(done, 200));
        return told; })()''')
    assert 'connect-src' in blocked and 'img-src' in blocked, blocked
    urls = [event['params']['request']['url'] for event in t.browser.events
            if event['method'] == 'Network.requestWillBeSent']
    others = {url.split('#')[0] for url in urls} - {t.address, 'about:blank', 'http://127.0.0.1:9/',
        'http://127.0.0.1:9/x.png'}
    assert not [url for url in others if not url.startswith(('blob:', 'data:'))], others
    errors = [event for event in t.browser.events if event['method'] == 'Runtime.exceptionThrown']
    assert not errors, json.dumps(errors[0])[:600]
    logged = [event['params']['entry']['text'] for event in t.browser.events if event['method'] == 'Log.entryAdded']
    assert not [text for text in logged if '127.0.0.1:9' not in text], logged


def pictures(t, keep):
    """Pictures of the page, to look at."""
    keep.mkdir(parents=True, exist_ok=True)
    for name, width, scheme, sheet in (('wide', 1366, 'light', None), ('wide-dark', 1366, 'dark', None),
        ('phone', 390, 'light', None), ('phone-dark', 390, 'dark', None),
                                       ('phone-refused', 390, 'light',
                                           (ROOT / 'sheets/too-soon.sheet').read_text()),
                                           ('wide-tour', 1366, 'light',
                                            (ROOT / 'sheets/plot-of-stems.sheet').read_text()),
                                       ('wide-six', 1366, 'light', SIX_AXES), ('phone-six', 390, 'light', SIX_AXES)):
        t.browser.size(width, 900, width < 600)
        t.browser.scheme(scheme)
        t.open()
        if sheet:
            t.take(sheet)
        time.sleep(0.1)
        t.browser.picture(keep / f'{name}.png')
    t.browser.paper(keep / 'six.pdf')
    t.browser.scheme('light')
    t.open()
    t.browser.paper(keep / 'two.pdf')
