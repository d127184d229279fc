// The page: what is entered is written as a sheet, read as one, planned by the
// library and shown, at every change.

import { openLibrary } from './calls.mjs';
import { errorsTold, jobTold, refusalTold, tourTold, withCode } from './answer.mjs';
import { addressOf, csvOf, hexadecimalOf, sheetInAddress, wordsOfJob } from './carry.mjs';
import { emptyEntered, enteredOf, field, formErrors, linesEntered } from './entered.mjs';
import { element, idOf } from './fields.mjs';
import { Form } from './form.mjs';
import { escaped, panelsOfJob, panelsOfTour } from './pictures.mjs';
import { planOf } from './plan.mjs';
import { readSheet } from './reading.mjs';
import { View, byId } from './view.mjs';
import { noteTold } from './worked.mjs';

const dataOf = id => byId(id).textContent;

class Page extends View {
  constructor(library) {
    super();
    Object.assign(this, { library, texts: JSON.parse(dataOf('texts')), name: 'polgamir.sheet', tick: 0, leg: 0,
      how: 'measures' });
    byId('version').textContent = library.version();
    const first = this.sheetAtFirst();
    this.form = new Form(byId('form'), enteredOf(first), id => this.changed(id));
    this.listen();
    this.update();
  }

  // The sheet in the address, or the example.
  sheetAtFirst() {
    const found = sheetInAddress(location.hash), example = dataOf('example');
    if (!found) return example;
    const error = found.error ?? this.wrongSheet(found.text, 'The address has a job');
    if (error) this.say(`${error} The example is shown in its place.`);
    return error ? example : found.text;
  }

  // What is wrong with a text that is no sheet, in a sentence, or null.
  wrongSheet(text, what) {
    const { errors } = readSheet(text);
    if (!errors) return null;
    const more = errors.length > 1 ? ` And ${errors.length - 1} more.` : '';
    return `${what} that is no set-up sheet: ${errors[0].message}.${more}`;
  }

  say(text) {
    byId('said').innerHTML = text ? `<p>${withCode(text)}</p>` : '';
  }

  changed(id) {
    // A remark that stood beside a number is about that number.
    const [, index, ...rest] = /^axis\.(\d+)\.(.*)$/.exec(id ?? '') ?? [];
    const marks = index === undefined ? this.form.entered.marks : this.form.entered.axes[index]?.marks;
    const name = index === undefined ? id : rest[0].replace(/\.(how|count|second|name)$/, '');
    if (marks?.[name]) marks[name].comment = '';
    if (!this.isDue) requestAnimationFrame(() => this.settle());
    this.isDue = true;
  }

  // Shows what has changed, if anything has.
  settle() {
    if (!this.isDue) return;
    this.isDue = false;
    this.say('');
    this.update();
  }

  // Writes, reads, plans and shows.
  update() {
    const began = performance.now(), lines = linesEntered(this.form.entered);
    this.sheet = lines.map(({ text }) => text).join('\n') + '\n';
    const read = readSheet(this.sheet), wrong = [...formErrors(this.form.entered, lines), ...read.errors ?? []];
    const errors = wrong.length ? wrong : null, setup = errors ? null : read.setup;
    Object.assign(this, { setup, plan: setup ? planOf(this.library, setup) : null, lines });
    this.showMessages(errors ?? []);
    const told = errors ? errorsTold(errors.map(error => ({ error, id: lines[error.line - 1]?.id })),
      id => this.nameOf(id)) : this.showPlan();
    byId('verdict').innerHTML = told.verdict;
    byId('bar').className = !errors && this.plan.ok ? 'bar good' : errors ? 'bar wait' : 'bar bad';
    byId('answer').innerHTML = told.rest;
    byId('plan').hidden = !this.plan?.ok;
    for (const id of ['save-csv', 'save-words']) byId(id).disabled = !this.plan?.ok || id === 'save-words' &&
      this.setup.kind === 'tour';
    byId('text').value = this.sheet;
    this.took = performance.now() - began;
    this.keepAddress();
  }

  keepAddress() {
    clearTimeout(this.keeping);
    this.keeping = setTimeout(() => {
      try {
        history.replaceState(null, '', addressOf(this.sheet));
      } catch {
        // A page that is opened from some storages may not change its address; the
        // link can be copied all the same.
      }
    }, 300);
  }

  // What is said of each field: what is wrong with it, or how it was rounded.
  showMessages(errors) {
    for (const message of byId('form').querySelectorAll('.message')) {
      message.textContent = '';
      message.className = 'message';
    }
    for (const input of byId('form').querySelectorAll('[aria-invalid]')) input.removeAttribute('aria-invalid');
    for (const error of errors) {
      const isEmpty = error.found === 'the end of the line';
      const text = isEmpty ? `To be entered: ${error.expected.replace(/,? after `[^`]*`$/, '')}.`
        : `Expected ${error.expected}, found ${error.found}.`;
      this.showMessage(this.lines[error.line - 1]?.id, withCode(text), isEmpty ? 'lacks' : 'wrong');
    }
    for (const note of this.setup?.notes ?? []) this.showMessage(this.lines[note.line - 1]?.id,
      escaped(`${noteTold(note, false)}.`), 'rounded');
    if (this.plan && !this.plan.ok) this.showRefused();
  }

  showMessage(id, html, kind) {
    const message = id && byId(idOf(id, 'message'));
    if (!message) return;
    message.innerHTML += (message.innerHTML && ' ') + html;
    message.classList.add(kind);
    if (kind === 'rounded') return;
    // A stop is one line of several fields: those that begin with no number are the ones.
    const numbers = [...message.closest('fieldset')?.querySelectorAll('[inputmode=decimal]') ?? []];
    const wrong = byId(idOf(id)) ? [byId(idOf(id))] : numbers.filter(input => !/^\s*[+\-−–]?[0-9.]/.test(input.value));
    for (const input of wrong) input.setAttribute('aria-invalid', 'true');
    message.closest('details')?.setAttribute('open', '');
  }

  // At the axis or the stop that a refusal names, that it is the one.
  showRefused() {
    const { told } = this.plan, cause = escaped(told.sentence);
    if (told.stop !== undefined) return this.showMessage(`stop.${told.stop}`, cause, 'wrong');
    const index = this.form.entered.axes.findIndex(axis => axis.number === told.axis);
    if (told.axis !== null && index >= 0) this.showMessage(`axis.${index}`, cause, 'wrong');
    if ([3, 8].includes(told.number)) this.showMessage('arrival', cause, 'wrong');
    if (told.number === 13) this.showMessage('dwell', escaped(`${this.texts[13]}.`), 'wrong');
  }

  // What a field is called where an error is listed.
  nameOf(id) {
    const [, index, name] = /^axis\.(\d+)(?:\.(.*))?$/.exec(id ?? '') ?? [];
    if (index === undefined) return (id ?? 'the sheet').replace(/\.(\d+)/, ' $1');
    const { name: axis, number } = this.form.entered.axes[index];
    return `${axis.trim() || `axis ${number}`}${name ? ', ' + name : ''}`;
  }

  showPlan() {
    const { setup, plan } = this;
    if (!plan.ok) return refusalTold(setup, plan.told, this.texts[plan.told.number]);
    this.panels = plan.kind === 'job' ? panelsOfJob(setup, plan) : panelsOfTour(setup, plan);
    this.draw();
    this.showTable();
    return plan.kind === 'job' ? jobTold(setup, plan, this.panels) : tourTold(setup, plan, this.panels);
  }

  listen() {
    const pictures = byId('pictures'), on = (id, kind, act) => byId(id).addEventListener(kind, act);
    for (const kind of ['pointerdown', 'pointermove']) {
      pictures.addEventListener(kind, event => (event.pointerType === 'mouse' || event.buttons ||
        kind === 'pointerdown') && this.pointed(event));
    }
    on('tick', 'input', () => this.showRow(Number(byId('tick').value)));
    on('scroller', 'scroll', () => this.showRows());
    on('leg', 'change', () => { this.leg = Number(byId('leg').value); this.showTable(); });
    on('how', 'change', () => { this.how = byId('how').value; this.showTable(); });
    on('answer', 'click', event => this.pressed(event.target));
    on('bar', 'click', event => byId(event.target.dataset?.jump)?.scrollIntoView());
    on('open', 'change', () => this.open(byId('open').files[0]));
    on('save-sheet', 'click', () => this.save(this.sheet, this.name, 'text/plain'));
    on('save-csv', 'click', () => this.save(csvOf(this.setup, this.plan, this.library.version(), this.name),
      this.name.replace(/(\.sheet|\.txt)?$/, '.csv'), 'text/csv'));
    on('save-words', 'click', () => this.saveWords());
    on('copy-link', 'click', () => this.copyLink());
    on('print', 'click', () => print());
    on('new', 'click', () => this.form.show(emptyEntered()));
    on('use-text', 'click', () => this.take(byId('text').value, 'The text'));
    addEventListener('beforeprint', () => this.fillPaper());
    new IntersectionObserver(([{ isIntersecting }]) => {
      this.seesTable = isIntersecting;
      if (this.plan?.ok) this.showRows();
    }).observe(byId('scroller'));
    addEventListener('hashchange', () => this.address());
    addEventListener('resize', () => {
      this.room = null;
      if (this.plan?.ok) this.draw();
      if (this.plan?.ok) this.showRow(this.tick, false);
    });
  }

  // A button of the answer: to a field, or an arrival that would do.
  pressed(target) {
    const { go, arrival } = target.dataset ?? {};
    if (go) (byId(idOf(go)) ?? byId(idOf(go, '0')) ?? byId(idOf(go, 'how')))?.focus();
    if (!arrival) return;
    const earliest = arrival === 'earliest';
    Object.assign(this.form.entered.arrival, earliest ? { how: 'earliest' } : { how: 'at', ...field(arrival, '') });
    this.form.show(this.form.entered);
  }

  async open(file) {
    if (!file) return;
    byId('open').value = '';
    let text;
    try {
      text = new TextDecoder('utf-8', { fatal: true }).decode(await file.arrayBuffer());
    } catch {
      return this.say(`${file.name} is no set-up sheet: it is not text in UTF-8. What was entered is still here.`);
    }
    if (this.take(text, file.name)) this.name = file.name;
  }

  // Takes the text of a sheet into the form, or says everything that is wrong with
  // it and leaves the form as it is.
  take(text, name) {
    const { errors } = readSheet(text);
    if (!errors) {
      this.form.show(enteredOf(text));
      this.say('');
      return true;
    }
    const told = errors.slice(0, 12).map(error => `<li>${withCode(error.message)}</li>`).join('');
    const first = `${name} is no set-up sheet. What was entered is still here.`;
    byId('said').innerHTML = `<p>${escaped(first)}</p><ul>${told}</ul>`;
    if (errors.length > 12) byId('said').innerHTML += `<p>And ${errors.length - 12} more.</p>`;
    byId('said').scrollIntoView({ block: 'nearest' });
    return false;
  }

  address() {
    const found = sheetInAddress(location.hash);
    if (!found || found.text && addressOf(found.text) === addressOf(this.sheet)) return;
    const error = found.error ?? this.wrongSheet(found.text, 'The address has a job');
    if (error) this.say(`${error} What was entered is still here.`);
    else this.form.show(enteredOf(found.text));
  }

  save(text, name, type) {
    const link = element('a', { href: URL.createObjectURL(new Blob([text], { type })), download: name });
    link.click();
    setTimeout(() => URL.revokeObjectURL(link.href), 10000);
  }

  // Words are handed out where the library plans them as it does the job.
  saveWords() {
    const { words, error } = wordsOfJob(this.setup.job);
    if (error) return this.say(error);
    const planned = this.library.planWords(words), { answer } = this.plan;
    const isSame = planned.number === 0 && planned.arrival === answer.arrival &&
      planned.table.every((cell, at) => cell === answer.table[at]);
    if (!isSame) return this.say('The words of this job are planned otherwise than the job: they are not written.');
    this.save(hexadecimalOf(words), this.name.replace(/(\.sheet|\.txt)?$/, '.words.txt'), 'text/plain');
  }

  async copyLink() {
    const link = location.href.replace(/#.*/, '') + addressOf(this.sheet);
    try {
      await navigator.clipboard.writeText(link);
      this.say('The link is copied. Whoever opens it with this page sees this job.');
    } catch {
      byId('said').replaceChildren(element('label', {}, 'The link with this job: ',
        element('input', { readonly: true, value: link, id: 'link' })));
      byId('link').select();
    }
  }
}

// The library's bytes, which the page holds compressed.
async function libraryBytes() {
  const bytes = Uint8Array.from(atob(dataOf('library')), sign => sign.charCodeAt(0));
  return new Response(new Blob([bytes]).stream().pipeThrough(new DecompressionStream('gzip'))).arrayBuffer();
}

libraryBytes().then(openLibrary).then(
  library => { globalThis.polgamirPage = new Page(library); },
  error => {
    byId('verdict').textContent = `This browser cannot run the planner; one of 2023 or later can. (${error.message})`;
  });
