// Fields of a form: each a label, its controls, and the place of what is said of it.

import { QUANTITIES } from './entries.mjs';

// An element with attributes, listeners (`onclick: ..`) and children.
export function element(tag, attributes = {}, ...children) {
  const made = document.createElement(tag);
  for (const [name, value] of Object.entries(attributes)) {
    if (name.startsWith('on')) made.addEventListener(name.slice(2), value);
    else if (typeof value === 'boolean') made.toggleAttribute(name, value);
    else made.setAttribute(name, value);
  }
  made.append(...children.filter(child => child));
  return made;
}

// The name that a field's id has in the document.
export function idOf(id, part = '') {
  return `f-${id.replace(/[^a-z0-9]/gi, '-')}${part && '-' + part}`;
}

// The makers of fields. Who extends it has `changed(id)`, to be called after a change
// of a field, and `rebuild(change)`.
export class Fields {
  // A label, a control and the place of what is said of it.
  field(id, label, ...controls) {
    const control = controls.find(control => control.id) ?? controls[0];
    const message = element('p', { class: 'message', id: idOf(id, 'message') });
    control.setAttribute('aria-describedby', message.id);
    return element('div', { class: 'field' }, element('label', { for: control.id }, label),
      element('div', { class: 'controls' }, ...controls), message);
  }

  text(id, holder, key, attributes = {}) {
    const input = element('input', {
      type: 'text', id: idOf(id), autocomplete: 'off', spellcheck: 'false', autocapitalize: 'off', ...attributes,
      oninput: () => {
        // A comma, which some keyboards have in place of a point, is seen to become one.
        if (attributes.inputmode === 'decimal' &&
          /^[^,.]*,[^,.]*$/.test(input.value)) input.value = input.value.replace(',', '.');
        holder[key] = input.value;
        this.changed(id);
      },
    });
    input.value = holder[key];
    return input;
  }

  select(id, options, value, taken, label = '') {
    const chosen = element('select', { id: idOf(id), onchange: () => taken(chosen.value),
      ...label && { 'aria-label': label } },
      ...options.map(([key, name]) => element('option', { value: key, selected: key === value }, name)));
    return chosen;
  }

  // A number with its measure, and with a button for its sign where it may be below 0.
  number(id, label, holder, quantity, unit, isSigned = false) {
    const { many, endings } = QUANTITIES[quantity];
    const measures = quantity === 'time' ? [['s', 's'], ['ms', 'ms'], ['', 'ticks']]
      : [['', many.replace('per tick', '/ tick')]];
    if (quantity !== 'time' && (unit || holder.measure === 'unit')) measures.unshift(['unit',
      (unit || 'unit') + endings[0]]);
    const input = this.text(id, holder, 'text', { inputmode: 'decimal' });
    const measure = this.select(id + '.measure', measures, holder.measure, value => {
      holder.measure = value;
      this.changed(id);
    }, `${label}: measured in`);
    const sign = isSigned && element('button', {
      type: 'button', class: 'sign', 'aria-label': `${label}: change the sign`,
      onclick: () => {
        input.value = /^[-−–]/.test(input.value) ? input.value.slice(1) : '-' + input.value.replace(/^\+/, '');
        holder.text = input.value;
        this.changed(id);
      },
    }, '±');
    return this.field(id, label, input, sign, measure);
  }

  // The size and the name of a unit; measures of the fields follow its name.
  unitField(id, label, holder, told) {
    const renamed = () => this.changed(id);
    const name = this.text(id + '.name', holder, 'unit',
      { 'aria-label': `${label}: name`, placeholder: 'degree', list: 'unit-names',
      onchange: () => this.rebuild(renamed) });
    return this.field(id, told, this.text(id, holder, 'size', { inputmode: 'decimal', placeholder: '0.01' }), name);
  }

  part(number, title, ...children) {
    return element('div', { class: 'part', role: 'group', 'aria-label': title },
      element('h3', {}, element('span', { class: 'step', 'aria-hidden': 'true' }, String(number)), title), ...children);
  }
}
