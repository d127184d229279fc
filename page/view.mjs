// What is seen of a plan: its pictures, the row at the tick under the finger,
// the table, and what is printed.

import { element } from './fields.mjs';
import { drawPanel, escaped } from './pictures.mjs';
import { ROW_HEIGHT, headingOf, rowTold, rowsInSight, rowsOnPaper, tableOf } from './table.mjs';

export const byId = id => document.getElementById(id);

// Who extends it has the setup, the plan, its panels and the sheet's text.
export class View {
  constructor() {
    Object.assign(this, { tick: 0, leg: 0, how: 'measures' });
  }

  // The arrival, the time after it and the windows, on every picture.
  timeOf() {
    const { plan, setup } = this, tick = setup.worked.tick?.exact?.toNumber() ?? null;
    if (plan.kind === 'tour') {
      return {
        last: plan.last, tick, marks: plan.legs.map(leg => ({ at: leg.arrival, kind: 'arrival' })),
        areas: plan.legs.filter(leg => leg.dwell).map(leg => ({ from: leg.arrival, to: leg.arrival + leg.dwell,
          kind: 'after' })),
      };
    }
    const windows = (setup.job.windows?.list ?? []).map(({ opening, closing }) => ({ from: Number(opening),
      to: Number(closing), kind: 'window' }));
    return { last: plan.last, tick, marks: [{ at: plan.arrival, kind: 'arrival' }],
      areas: [{ from: plan.arrival, to: plan.last, kind: 'after' }, ...windows] };
  }

  draw() {
    const place = byId('pictures'), room = this.room ??= byId('results').clientWidth || 358;
    const columns = room >= 620 ? 2 : 1, width = Math.max(280, Math.floor(room / columns) - 16), time = this.timeOf();
    place.className = columns === 2 ? 'two' : 'one';
    place.innerHTML = this.panels.map(({ title, panels }) =>
      `<section class="axis-pictures"><h3>${escaped(title)}</h3><div class="panels">` +
      `${panels.map(panel => drawPanel(panel, title, width, time)).join('')}</div></section>`).join('');
    byId('legend').classList.toggle('has-windows', Boolean(this.setup.job?.windows));
    byId('legend').classList.toggle('of-tour', this.plan.kind === 'tour');
  }

  showTable() {
    const { plan } = this, legs = byId('leg');
    this.leg = Math.min(this.leg, (plan.legs?.length ?? 1) - 1);
    byId('leg-field').hidden = plan.kind === 'job';
    legs.replaceChildren(...(plan.legs ?? []).map(leg =>
      element('option', { value: String(leg.index), selected: leg.index === this.leg }, `to stop ${leg.index}`)));
    this.table = tableOf(this.setup, plan, this.leg, this.how);
    this.tick = Math.min(this.tick, this.table.count - 1);
    byId('tick').max = this.table.count - 1;
    byId('rows').setAttribute('aria-rowcount', this.table.count + 2);
    byId('rows').tHead.innerHTML = headingOf(this.table);
    this.showRow(this.tick, false);
  }

  // Shows the row of a tick, marks it in the pictures, and brings it into sight in the table.
  showRow(tick, brings = true) {
    this.tick = Math.max(0, Math.min(tick, this.table.count - 1));
    byId('tick').value = this.tick;
    byId('row').innerHTML = rowTold(this.table, this.tick);
    const at = this.plan.kind === 'job' ? this.tick : this.plan.legs[this.leg].departure + this.tick;
    for (const svg of byId('pictures').querySelectorAll('svg.panel')) {
      const { left, right, top } = svg.dataset, x = +left + (right - left) * at / this.plan.last;
      svg.querySelector('.cursor').setAttribute('d', `M${x.toFixed(1)} ${top}v104`);
    }
    this.brings ||= brings;
    this.showRows();
  }

  // Makes the rows in sight; a table that is out of sight has them made when it comes into it.
  showRows() {
    if (!this.seesTable) return;
    const scroller = byId('scroller'), body = byId('rows').tBodies[0], height = scroller.clientHeight || 320;
    const top = this.brings ? Math.max(0, this.tick * ROW_HEIGHT - height / 2) : scroller.scrollTop;
    body.innerHTML = rowsInSight(this.table, top, height, this.tick);
    for (const filler of body.querySelectorAll('.filler')) {
      filler.style.height = `${filler.dataset.rows * ROW_HEIGHT}px`;
    }
    if (this.brings) scroller.scrollTop = top;
    this.brings = false;
  }

  // The tick of a place on a picture.
  pointed(event) {
    const svg = event.target.closest?.('svg.panel');
    if (!svg || !this.plan?.ok) return;
    const box = svg.getBoundingClientRect(), { left, right, width } = svg.dataset;
    const x = (event.clientX - box.left) / box.width * width,
      at = Math.round((x - left) / (right - left) * this.plan.last);
    if (this.plan.kind === 'job') return this.showRow(at);
    const leg = this.plan.legs.find(leg => at <= leg.arrival + leg.dwell) ?? this.plan.legs[this.plan.legs.length - 1];
    if (leg.index !== this.leg) {
      this.leg = leg.index;
      this.showTable();
    }
    this.showRow(at - leg.departure);
  }

  // What is printed beside the answer and the pictures: the sheet, and the first and last rows.
  fillPaper() {
    byId('answer').querySelector('details.notes')?.setAttribute('open', '');
    byId('paper').textContent = this.sheet;
    byId('paper-rows').innerHTML = this.plan?.ok
      ? `<thead>${headingOf(this.table)}</thead><tbody>${rowsOnPaper(this.table)}</tbody>` : '';
  }
}
