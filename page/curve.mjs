// Curves and scales of a picture, in the pixels of its drawing.

// A scale from values to pixels.
export function scaleOf(least, greatest, from, to) {
  const by = (to - from) / (greatest - least);
  return Object.assign(value => from + (value - least) * by, { least, greatest, from, to });
}

// Round values of a scale, about so many, and how many decimals their labels have.
export function roundValues(scale, count, smallest = 0) {
  const wanted = (scale.greatest - scale.least) / count, power = 10 ** Math.floor(Math.log10(wanted));
  const step = Math.max([1, 2, 5, 10].map(by => by * power).find(step => step >= wanted * 0.999) ?? power, smallest);
  const values = [];
  for (let at = Math.ceil(scale.least / step - 1e-9); at * step <= scale.greatest + step * 1e-9 &&
    values.length < 50; at++) values.push(at * step);
  const decimals = Math.max(0, Math.min(12, -Math.floor(Math.log10(step) + 1e-9)));
  return { values, label: value => (Math.abs(value) < step / 1e6 ? 0 : value).toFixed(decimals) };
}

// Pixels with one decimal.
function pixel(value) {
  return Math.round(value * 10) / 10;
}

// How far a drawn line may be from the curve, in pixels.
const OFF = 0.25;

// A path of straight lines that is put together point by point: a point that stays within OFF of a
// line drawn past it is left out.
class Line {
  constructor(x, y) {
    this.path = `M${pixel(x)} ${pixel(y)}`;
    this.begin(x, y);
  }

  begin(x, y) {
    Object.assign(this, { fromX: x, fromY: y, x, y, least: -Infinity, greatest: Infinity });
  }

  to(x, y) {
    const across = x - this.fromX, slope = (y - this.fromY) / across;
    if (this.x !== this.fromX && (across <= 0 || slope < this.least || slope > this.greatest)) {
      this.path += ` ${pixel(this.x)} ${pixel(this.y)}`;
      this.begin(this.x, this.y);
      return this.to(x, y);
    }
    if (across <= 0) {
      this.path += ` ${pixel(x)} ${pixel(y)}`;
      return this.begin(x, y);
    }
    this.least = Math.max(this.least, (y - OFF - this.fromY) / across);
    this.greatest = Math.min(this.greatest, (y + OFF - this.fromY) / across);
    this.x = x;
    this.y = y;
  }

  end() {
    return this.x === this.fromX ? this.path : `${this.path} ${pixel(this.x)} ${pixel(this.y)}`;
  }
}

// The path of a curve: points (x of a place, y of a value). Of many points in one column of pixels,
// its extreme and its last are drawn.
export function pathOf(ticks, values, x, y, isStepped = false) {
  const count = values.length, isThin = count > 2 * (x.to - x.from),
    line = new Line(x(ticks ? ticks[0] : 0), y(values[0]));
  if (isThin) return thinPath(line, ticks, values, x, y);
  for (let place = 1; place < count; place++) {
    const at = x(ticks ? ticks[place] : place);
    if (isStepped && values[place] !== values[place - 1]) line.to(at, y(values[place - 1]));
    line.to(at, y(values[place]));
  }
  return line.end();
}

function thinPath(line, ticks, values, x, y) {
  let column = -1, least = 0, greatest = 0, last = 0;
  const draw = () => {
    const far = greatest - last > last - least ? greatest : least;
    if (far !== last) line.to(column, y(far));
    line.to(column + (far === last ? 0 : 0.5), y(last));
  };
  for (let place = 0; place < values.length; place++) {
    const value = values[place], here = x(ticks ? ticks[place] : place) | 0;
    if (here !== column) {
      if (column >= 0) draw();
      column = here;
      least = greatest = value;
    } else if (value < least) {
      least = value;
    } else if (value > greatest) {
      greatest = value;
    }
    last = value;
  }
  draw();
  return line.end();
}

// The least and the greatest of lists of numbers.
export function extremesOf(lists) {
  let least = Infinity, greatest = -Infinity;
  for (const list of lists) {
    for (let place = 0; place < list.length; place++) {
      const value = list[place];
      if (value < least) least = value;
      if (value > greatest) greatest = value;
    }
  }
  return [least, greatest];
}
