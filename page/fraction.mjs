// Exact fractions of whole numbers of any size: what is entered, and what it comes to, without a
// float.

const TEN = 10n;

function sizeOf(number) {
  return number < 0n ? -number : number;
}

function commonDivisor(a, b) {
  while (b) [a, b] = [b, a % b];
  return a;
}

export class Fraction {
  constructor(top, bottom = 1n) {
    const divisor = commonDivisor(sizeOf(top), sizeOf(bottom)) * (bottom < 0n ? -1n : 1n);
    this.top = top / divisor;
    this.bottom = bottom / divisor;
  }

  // A whole number, as it is written in the code.
  static whole(number) {
    return new Fraction(BigInt(number));
  }

  // Digits with or without a point among them, times a power of ten.
  static read(isNegative, digits, power) {
    const [before, after = ''] = digits.split('.');
    const number = BigInt(before + after || '0') * (isNegative ? -1n : 1n);
    return new Fraction(number).times(tenTo(power - after.length));
  }

  // The fraction that a float stands for.
  static ofFloat(number) {
    let power = 0n;
    while (!Number.isInteger(number)) [number, power] = [2 * number, power + 1n];
    return new Fraction(BigInt(number), 1n << power);
  }

  get isZero() { return this.top === 0n; }
  get isNegative() { return this.top < 0n; }
  get isAboveZero() { return this.top > 0n; }

  times(other) { return new Fraction(this.top * other.top, this.bottom * other.bottom); }
  over(other) { return new Fraction(this.top * other.bottom, this.bottom * other.top); }
  plus(other) { return new Fraction(this.top * other.bottom + other.top * this.bottom, this.bottom * other.bottom); }
  minus(other) { return this.plus(new Fraction(-other.top, other.bottom)); }
  size() { return new Fraction(sizeOf(this.top), this.bottom); }

  // The whole number that stands for it: `down`, `up`, or `nearest`, of two the one further from 0.
  rounded(how) {
    const whole = sizeOf(this.top) / this.bottom, left = sizeOf(this.top) % this.bottom;
    const further = { down: this.isNegative && left > 0n, up: !this.isNegative && left > 0n,
      nearest: 2n * left >= this.bottom };
    const size = whole + (further[how] ? 1n : 0n);
    return this.isNegative ? -size : size;
  }

  // The decimal number of at most so many significant digits, without noughts at its end.
  shown(digits, how = 'nearest') {
    if (this.isZero) return '0';
    const power = digits - 1 - this.magnitude();
    const number = this.times(tenTo(power)).rounded(how);
    return (this.isNegative ? '-' : '') + withPoint(String(sizeOf(number)), power);
  }

  // The least number of three significant digits whose square is not below the fraction, which is
  // above 0.
  rootShown() {
    const magnitude = Math.floor(this.magnitude() / 2);
    const square = this.times(tenTo(4 - 2 * magnitude));
    let root = 100n;
    while (root < 1000n && new Fraction(root * root).minus(square).isNegative) root += 1n;
    return withPoint(String(root), 2 - magnitude);
  }

  // The power of ten of the first significant digit of a fraction that is not 0.
  magnitude() {
    const top = sizeOf(this.top), magnitude = String(top).length - String(this.bottom).length;
    const scaled = new Fraction(top, this.bottom).times(tenTo(-magnitude));
    return scaled.top < scaled.bottom ? magnitude - 1 : magnitude;
  }

  // The nearest float, for what is shown and never for what is planned.
  toNumber() {
    return Number(this.shown(25));
  }
}

// Ten to a power, perhaps below 0.
function tenTo(power) {
  return power < 0 ? new Fraction(1n, TEN ** BigInt(-power)) : new Fraction(TEN ** BigInt(power));
}

// Decimal digits by ten to a power, as a decimal number without noughts at its end.
function withPoint(digits, power) {
  if (power <= 0) return digits + '0'.repeat(-power);
  const padded = digits.padStart(power + 1, '0');
  const after = padded.slice(-power).replace(/0+$/, '');
  return padded.slice(0, -power) + (after && '.' + after);
}

// The upward whole quotient of whole numbers, the second above 0, the first not below it.
export function quotientUp(top, bottom) {
  return (top + bottom - 1n) / bottom;
}
