'use strict';
/* Draws diagnostics together with the source code. index.d.ts says what each call does. */

const native = load();

/** The compiled part: that of GIRZOHAL_NODE, else the one of this package for this machine. */
function load() {
  const path = process.env.GIRZOHAL_NODE || `./prebuilt/${process.platform}-${process.arch}/girzohal.node`;
  try {
    return require(path);
  } catch (why) {
    const hint = 'It is there for Linux with glibc on x64 and arm64; `node build.js` in the package builds it.';
    throw new Error(`girzohal: the compiled part ${path} can't be loaded: ${why.message.split('\n', 1)[0]}. ${hint}`, { cause: why });
  }
}

const Severity = Object.freeze({ advice: 0, warning: 1, error: 2 });
const Theme = Object.freeze({ unicode: 0, unicodeNoColor: 1, none: 2 });
const Unit = Object.freeze({ bytes: 'bytes', characters: 'characters', utf16: 'utf16' });

const NONE = 0xffff_ffff_ffff_ffffn;
const MOST = 0xffff_ffff;

class Report {
  constructor(severity, message, { file = 0, scope, number, help, note, url, labels = [] } = {}) {
    Object.assign(this, { severity, message: String(message), file, scope, number, help, note, url });
    this.labels = Object.freeze(labels.map((label) => Object.freeze({ ...label })));
    Object.freeze(this);
  }

  static error(message, parts) {
    return new Report(Severity.error, message, parts);
  }

  static warning(message, parts) {
    return new Report(Severity.warning, message, parts);
  }

  static advice(message, parts) {
    return new Report(Severity.advice, message, parts);
  }

  code(scope, number) {
    return new Report(this.severity, this.message, { ...this, scope, number });
  }

  label(start, end, text) {
    return this.withLabel({ start, end, text });
  }

  primary(start, end, text) {
    return this.withLabel({ start, end, text, primary: true });
  }

  withLabel(label) {
    return new Report(this.severity, this.message, { ...this, labels: [...this.labels, label] });
  }
}

/** Texts one after another, in a buffer that grows. */
class Texts {
  constructor() {
    this.buffer = Buffer.alloc(0);
    this.length = 0;
  }

  put(text) {
    if (text === undefined || text === null) return [NONE, NONE];
    const string = String(text);
    const start = this.length;
    const end = start + Buffer.byteLength(string);
    if (end > this.buffer.length) {
      const larger = Buffer.allocUnsafeSlow(2 * end);
      this.buffer.copy(larger, 0, 0, start);
      this.buffer = larger;
    }
    this.buffer.write(string, start);
    this.length = end;
    return [start, end];
  }

  get bytes() {
    return this.buffer.subarray(0, this.length);
  }
}

/** The distance of the marks in bytes. */
const BLOCK = 1024;

/** Two calls of Sources that are for this module only. */
let withTexts;
let byteOf;

class Sources {
  #unit;
  #texts = new Texts();
  #length = 0; // of the files' texts; those of reports come after, during a draw
  #files = [];
  #structs = null;
  #marks = []; // at each BLOCK bytes: how many units come before

  constructor(unit = Unit.bytes) {
    if (!Object.values(Unit).includes(unit)) throw new TypeError(`girzohal: there is no unit ${unit}`);
    this.#unit = unit;
  }

  get unit() {
    return this.#unit;
  }

  get length() {
    return this.#files.length;
  }

  add(name, source) {
    this.#files.push([this.#texts.put(name), this.#texts.put(source)]);
    this.#length = this.#texts.length;
    this.#structs = null;
    this.#setMarks();
    return this.#files.length - 1;
  }

  static {
    withTexts = (sources, call) => sources.#withTexts(call);
    byteOf = (sources, file, offset) => sources.#byteOf(file, offset);
  }

  /** Calls with the files' structs and with texts to which reports may add theirs. */
  #withTexts(call) {
    if (this.#structs === null) {
      const structs = new Structs(32, this.#files.length);
      for (const [name, source] of this.#files) structs.text(name).text(source);
      this.#structs = structs.bytes;
    }
    try {
      return call(this.#structs, this.#texts);
    } finally {
      this.#texts.length = this.#length;
    }
  }

  /** How many units the characters have that start in a range of the texts. */
  #units(start, end) {
    const bytes = this.#texts.buffer;
    const long = this.#unit === Unit.utf16 ? 2 : 1;
    let units = 0;
    for (let at = start; at < end; at++) {
      if ((bytes[at] & 0xc0) !== 0x80) units += bytes[at] >= 0xf0 ? long : 1;
    }
    return units;
  }

  #setMarks() {
    if (this.#unit === Unit.bytes) return;
    const marks = this.#marks;
    if (marks.length === 0) marks.push(0);
    for (let at = marks.length * BLOCK; at <= this.#length; at += BLOCK) {
      marks.push(marks[marks.length - 1] + this.#units(at - BLOCK, at));
    }
  }

  /** The byte of a file's source at an offset in units. MOST, which is past the end of every source, if there is none: the
   * library then says that it is no place. */
  #byteOf(file, offset) {
    const found = this.#files[file];
    if (!Number.isSafeInteger(offset) || offset < 0) return MOST;
    if (this.#unit === Unit.bytes || found === undefined) return Math.min(offset, MOST);
    return this.#counted(found[1], offset);
  }

  #counted([start, end], offset) {
    const marks = this.#marks;
    const bytes = this.#texts.buffer;
    const block = Math.floor(start / BLOCK);
    const wanted = marks[block] + this.#units(block * BLOCK, start) + offset;
    let [low, high] = [0, marks.length];
    while (high - low > 1) {
      const middle = (low + high) >> 1;
      if (marks[middle] <= wanted) low = middle;
      else high = middle;
    }
    let at = low * BLOCK;
    let units = marks[low];
    while (at < end && (units < wanted || (bytes[at] & 0xc0) === 0x80)) {
      units += this.#units(at, at + 1);
      at++;
    }
    return units === wanted && at <= end ? Math.min(at - start, MOST) : MOST;
  }
}

class DrawError extends Error {
  constructor(kind, message, numbers = {}) {
    super(message);
    Object.assign(this, { name: 'DrawError', kind }, numbers);
  }
}

/** The error of a status and an answer. `reports` are those of a draw, whose labels may be in another unit than bytes. */
function errorOf([status, array, index, cause, report, label, first, second], reports) {
  const at = `report ${report}: label ${label}`;
  if (status === 2 && array === 1) return new DrawError('wrongFile', `file ${index}: its source is too long`, { file: index });
  if (status === 2 && array === 2) {
    return new DrawError('wrongReport', `report ${index}: there is no such file, or a part of its code is empty`, { report: index });
  }
  if (status === 2 && array === 5) return new DrawError('wrongAbi', 'the library has another ABI');
  if (status === 2) {
    return new DrawError('wrongLook', index === 1 ? "tab stops aren't 1 to 16 columns apart" : "the look's theme is wrong");
  }
  if (status === 3) return new DrawError('noDocument', 'not a document');
  if (status === 1 && cause === 1) return new DrawError('unknownFile', `report ${report}: there is no such file`, { report });
  if (status === 1 && cause === 4) {
    const { start, end } = reports ? reports[report].labels[label] : { start: first, end: second };
    return new DrawError('endBeforeStart', `${at}: its end ${end} is before its start ${start}`, { report, label, start, end });
  }
  if (status === 1) {
    const end = cause === 3 ? 'end' : 'start';
    return new DrawError('noPlace', `${at}: its ${end} is no place in the source`, { report, label, atEnd: cause === 3 });
  }
  return new DrawError('outOfMemory', 'out of memory');
}

/** A number that 32 bits can't hold is as wrong as the greatest that they can. */
function number(value) {
  return Number.isInteger(value) && value >= 0 && value <= MOST ? value : MOST;
}

/** Structs one after another, each of so many bytes and at an address of its own. */
class Structs {
  constructor(size, count) {
    this.view = new DataView(new ArrayBuffer(size * count));
    this.at = 0;
  }

  u32(value) {
    this.view.setUint32(this.at, value, true);
    this.at += 4;
    return this;
  }

  size(value) {
    this.at = (this.at + 7) & ~7;
    this.view.setBigUint64(this.at, BigInt(value), true);
    this.at += 8;
    return this;
  }

  text([start, end]) {
    return this.size(start).size(end);
  }

  /** A struct ends where the next may begin. */
  end() {
    this.at = (this.at + 7) & ~7;
  }

  get bytes() {
    return Buffer.from(this.view.buffer);
  }
}

function lookOf({ theme = Theme.unicodeNoColor, tabs = 4, width = 80 } = {}, form) {
  const made = new Structs(24, 1);
  made.u32(number(theme)).u32(number(tabs)).u32(form).size(width === Infinity ? NONE : Math.max(0, Math.trunc(width) || 0));
  return made.bytes;
}

function write(sources, reports, look) {
  return withTexts(sources, (files, texts) => {
    const labels = new Structs(32, reports.reduce((sum, report) => sum + report.labels.length, 0));
    const said = new Structs(120, reports.length);
    let first = 0;
    for (const report of reports) {
      for (const label of report.labels) {
        const [start, end] = [label.start, label.end].map((at) => byteOf(sources, report.file, at));
        labels.u32(start).u32(end).text(texts.put(label.text)).u32(label.primary ? 1 : 0).end();
      }
      said.u32(number(report.file)).u32(number(report.severity)).text(texts.put(report.message));
      for (const part of ['scope', 'number', 'help', 'note', 'url']) said.text(texts.put(report[part]));
      said.size(first).size(report.labels.length);
      first += report.labels.length;
    }
    return textOf(native.draw(texts.bytes, files, said.bytes, labels.bytes, look), reports);
  });
}

function textOf(made, reports) {
  if (typeof made !== 'string') throw errorOf(made, reports);
  return made;
}

function draw(sources, reports, look) {
  return write(sources, reports, lookOf(look, 0));
}

function json(sources, reports) {
  return write(sources, reports, lookOf({}, 1));
}

function writeDocument(document, look) {
  return textOf(native.document(Buffer.from(document), look));
}

function drawDocument(document, look) {
  return writeDocument(document, lookOf(look, 0));
}

function jsonDocument(document) {
  return writeDocument(document, lookOf({}, 1));
}

function version() {
  const number = native.version();
  return [(number >> 16) & 255, (number >> 8) & 255, number & 255];
}

module.exports = {
  DrawError, Report, Severity, Sources, Theme, Unit, draw, drawDocument, json, jsonDocument, version,
};
