'use strict';
// The package's calls on the examples of the repository, and on what it could get wrong.

const assert = require('node:assert');
const fs = require('node:fs');
const path = require('node:path');
const test = require('node:test');
const { Worker, isMainThread } = require('node:worker_threads');
const girzohal = require('..');
const native = require(process.env.GIRZOHAL_NODE || `../prebuilt/linux-${process.arch}/girzohal.node`);
const { Report, Severity, Sources, Theme, Unit, draw, drawDocument, json, jsonDocument, version } = girzohal;

const EXAMPLES = path.join(__dirname, '..', '..', '..', 'examples');
const ASCII = { theme: Theme.none };
const names = fs.readdirSync(EXAMPLES).filter((name) => name.endsWith('.json')).map((name) => name.slice(0, -5));

const count = {
  [Unit.bytes]: (text) => Buffer.byteLength(text),
  [Unit.characters]: (text) => Array.from(text).length,
  [Unit.utf16]: (text) => text.length,
};

/** What comes before a row and a column, both from 1; a byte order mark at the beginning is no column. */
function before(source, [row, column]) {
  const rows = source.match(/[^\r\n]*(\r\n|\r|\n|$)/g).slice(0, row - 1).join('');
  const mark = rows === '' && source.startsWith('\ufeff') ? 1 : 0;
  return rows + Array.from(source.slice(rows.length)).slice(0, column - 1 + mark).join('');
}

/** The start and the end of a label in a unit. */
function endsOf(source, label, unit) {
  const texts = label.bytes
    ? label.bytes.map((at) => Buffer.from(source).subarray(0, at).toString())
    : [before(source, label.start), before(source, label.end)];
  return texts.map(count[unit]);
}

function documentOf(name) {
  return fs.readFileSync(path.join(EXAMPLES, `${name}.json`));
}

function example(name, unit = Unit.bytes) {
  const drawing = fs.readFileSync(path.join(EXAMPLES, `${name}.txt`), 'utf8');
  const said = JSON.parse(documentOf(name).toString());
  const sources = new Sources(unit);
  for (const file of said.files) sources.add(file.name, file.source);
  const reports = said.reports.map((each) => {
    const labels = (each.labels || []).map((label) => {
      const [start, end] = endsOf(said.files[each.file].source, label, unit);
      return { start, end, text: label.text, primary: label.primary };
    });
    return new Report(Severity[each.severity || 'error'], each.message, { ...each, labels });
  });
  return { sources, reports, drawing };
}

function one(source, unit) {
  const sources = new Sources(unit);
  sources.add('a.txt', source);
  return sources;
}

if (!isMainThread) {
  for (let round = 0; round < 20; round++) {
    for (const name of names) {
      const { sources, reports, drawing } = example(name);
      assert.equal(draw(sources, reports, ASCII), drawing);
    }
  }
  return;
}

test('examples are drawn', () => {
  assert.ok(names.length >= 10);
  for (const name of names) {
    for (const unit of Object.values(Unit)) {
      const { sources, reports, drawing } = example(name, unit);
      for (let turn = 0; turn < 2; turn++) assert.equal(draw(sources, reports, ASCII), drawing, name);
    }
    const { sources, reports, drawing } = example(name);
    assert.equal(json(sources, reports).split('\n').length, reports.length + 1, name);
    assert.equal(drawDocument(documentOf(name), ASCII), drawing, name);
    assert.equal(drawDocument(documentOf(name).toString(), ASCII), drawing, name);
    assert.equal(jsonDocument(documentOf(name)), json(sources, reports), name);
  }
});

test('documents that are refused', () => {
  const files = [{ name: 'a.txt', source: 'é\nabc' }];
  const drawn = (file, labels) => {
    const reports = [{ file: 0, message: 'm' }, { file, message: 'm', labels }];
    return drawDocument(JSON.stringify({ version: 2, files, reports }));
  };
  const rows = [
    [0, { bytes: [1, 2] }, { kind: 'noPlace', report: 1, label: 0, atEnd: false }],
    [0, { start: [2, 4], end: [2, 5] }, { kind: 'noPlace', report: 1, label: 0, atEnd: true }],
    [0, { start: [2, 3], end: [2, 1] }, { kind: 'endBeforeStart', start: 5, end: 3 }],
    [1, { bytes: [0, 2] }, { kind: 'unknownFile', report: 1, message: 'report 1: there is no such file' }],
  ];
  for (const [file, label, wanted] of rows) assert.throws(() => drawn(file, [label]), wanted);
  for (const none of ['', '{', '[]', '{}', Buffer.from([255]), '{"files":[],"reports":[]} x']) {
    for (const call of [drawDocument, jsonDocument]) assert.throws(() => call(none), { kind: 'noDocument' });
  }
  assert.throws(() => drawDocument('{', { tabs: 0 }), { kind: 'wrongLook' });
  assert.equal(drawDocument('{"files":[],"reports":[]}'), '');
});

test('a small first buffer of a document is followed by one that fits', () => {
  const row = 'x'.repeat(3000);
  const report = { file: 0, message: 'm', labels: [{ start: [1, 1], end: [1, 2], text: 'y' }] };
  const document = JSON.stringify({ files: [{ name: 'a.txt', source: row }], reports: Array(100).fill(report) });
  assert.equal(drawDocument(document).split(row).length, 101);
});

test('refusals and wrong arguments', () => {
  const files = one('é\nabc');
  const right = Report.error('m');
  const rows = [
    [right.label(1, 2), { kind: 'noPlace', report: 1, label: 0, atEnd: false }],
    [right.label(0, 7), { kind: 'noPlace', report: 1, label: 0, atEnd: true }],
    [right.label(-1, 2), { kind: 'noPlace', atEnd: false }],
    [right.label(0, 2 ** 53), { kind: 'noPlace', atEnd: true }],
    [right.label(0.5, 2), { kind: 'noPlace', atEnd: false }],
    [right.label(5, 3), { kind: 'endBeforeStart', start: 5, end: 3 }],
    [Report.error('m', { file: 1 }), { kind: 'wrongReport', report: 1 }],
    [Report.error('m', { file: NaN }), { kind: 'wrongReport', report: 1 }],
    [right.code('', 'n'), { kind: 'wrongReport', report: 1 }],
    [new Report(3, 'm'), { kind: 'wrongReport', report: 1 }],
  ];
  for (const [report, wanted] of rows) assert.throws(() => draw(files, [right, report], ASCII), wanted);
  for (const look of [{ tabs: 0 }, { tabs: 17 }, { tabs: 'x' }, { theme: 9 }]) {
    assert.throws(() => draw(files, [right], look), { kind: 'wrongLook' });
  }
  for (const width of [0, -3, 1, Infinity, 2 ** 53]) assert.match(draw(files, [right], { width }), /m/);
});

test('buffers that are no structs are refused', () => {
  const look = Buffer.alloc(24);
  for (const bad of [[], [1, 2, 3, 4, 5], [Buffer.alloc(1), Buffer.alloc(31), Buffer.alloc(0), Buffer.alloc(0), look]]) {
    assert.throws(() => native.draw(...bad), TypeError);
  }
  for (const bad of [[], [Buffer.alloc(1)], [Buffer.alloc(1), Buffer.alloc(23)], ['{}', look]]) {
    assert.throws(() => native.document(...bad), TypeError);
  }
  assert.deepEqual(native.draw(Buffer.alloc(0), Buffer.alloc(0), Buffer.alloc(0), Buffer.alloc(0), look).slice(0, 3), [2, 4, 1]);
});

test('nothing is drawn of nothing', () => {
  assert.equal(draw(new Sources(), []), '');
  assert.equal(draw(one(''), []), '');
  assert.equal(json(new Sources(), []), '');
  assert.equal(draw(one(''), [Report.error('m')], ASCII), '\n  x m\n');
});

test('texts of all kinds are drawn', () => {
  const drawn = draw(one('日本 \0\té\n'), [Report.warning('grün \0 日本', { note: 'ñ', help: 'ü' }).label(3, 6, '日\0本')]);
  for (const text of ['grün', '日本', 'ñ', 'ü']) assert.ok(drawn.includes(text), drawn);
});

test('a small first buffer is followed by one that fits', () => {
  const labels = Array.from({ length: 2000 }, (_, row) => ({ start: 2 * row, end: 2 * row + 1, text: 'y' }));
  const report = Report.error('m', { labels });
  assert.equal(draw(one('x\n'.repeat(2000)), [report], ASCII).split('`-- y').length, 2001);
});

test('many reports are drawn as alone', () => {
  const report = Report.error('oops').label(4, 5, 'here');
  const files = one('let x = 1;\n');
  assert.equal(draw(files, Array(10_000).fill(report)), draw(files, [report]).repeat(10_000));
});

test('units are converted', () => {
  const text = 'a\u00e9\u65e5\u{1f44d}\n'.repeat(700);
  const characters = Array.from(text);
  const byBytes = one(text);
  for (const unit of [Unit.characters, Unit.utf16]) {
    const sources = new Sources(unit);
    for (const [name, source] of [['\u{1f44d}', ''], ['a.txt', text], ['last', '\u00e9']]) sources.add(name, source);
    const line = (file, start, end = start) => json(sources, [Report.error('m', { file }).label(start, end)]);
    for (let at = 0; at < characters.length; at += 37) {
      const [until, all] = [characters.slice(0, at).join(''), characters.slice(0, at + 1).join('')];
      const want = json(byBytes, [Report.error('m').label(count.bytes(until), count.bytes(all))]);
      assert.equal(line(1, count[unit](until), count[unit](all)), want);
    }
    const end = count[unit](text);
    assert.ok(line(1, end) && line(0, 0) && line(2, 1));
    for (const [file, at] of [[1, end + 1], [0, 1], [2, 2]]) assert.throws(() => line(file, at), { kind: 'noPlace' });
  }
});

test('places that are not there in a unit', () => {
  const sources = one('\u{1f44d}x', Unit.utf16);
  const drawn = (start, end) => draw(sources, [Report.error('m').label(start, end)]);
  for (const [start, end, atEnd] of [[1, 2, false], [0, 1, true], [0, 4, true], [-1, 0, false], [0.5, 1, false]]) {
    assert.throws(() => drawn(start, end), { kind: 'noPlace', atEnd });
  }
  assert.throws(() => drawn(3, 2), { kind: 'endBeforeStart', start: 3, end: 2 });
  assert.throws(() => new Sources('rows'), TypeError);
});

test('files may be added between draws', () => {
  const sources = one('first');
  const report = Report.error('m', { file: 1 }).label(0, 1);
  assert.throws(() => draw(sources, [report]), { kind: 'wrongReport' });
  assert.equal(sources.add('b.txt', 'second'), 1);
  assert.match(draw(sources, [report]), /second/);
  assert.equal(sources.length, 2);
});

test('reports do not change', () => {
  const right = Report.error('m');
  right.label(0, 1).code('s', 'n');
  assert.deepEqual([right.labels, right.scope], [[], undefined]);
  assert.throws(() => { right.message = 'x'; }, TypeError);
  assert.throws(() => right.labels.push(1), TypeError);
});

test('import gives the same calls', async () => {
  const { default: _, ...imported } = await import('../index.mjs');
  assert.deepEqual({ ...imported }, girzohal);
});

test('threads draw at once', async () => {
  const ended = Array.from({ length: 8 }, () => new Promise((resolve) => new Worker(__filename).on('exit', resolve)));
  assert.deepEqual(await Promise.all(ended), Array(8).fill(0));
});

test('versions agree', () => {
  const said = version().join('.');
  assert.equal(said, fs.readFileSync(path.join(__dirname, '..', '..', '..', 'VERSION'), 'utf8').trim());
  assert.equal(said, require('../package.json').version);
});
