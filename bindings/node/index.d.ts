/** How severe a report is. */
export declare const Severity: { readonly advice: 0; readonly warning: 1; readonly error: 2 };
export type Severity = 0 | 1 | 2;

/** The characters and colors of a drawing: colors and lines, lines without colors, or ASCII only. */
export declare const Theme: { readonly unicode: 0; readonly unicodeNoColor: 1; readonly none: 2 };
export type Theme = 0 | 1 | 2;

/** The unit in which labels count: bytes of UTF-8, characters (code points), or units of UTF-16, as strings count. */
export declare const Unit: { readonly bytes: 'bytes'; readonly characters: 'characters'; readonly utf16: 'utf16' };
export type Unit = 'bytes' | 'characters' | 'utf16';

/** How a drawing looks. */
export interface Look {
  /** `Theme.unicodeNoColor`, unless it is given. */
  readonly theme?: Theme;
  /** The columns between tab stops, from 1 to 16; 4, unless it is given. */
  readonly tabs?: number;
  /** The columns that messages, helps and notes are filled to; 80, unless it is given. `Infinity` breaks no line. */
  readonly width?: number;
}

/** A part of a file's source, from `start` up to `end` in the unit of the sources, and a text on it. */
export interface Label {
  readonly start: number;
  readonly end: number;
  readonly text?: string;
  /** Whether it is the primary label, whose position is in the head of the drawing. */
  readonly primary?: boolean;
}

/** The parts of a report that may be missing. */
export interface Parts {
  /** The index of its file; 0, unless it is given. */
  readonly file?: number;
  /** The first part of its code, like `eslint`; never empty. */
  readonly scope?: string;
  /** The second part of its code, like `no-undef`; never empty. */
  readonly number?: string;
  /** How to fix it. */
  readonly help?: string;
  /** More to know. */
  readonly note?: string;
  /** Where to read more. */
  readonly url?: string;
  readonly labels?: readonly Label[];
}

/** A report on one file. It doesn't change: each method returns a new one. */
export declare class Report {
  constructor(severity: Severity, message: string, parts?: Parts);
  static error(message: string, parts?: Parts): Report;
  static warning(message: string, parts?: Parts): Report;
  static advice(message: string, parts?: Parts): Report;
  readonly severity: Severity;
  readonly message: string;
  readonly file: number;
  readonly scope?: string;
  readonly number?: string;
  readonly help?: string;
  readonly note?: string;
  readonly url?: string;
  readonly labels: readonly Label[];
  /** The report with both parts of a code, like `eslint` and `no-undef`. Neither may be empty. */
  code(scope: string, number: string): Report;
  /** The report with one more label. */
  label(start: number, end: number, text?: string): Report;
  /** The report with one more label, the primary one. */
  primary(start: number, end: number, text?: string): Report;
  /** The report with one more label. */
  withLabel(label: Label): Report;
}

/**
 * The files that reports are on, and the unit in which labels count. They are laid out once and drawn from often: a draw
 * adds only the texts of the reports.
 */
export declare class Sources {
  /** The unit is `Unit.bytes`, unless it is given. */
  constructor(unit?: Unit);
  readonly unit: Unit;
  /** How many files there are. */
  readonly length: number;
  /** Adds a file, and returns its index, by which reports name it: 0 for the first. */
  add(name: string, source: string): number;
}

/** Why nothing was drawn. Files, reports and labels are named by their indices, from 0. */
export declare class DrawError extends Error {
  readonly kind:
    | 'wrongFile' | 'wrongReport' | 'wrongLook' | 'wrongAbi' | 'noDocument' | 'unknownFile' | 'noPlace' | 'endBeforeStart'
    | 'outOfMemory';
  readonly file?: number;
  readonly report?: number;
  readonly label?: number;
  /** With `noPlace`: whether it is the label's end, and not its start. */
  readonly atEnd?: boolean;
  /** With `endBeforeStart`: where the label starts, in the unit of the sources, of a document in bytes. */
  readonly start?: number;
  readonly end?: number;
}

/** The drawings of reports, one after another. Throws a DrawError that names the first that is wrong. */
export declare function draw(sources: Sources, reports: readonly Report[], look?: Look): string;

/** A line of JSON for each report; spans in it are in bytes. Throws what `draw` throws. */
export declare function json(sources: Sources, reports: readonly Report[]): string;

/** The drawings of the reports of a document: JSON, whose keys are in docs/DOCUMENT.md of the repository. */
export declare function drawDocument(document: string | Uint8Array, look?: Look): string;

/** A line of JSON for each report of a document. Throws what `drawDocument` throws. */
export declare function jsonDocument(document: string | Uint8Array): string;

/** The version of the library: major, minor and patch. */
export declare function version(): [number, number, number];
