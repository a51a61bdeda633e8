import girzohal from './index.js';

export const {
  DrawError, Report, Severity, Sources, Theme, Unit, draw, drawDocument, json, jsonDocument, version,
} = girzohal;
