'use strict';
/* Compiles the part in C, with the C compiler only.
 *
 * usage: node build.js [--arch x64|arm64]
 *
 * CC is the compiler, and GIRZOHAL_LIB the folder of libgirzohal.a; without it pkg-config finds that. The result is
 * prebuilt/linux-ARCH/girzohal.node, or what GIRZOHAL_NODE names. Node's headers are those beside this Node, or in the
 * folder NODE_HEADERS. */

const { execFileSync } = require('node:child_process');
const fs = require('node:fs');
const path = require('node:path');

const COMPILERS = { x64: 'cc', arm64: process.arch === 'arm64' ? 'cc' : 'aarch64-linux-gnu-gcc' };

function fail(why) {
  console.error(`girzohal: ${why}`);
  process.exit(1);
}

function pkgConfig(variable) {
  try {
    return execFileSync('pkg-config', [`--variable=${variable}`, 'girzohal'], { stdio: ['ignore', 'pipe', 'ignore'] }).toString().trim();
  } catch {
    return fail('there is no libgirzohal.a: let GIRZOHAL_LIB name its folder, or install the C library, so that pkg-config finds it');
  }
}

/** The first folder that has a file. */
function folderOf(file, folders, hint) {
  return folders.find((folder) => folder && fs.existsSync(path.join(folder, file))) || fail(`there is no ${file}: ${hint}`);
}

const [option, given] = process.argv.slice(2);
const arch = option === '--arch' ? given : process.arch;
if (process.argv.length > 2 && option !== '--arch') fail('usage: node build.js [--arch x64|arm64]');
if (!(arch in COMPILERS)) fail(`there is no library for ${arch}, only for x64 and arm64`);

const library = folderOf('libgirzohal.a', [process.env.GIRZOHAL_LIB || pkgConfig('libdir')], 'GIRZOHAL_LIB has to name its folder');
const headers = folderOf(
  'node_api.h',
  [process.env.NODE_HEADERS, path.resolve(process.execPath, '../../include/node')],
  'NODE_HEADERS has to name the folder of the headers of Node',
);
const header = folderOf('girzohal.h', [__dirname, path.join(__dirname, '../c')], 'it has to be beside build.js');
const out = process.env.GIRZOHAL_NODE || path.join(__dirname, 'prebuilt', `linux-${arch}`, 'girzohal.node');
fs.mkdirSync(path.dirname(out), { recursive: true });
execFileSync(
  process.env.CC || COMPILERS[arch],
  [
    '-O2', '-Wall', '-Wextra', '-fPIC', '-shared', `-I${headers}`, `-I${header}`, '-o', out,
    path.join(__dirname, 'girzohal_node.c'), path.join(library, 'libgirzohal.a'),
  ],
  { stdio: 'inherit' },
);
console.log(path.relative(process.cwd(), out));
