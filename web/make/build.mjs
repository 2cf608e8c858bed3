// Makes the page, one html file that needs no network: build.mjs --module hivebasket.wasm --out page.html, or with --check says whether a page is old.
// The same bytes come out on every machine: nothing of the machine, the day or the order of a folder goes in.
import { execFileSync } from 'node:child_process';
import { createHash } from 'node:crypto';
import { existsSync, mkdirSync, readdirSync, readFileSync, writeFileSync } from 'node:fs';
import { dirname, join, relative } from 'node:path';
import { fileURLToPath } from 'node:url';

const web = dirname(dirname(fileURLToPath(import.meta.url))), src = join(web, 'src'), libraries = '/usr/share/javascript';
const STYLES = ['base', 'flight', 'flights', 'sheet'];
const word = name => { const k = process.argv.indexOf(name); return k < 0 ? '' : process.argv[k + 1]; };
const moduleFile = word('--module'), out = word('--out');
const sha256 = bytes => createHash('sha256').update(bytes).digest();

// ---- what the page is made of

/** All files below a directory, by their paths, in the order of bytes. */
const below = dir => readdirSync(dir, { withFileTypes: true }).flatMap(e => (e.isDirectory() ? below(join(dir, e.name)) : [join(dir, e.name)])).sort();
const sources = [...below(src), ...below(join(web, 'licences')), join(web, 'make', 'build.mjs')].map(p => relative(web, p)).sort();
const sums = {
  sources: sha256(sources.map(p => `${sha256(readFileSync(join(web, p))).toString('hex')}  ${p}\n`).join('')).toString('hex'),
  module: existsSync(moduleFile) ? sha256(readFileSync(moduleFile)).toString('hex') : '',
};

if (process.argv.includes('--check')) {
  const page = existsSync(out) ? readFileSync(out, 'utf8') : '', told = JSON.parse(/id="sums-data">([^<]*)</.exec(page)?.[1] ?? '{}');
  const old = ['sources', 'module'].filter(k => sums[k] !== '' && told[k] !== sums[k]);
  if (sums.module === '') console.log('web/build: no module is built, so that only the sources of the page were compared');
  if (old.length) { console.log(`web/build: ${page ? 'dist/hivebasket.html is old: other' : 'there is no dist/hivebasket.html: no'} ${old.join(' and ')}; make it by web/build --dist`); process.exit(1); }
  process.exit(0);
}

// ---- its parts

const wasm = readFileSync(moduleFile), module = new WebAssembly.Module(wasm);
if (WebAssembly.Module.imports(module).length) throw new Error('the module wants imports; it must stand alone');
const given = new Set(WebAssembly.Module.exports(module).map(e => e.name));
const called = sources.filter(p => p.endsWith('.js')).flatMap(p => readFileSync(join(web, p), 'utf8').match(/(?<=['.])hive_\w+(?=['(])/g) ?? []);
const absent = [...new Set(called)].filter(name => !given.has(name)).sort();
if (absent.length) {
  console.error(`web/build: ${moduleFile} is too old for this page: it has no ${absent.join(', ')}`);
  process.exit(1);
}
const esbuild = (words, input) => execFileSync('esbuild', [...words, '--minify', '--charset=utf8', '--legal-comments=none', '--log-level=warning'],
  { input, encoding: 'utf8', maxBuffer: 1 << 26 }).trim();
const bundle = (entry, words = []) => esbuild([join(src, entry), '--bundle', '--format=iife', '--target=es2022', ...words]);
const css = text => esbuild(['--loader=css'], text);
const library = name => readFileSync(join(libraries, name), 'utf8');

const worker = bundle('reading/worker.js');
const main = bundle('main.js', [`--alias:dygraphs=${join(libraries, 'dygraphs/dygraph.min.js')}`,
  `--alias:leaflet=${join(libraries, 'leaflet/leaflet.esm.js')}`]);
const style = css(library('leaflet/leaflet.css').replace(/url\([^)]*\)/g, 'none')) // its pictures are not used
  + css(library('dygraphs/dygraph.css').replace(/\/\*# sourceMappingURL[^]*?\*\//g,
    '')) + css(STYLES.map(s => readFileSync(join(src, 'style', `${s}.css`), 'utf8')).join('\n'));
const licences = ['leaflet', 'dygraphs'].map(n => `${n}, as Debian has it\n\n${readFileSync(join(web, 'licences', `${n}.txt`), 'utf8')}`).join('\n\n');
if (/<\/script|<!--/i.test(licences)) throw new Error('a licence with markup');
const script = main.replace(/<\/script/gi, '<\\/script').replace(/<!--/g, '<\\!--');

// ---- the policy: no network at all, this script and this style alone

const hash = text => `'sha256-${sha256(text).toString('base64')}'`;
const policy = [
  "default-src 'none'", `script-src ${hash(script)} 'wasm-unsafe-eval'`, `style-src ${hash(style)}`, 'worker-src blob:',
  "connect-src 'none'", "img-src 'none'", "base-uri 'none'", "form-action 'none'", "require-trusted-types-for 'script'", 'trusted-types default',
].join('; ');

const parts = { POLICY: policy, STYLE: style, WASM: wasm.toString('base64'), WORKER: JSON.stringify(worker).replace(/</g, '\\u003c'),
  SUMS: JSON.stringify(sums), LICENCES: licences, MAIN: script };
const page = readFileSync(join(src, 'page.html'), 'utf8').replace(/@(POLICY|STYLE|WASM|WORKER|SUMS|LICENCES|MAIN)@/g, (_, k) => parts[k]);
mkdirSync(dirname(out), { recursive: true });
writeFileSync(out, page);
const size = Object.entries({ module: parts.WASM, worker, page: script, style, licences }).map(([k, v]) => `${k} ${Buffer.byteLength(v)}`).join(', ');
console.log(`web/build: ${relative(process.cwd(), out)}: ${Buffer.byteLength(page)} bytes (${size})`);
