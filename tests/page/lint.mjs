// A linter for the modules of web/, by node alone: each is a module that parses; what it imports is there and used, what it declares at its top is used or
// exported, what it exports is imported by somebody; and some words do not stand in it.
//
//     node --experimental-vm-modules --no-warnings tests/page/lint.mjs            a line for each thing that is wrong, and status 1
import { readFileSync, readdirSync } from 'node:fs';
import { dirname, join, posix } from 'node:path';
import { fileURLToPath } from 'node:url';
import { SourceTextModule } from 'node:vm';

const ROOT = join(dirname(fileURLToPath(import.meta.url)), '../..');
const WEB = join(ROOT, 'web');
// tools/page writes these
const WRITTEN = new Set(['numbers.js', 'answers.js', 'teaching.js', 'alltexts.js']);
// what a student begins with: the page calls its function
const BEGUN = new Set(['template.js']);

const WORDS = [
  [/\bvar\b/, 'var: say const or let'],
  [/[^=!]==[^=]|!=[^=]/, '== or !=: say === or !=='],
  [/\beval\b|\bnew Function\b/, 'code made of text'],
  [/\binnerHTML\b|\bouterHTML\b|\bdocument\.write\b|\binsertAdjacentHTML\b/, 'markup made of text: make elements'],
  [/\bdebugger\b|\bconsole\./, 'left from a search for a mistake'],
  [/\bfetch\s*\(|\bXMLHttpRequest\b|\bWebSocket\b|\bimportScripts\b/, 'the page needs no network'],
];

const problems = [];
const wrong = (name, what) => problems.push(`web/${name}: ${what}`);

const names = readdirSync(WEB, { recursive: true }).map((name) => name.split('\\').join('/')).filter((name) => name.endsWith('.js')).sort();
const texts = new Map(names.map((name) => [name, readFileSync(join(WEB, name), 'utf8')]));

// The code without its comments, and without the contents of its strings but for what a template computes.
function plain(text) {
  const parts = /\/\*[\s\S]*?\*\/|\/\/[^\n]*|'(?:[^'\\\n]|\\.)*'|"(?:[^"\\\n]|\\.)*"/g;
  return text.replace(parts, (part) => (part.startsWith('/') ? ' ' : "''"));
}

const count = (code, name) => code.match(new RegExp(`(?<![\\w$]|(?<!\\.\\.)\\.)${name.replaceAll('$', '\\$')}(?![\\w$])`, 'g'))?.length ?? 0;

const exported = new Map();
for (const [name, text] of texts) {
  exported.set(name, new Set([...text.matchAll(/^export (?:async )?(?:function\*?|class|const|let) ([A-Za-z_$][\w$]*)/gm)].map((found) => found[1])));
}

// ---- each module
const taken = new Set();
for (const [name, text] of texts) {
  try {
    new SourceTextModule(text);
  } catch (why) {
    wrong(name, `does not parse: ${why.message}`);
    continue;
  }
  const code = plain(text.replace(/^import [\s\S]*?;\n/gm, ''));
  for (const [, list, from] of text.matchAll(/^import \{([^}]*)\} from '([^']*)';$/gm)) {
    const other = posix.normalize(posix.join(posix.dirname(name), from));
    for (const part of list.split(',').map((word) => word.trim()).filter(Boolean)) {
      const [theirs, , ours = theirs] = part.split(/\s+/);
      taken.add(`${other} ${theirs}`);
      if (!WRITTEN.has(other) && !exported.get(other)?.has(theirs)) wrong(name, `imports ${theirs}, which ${from} does not export`);
      if (count(code, ours) === 0) wrong(name, `imports ${ours} and does not use it`);
    }
  }
  for (const [, own] of text.matchAll(/^(?:async )?(?:function\*?|class|const|let) ([A-Za-z_$][\w$]*)/gm)) {
    if (count(code, own) < 2 && !BEGUN.has(name)) wrong(name, `declares ${own} and does not use it`);
  }
  for (const [word, why] of WORDS) {
    if (word.test(code)) wrong(name, why);
  }
}

// ---- what nobody imports, in web/ or in the tests
const beside = readdirSync(join(ROOT, 'tests/page')).filter((name) => name.endsWith('.mjs')).map((name) => readFileSync(join(ROOT, 'tests/page', name), 'utf8')).join('\n');
for (const [name, own] of exported) {
  for (const what of own) {
    const used = taken.has(`${name} ${what}`) || (name === 'main.js' && what === 'start') || count(beside, what) > 0 || count(plain(texts.get(name)), what) > 1;
    if (!used) wrong(name, `exports ${what}, which nobody imports`);
  }
}

for (const problem of problems) process.stdout.write(`${problem}\n`);
process.exitCode = problems.length > 0 ? 1 : 0;
