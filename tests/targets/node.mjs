// The wrapper's own checks and the stored requests in node. The answers go to standard output.
import { readFile } from 'node:fs/promises';
import { open } from '../../target/wasm64/hemotusap.mjs';
import { replay } from './replay.mjs';
import { check } from './wrapper.mjs';

const file = (name, encoding) => readFile(new URL(`../../${name}`, import.meta.url), encoding);

await check(await file('target/wasm64/hemotusap.wasm'));
process.stdout.write(replay(await open(), await file('crates/requests/stdin', 'utf8')));
