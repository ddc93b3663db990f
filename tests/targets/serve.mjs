// Serves the repository to a page on this machine, and keeps what the page tells it in files of a folder, by their names. It writes
// its address to a file there and ends when the page is told to be at its end: well, if that has nothing to tell.
//   node tests/targets/serve.mjs FOLDER
import { readFile, writeFile } from 'node:fs/promises';
import { createServer } from 'node:http';
import { extname, join } from 'node:path';

const folder = process.argv[2];
const types = { '.html': 'text/html', '.mjs': 'text/javascript', '.wasm': 'application/wasm' };

async function body(request) {
  const parts = [];
  for await (const part of request) parts.push(part);
  return Buffer.concat(parts);
}

async function told(name, bytes) {
  if (name === '/end') {
    process.stderr.write(bytes);
    process.exitCode = bytes.length === 0 ? 0 : 1;
    server.close();
    server.closeAllConnections();
    return;
  }
  await writeFile(join(folder, name), bytes);
}

async function answer(request, response) {
  const { pathname } = new URL(request.url, 'http://localhost');
  if (request.method === 'POST') {
    await told(pathname, await body(request));
    response.end();
    return;
  }
  const bytes = await readFile(join('.', pathname));
  response.setHeader('Content-Type', types[extname(pathname)] ?? 'text/plain');
  response.end(bytes);
}

const server = createServer((request, response) => {
  answer(request, response).catch((error) => {
    response.statusCode = 404;
    response.end(String(error));
  });
});
server.listen(0, '127.0.0.1', () => writeFile(join(folder, 'address'), `http://127.0.0.1:${server.address().port}\n`));
