// Serves the pages record.html and hound.html on this computer alone.
import { readFile } from "node:fs/promises";
import { createServer } from "node:http";

// Recordings belong to the address with its port, so the port is always the same one unless another is given.
export const USUAL_PORT = 8416;
const ADDRESS = "127.0.0.1";
const PAGES = ["record.html", "hound.html"];
const HEADERS = {
  "Content-Security-Policy": "frame-ancestors 'none'", // Each page has the rest of its policy in itself.
  "Permissions-Policy": "microphone=(self)",
  "X-Content-Type-Options": "nosniff",
  "Referrer-Policy": "no-referrer",
  "Cross-Origin-Opener-Policy": "same-origin",
  "Cross-Origin-Resource-Policy": "same-origin",
  "Cache-Control": "no-cache",
};

/** The status, the headers and the text that answer a request. */
function answerTo({ method, url, headers }, host, pages) {
  // A page of another site whose name leads to this computer sends its own name.
  if (headers.host !== host) return [421, {}, `This is http://${host}/record.html alone.\n`];
  if (!["GET", "HEAD"].includes(method)) return [405, { Allow: "GET, HEAD" }, "Only GET and HEAD are answered.\n"];
  if (url === "/") return [302, { Location: "/record.html" }, ""];
  const page = pages.get(url);
  return page ? [200, { "Content-Type": "text/html; charset=utf-8" }, page] : [404, {}, "There is no such page.\n"];
}

/** Serves the pages at a port, and returns the server once it listens. */
export async function serve(port = USUAL_PORT) {
  const texts = PAGES.map((name) => readFile(new URL(`page/${name}`, import.meta.url)));
  const pages = new Map((await Promise.all(texts)).map((text, i) => [`/${PAGES[i]}`, text]));
  const server = createServer((request, response) => {
    const host = `${ADDRESS}:${server.address().port}`, [status, headers, body] = answerTo(request, host, pages);
    const length = Buffer.byteLength(body);
    response.writeHead(status, { "Content-Type": "text/plain", ...HEADERS, ...headers, "Content-Length": length });
    response.end(body); // Node sends none for HEAD.
  });
  await new Promise((resolve, reject) => server.once("error", reject).listen(port, ADDRESS, resolve));
  return server;
}
