// The command that serves the pages: what it answers, and to whom.
import assert from "node:assert/strict";
import { spawn } from "node:child_process";
import { readFileSync } from "node:fs";
import { request } from "node:http";
import { connect } from "node:net";
import { fileURLToPath } from "node:url";
import { test } from "node:test";
import { serve } from "../serve.js";

const COMMAND = fileURLToPath(new URL("../command.js", import.meta.url));

/** A server that ends with the test, at a port that is free. */
async function served(t) {
  const server = await serve(0);
  t.after(() => server.close());
  return server.address().port;
}

/** The answer to a request. */
function answer(port, path, { method = "GET", host = `127.0.0.1:${port}` } = {}) {
  return new Promise((resolve, reject) => {
    const sent = request({ port, path, method, host: "127.0.0.1", headers: { host }, agent: false }, (response) => {
      const parts = [];
      response.on("data", (part) => parts.push(part));
      const { statusCode: status, headers } = response;
      response.on("end", () => resolve({ status, headers, body: Buffer.concat(parts) }));
    });
    sent.on("error", reject).end();
  });
}

/** What a command prints, and its status. */
function run(...words) {
  const child = spawn(process.execPath, [COMMAND, ...words]);
  let text = "";
  for (const stream of [child.stdout, child.stderr]) stream.on("data", (part) => { text += part; });
  return new Promise((resolve) => child.on("close", (status) => resolve({ status, text })));
}

test("the pages are served as they are", async (t) => {
  const port = await served(t);
  for (const name of ["record.html", "hound.html"]) {
    const { status, headers, body } = await answer(port, `/${name}`);
    assert.equal(status, 200);
    assert.deepEqual(body, readFileSync(new URL(`../page/${name}`, import.meta.url)));
    assert.equal(headers["content-type"], "text/html; charset=utf-8");
    assert.equal(headers["content-security-policy"], "frame-ancestors 'none'");
    assert.equal(headers["x-content-type-options"], "nosniff");
    assert.equal(headers["permissions-policy"], "microphone=(self)");
    assert.equal(Number(headers["content-length"]), body.length);
    const head = await answer(port, `/${name}`, { method: "HEAD" });
    assert.deepEqual([head.status, head.headers["content-length"], head.body.length], [200, String(body.length), 0]);
  }
  const start = await answer(port, "/");
  assert.deepEqual([start.status, start.headers.location], [302, "/record.html"]);
});

test("nothing else is served", async (t) => {
  const port = await served(t);
  const paths = ["/command.js", "/page/record.html", "/../package.json", "/%2e%2e/package.json", "//record.html",
    "/record.html/", "/record.html?", "/Record.html", "/constructor"];
  for (const path of paths) assert.equal((await answer(port, path)).status, 404, path);
  for (const method of ["POST", "PUT", "DELETE", "OPTIONS"]) {
    const { status, headers } = await answer(port, "/record.html", { method });
    assert.deepEqual([status, headers.allow], [405, "GET, HEAD"], method);
  }
});

test("a request by another name is rejected", async (t) => {
  const port = await served(t);
  const others = ["example.org", `example.org:${port}`, `localhost:${port}`, "127.0.0.1", `127.0.0.1:${port + 1}`];
  for (const host of others) {
    const { status, body } = await answer(port, "/record.html", { host });
    assert.equal(status, 421, host);
    assert.equal(String(body), `This is http://127.0.0.1:${port}/record.html alone.\n`);
  }
});

test("no other address is listened at", { skip: process.platform !== "linux" }, async (t) => {
  const port = await served(t), socket = connect(port, "127.0.0.2");
  const error = await new Promise((resolve) => socket.on("error", resolve).on("connect", resolve));
  assert.equal(error?.code, "ECONNREFUSED");
});

test("a port that is in use, and words that are wrong", async (t) => {
  const port = await served(t), text = (await run("serve", "--port", port)).text;
  assert.equal(text, `port ${port} is in use: if this command has it already, open http://127.0.0.1:${port}/record.html; ` +
    "else choose another one by --port\n");
  assert.equal((await run("serve", "--port", port)).status, 1);
  const wrong = [["x"], ["--port"], ["--port", "0"], ["--port", "65536"], ["--port", "1", "x"], ["--rate", "1"]];
  for (const words of wrong) {
    const { status, text } = await run("serve", ...words);
    assert.equal(status, 2, words.join(" "));
    assert.match(text, /^usage: /);
  }
});
