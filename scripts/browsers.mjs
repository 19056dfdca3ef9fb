// Chromium and Firefox, driven by their protocols, for try_browser.mjs and try_recording.mjs.
import {spawn, spawnSync} from "node:child_process";
import fs from "node:fs";
import os from "node:os";
import path from "node:path";
import {pathToFileURL} from "node:url";

// How many milliseconds an answer may take. A browser was seen to give none, and a test has to end then, too.
const PATIENCE = 300000;

/** Requests with a number each, and the answers to them. */
function conversation(write) {
  const pending = new Map();
  let id = 0;
  return {
    send: (method, params = {}, sessionId = undefined) => new Promise((resolve, reject) => {
      const timer = setTimeout(() => reject(new Error(`the browser doesn't answer ${method}`)), PATIENCE).unref();
      pending.set(++id, {resolve, reject, timer});
      write(JSON.stringify({id, method, params, sessionId}));
    }),
    take({id, result, error, message}) {
      const {resolve, reject, timer} = pending.get(id);
      clearTimeout(timer);
      pending.delete(id);
      error ? reject(new Error(JSON.stringify(message ?? error))) : resolve(result);
    },
    end: () => pending.forEach(({reject}) => reject(new Error("the browser ended"))),
  };
}

// An expression whose value comes as text from either browser.
const asText = (expression) => `(async () => JSON.stringify(await (${expression}) ?? null))()`;
const exit = (child) => child.exitCode !== null || new Promise((resolve) => child.on("exit", resolve));

// Of the page: where the middle of an element is, after it is scrolled into the window.
const middleOf = (selector) => `(() => {
  const node = document.querySelector(${JSON.stringify(selector)});
  node.scrollIntoView({ block: "center" });
  const { x, y, width, height } = node.getBoundingClientRect();
  return { x: x + width / 2, y: y + height / 2 };
})()`;

/**
 * Chromium, by its protocol over a pipe, with a profile of its own: its first tab. Files are saved in a folder. A
 * script in `preload` is run in each tab before those of the page.
 */
export async function chromium({profile, saved, flags = [], preload = "", detached = false, onStart = () => {}}) {
  const all = [
    "--headless=new", "--no-sandbox", "--disable-gpu", "--remote-debugging-pipe", `--user-data-dir=${profile}`,
    ...flags, "about:blank"
  ];
  const child = spawn("chromium", all, {detached, stdio: ["ignore", "ignore", "ignore", "pipe", "pipe"]});
  onStart(child);
  for (const pipe of [child.stdio[3], child.stdio[4]]) pipe.on("error", () => {}); // It may be killed.
  const {send, take, end} = conversation((message) => child.stdio[3].write(message + "\0")), events = [];
  const browser = {onLine: () => {}}; // It gets what the pages write to their consoles.
  const hear = (event) => {
    events.push(event);
    if (event.method === "Runtime.consoleAPICalled") browser.onLine(String(event.params.args[0]?.value));
  };
  let held = "";
  child.stdio[4].setEncoding("utf8").on("data", (part) => {
    const messages = (held + part).split("\0");
    held = messages.pop();
    for (const message of messages.map((one) => JSON.parse(one))) message.id ? take(message) : hear(message);
  });
  child.on("exit", end);
  await send("Browser.setDownloadBehavior", {behavior: "allow", downloadPath: saved});
  Object.assign(browser, await chromiumTab(send, preload), {
    child,
    send,
    name: (await send("Browser.getVersion")).product,
    reports: () =>
      events.filter(({method, params}) => method === "Runtime.exceptionThrown" || method === "Log.entryAdded" ||
          method === "Network.requestWillBeSent" && !/^(file|blob|data):/.test(params.request.url)),
    async close() {
      await send("Browser.close").catch(() => {});
      await exit(child);
    },
    another: async () => ({...browser, ...await chromiumTab(send, preload)}),
  });
  return browser;
}

async function chromiumTab(send, preload) {
  const {targetId} = await send("Target.createTarget", {url: "about:blank"});
  const {sessionId} = await send("Target.attachToTarget", {targetId, flatten: true});
  const call = (method, params) => send(method, params, sessionId);
  for (const domain of ["Page", "Runtime", "Log", "DOM", "Network"]) await call(`${domain}.enable`);
  if (preload) await call("Page.addScriptToEvaluateOnNewDocument", {source: preload});
  const evaluate = async (expression) => {
    const {result, exceptionDetails} =
      await call("Runtime.evaluate", {expression: asText(expression), awaitPromise: true, returnByValue: true});
    if (exceptionDetails) throw new Error(JSON.stringify(exceptionDetails));
    return JSON.parse(result.value);
  };
  return {
    call,
    evaluate,
    show: (url) => call("Page.navigate", {url}),
    async choose(...files) {
      const {root} = await call("DOM.getDocument");
      const {nodeId} = await call("DOM.querySelector", {nodeId: root.nodeId, selector: "input"});
      await call("DOM.setFileInputFiles", {nodeId, files});
    },
    async drop(...files) {
      const {x, y} = await evaluate(middleOf("#drop")), data = {items: [], files, dragOperationsMask: 1};
      for (const type of ["dragEnter", "dragOver", "drop"]) await call("Input.dispatchDragEvent", {type, x, y, data});
    },
    async click(selector) {
      const {x, y} = await evaluate(middleOf(selector));
      for (const type of ["mousePressed", "mouseReleased"])
        await call("Input.dispatchMouseEvent", {type, x, y, button: "left", clickCount: 1});
    },
    async wheel(selector, deltaY) {
      const {x, y} = await evaluate(middleOf(selector));
      await call("Input.dispatchMouseEvent", {type: "mouseWheel", x, y, deltaX: 0, deltaY, modifiers: 2});
    },
    resize: (width, height = 900, deviceScaleFactor = 2) =>
      call("Emulation.setDeviceMetricsOverride", {width, height, deviceScaleFactor, mobile: width < 500}),
    schemes: ["light", "dark"],
    setScheme: (value) => call("Emulation.setEmulatedMedia", {features: [{name: "prefers-color-scheme", value}]}),
    picture: async () => (await call("Page.captureScreenshot", {format: "png"})).data
  };
}

// The Python that Debian's python3-gi is for, and a window in the corner of the display, from which it lets a file be
// dragged.
const PYTHON = "/usr/bin/python3", SOURCE = `
import sys, gi
gi.require_version("Gtk", "3.0")
from gi.repository import Gdk, Gtk
window, box = Gtk.Window(type=Gtk.WindowType.POPUP), Gtk.EventBox()
box.set_size_request(60, 60)
box.drag_source_set(Gdk.ModifierType.BUTTON1_MASK, [], Gdk.DragAction.COPY)
box.drag_source_add_uri_targets()
box.connect("drag-data-get", lambda box, context, data, kind, time: data.set_uris([sys.argv[1]]))
box.connect("drag-end", Gtk.main_quit)
window.connect("map-event", lambda window, event: print("shown", flush=True))
window.add(box)
window.show_all()
Gtk.main()
`;

/**
 * A display that nobody sees, if its programs are here: its environment, and how a file is dragged to a place of it.
 */
async function display() {
  const programs =
    [["Xvfb", "-help"], ["xdotool", "--help"], [PYTHON, "-c", "import gi; gi.require_version('Gtk', '3.0')"]];
  if (programs.some(([program, ...words]) => spawnSync(program, words).status !== 0)) return null;
  const child =
    spawn("Xvfb", ["-displayfd", "3", "-screen", "0", "1280x1024x24"], {stdio: ["ignore", "ignore", "ignore", "pipe"]});
  const number = await new Promise((resolve) => child.stdio[3].once("data", (data) => resolve(String(data).trim())));
  const env = {...process.env, DISPLAY: `:${number}`, GDK_BACKEND: "x11"};
  return {
    env,
    close: () => child.kill(),
    async drag(file, {x, y}) {
      const source =
        spawn(PYTHON, ["-c", SOURCE, pathToFileURL(file).href], {env, stdio: ["ignore", "pipe", "ignore"]});
      await new Promise((resolve, reject) => (source.stdout.once("data", resolve),
                          source.once("exit", () => reject(new Error("nothing to drag from is shown")))));
      const wait = ["sleep", "0.1"], steps = [[30, 30], [50, 50], [x - 5, y - 5],
        [x, y]].map((place) => ["mousemove", ...place.map(Math.round), ...wait]);
      spawnSync("xdotool",
        [...steps[0], "mousedown", 1, ...wait, ...steps.slice(1).flat(), ...wait, "mouseup", 1].map(String), {env});
      await exit(source);
    },
  };
}

// What Firefox is set to: files are saved without a question.
const FIREFOX = {
  "browser.download.folderList": 2,
  "browser.download.useDownloadDir": true,
  "browser.download.alwaysOpenPanel": false
};

/**
 * Firefox, by WebDriver BiDi, with a profile of its own, on a display where files are dragged. Files are saved in a
 * folder. A function in `preload` is called in each tab before the scripts of the page.
 */
export async function firefox(
  {profile, saved, settings = {}, preload = "", hasDisplay = true, detached = false, onStart = () => {}}) {
  const events = [], all = {...FIREFOX, "browser.download.dir": saved, ...settings};
  const browser = {onLine: () => {}}; // It gets what the pages write to their consoles.
  const hear = (event) => {
    events.push(event);
    if (event.method === "log.entryAdded") browser.onLine(event.params.text);
  };
  fs.mkdirSync(profile, {recursive: true});
  fs.writeFileSync(path.join(profile, "user.js"),
    Object.entries(all).map(([name, value]) => `user_pref("${name}", ${JSON.stringify(value)});\n`).join(""));
  const screen = hasDisplay ? await display() : null;
  if (hasDisplay && !screen) {
    console.log("page: passed over, since Xvfb, xdotool or GTK for Python isn't here: drops in Firefox");
  }
  const flags =
    [...(screen ? [] : ["--headless"]), "--remote-debugging-port", "0", "--profile", profile, "--no-remote"];
  const child = spawn(
    "firefox-esr", flags,
    {detached, stdio: ["ignore", "ignore", "pipe"], env: {...(screen ? screen.env : process.env), HOME: profile}});
  onStart(child);
  const url = await new Promise((resolve, reject) => {
    let all = "";
    child.stderr.on("data", (part) => {
      const found = (all += part).match(/WebDriver BiDi listening on (ws:\S+)/);
      if (found) resolve(found[1]);
    });
    child.on("exit", () => reject(new Error(all)));
  });
  const socket = new WebSocket(`${url}/session`);
  await new Promise((resolve, reject) => Object.assign(socket, {onopen: resolve, onerror: reject}));
  const {send, take, end} = conversation((message) => socket.send(message));
  socket.onmessage = ({data}) => {
    const message = JSON.parse(data);
    message.id ? take(message) : hear(message);
  };
  child.on("exit", end);
  const {capabilities} = await send("session.new", {capabilities: {}});
  await send("session.subscribe", {events: ["log.entryAdded", "network.beforeRequestSent"]});
  if (preload) await send("script.addPreloadScript", {functionDeclaration: preload});
  const {contexts: [{context}]} = await send("browsingContext.getTree");
  Object.assign(browser, firefoxTab(send, context, screen), {
    child,
    name: `${capabilities.browserName} ${capabilities.browserVersion}`,
    reports: () => events.filter(({method, params}) => method === "log.entryAdded" && params.level === "error" ||
        method === "network.beforeRequestSent" && params.context === context &&
          !/^(file|blob|data):/.test(params.request.url)),
    async close() {
      child.kill();
      await exit(child);
      screen?.close();
    },
    another: async () => {
      const {context: other} = await send("browsingContext.create", {type: "tab"});
      return {...browser, ...firefoxTab(send, other, screen)};
    },
  });
  return browser;
}

function firefoxTab(send, context, screen) {
  const raw = async (expression) => {
    const {type, result, exceptionDetails} =
      await send("script.evaluate", {expression, target: {context}, awaitPromise: true, resultOwnership: "root"});
    if (type !== "success") throw new Error(JSON.stringify(exceptionDetails));
    return result;
  };
  const evaluate = async (expression) => JSON.parse((await raw(asText(expression))).value);
  const act = (...actions) => send("input.performActions", {context, actions});
  const over = async (selector) => {
    await evaluate(middleOf(selector));
    const {sharedId} = await raw(`document.querySelector(${JSON.stringify(selector)})`);
    return {x: 0, y: 0, origin: {type: "element", element: {sharedId}}};
  };
  return {
    evaluate,
    show: (url) => send("browsingContext.navigate", {context, url, wait: "complete"}),
    async choose(...files) {
      const {origin: {element}} = await over("input");
      await send("input.setFiles", {context, element, files});
    },
    drop: screen && (async (file) => {
      const {x, y} = await evaluate(middleOf("#drop")),
                corner = await evaluate("({ x: mozInnerScreenX, y: mozInnerScreenY })");
      await evaluate("globalThis.isDropped = false, addEventListener('drop', () => isDropped = true, true)");
      // On a busy computer the window may not have seen the pointer yet when its button is released.
      for (let attempts = 0; attempts < 3 && !await evaluate("isDropped"); attempts++) {
        await screen.drag(file, {x: corner.x + x, y: corner.y + y});
        for (let i = 0; i < 50 && !await evaluate("isDropped"); i++) await pause(50);
      }
    }),
    click: async (selector) => act({
      type: "pointer",
      id: "mouse",
      actions: [
        {type: "pointerMove", ...await over(selector)}, {type: "pointerDown", button: 0}, {type: "pointerUp", button: 0}
      ]
    }),
    async wheel(selector, deltaY) {
      const key = (type) => ({type, value: "\uE009"}), pause = {type: "pause"};
      await act({type: "key", id: "keys", actions: [key("keyDown"), pause, key("keyUp")]}, {
        type: "wheel",
        id: "wheel",
        actions: [pause, {type: "scroll", ...await over(selector), deltaX: 0, deltaY}, pause]
      });
    },
    resize: (width) => send("browsingContext.setViewport", {context, viewport: {width, height: 900}}),
    schemes: ["light"],
    setScheme: () => {},
    picture: async () => (await send("browsingContext.captureScreenshot", {context})).data
  };
}

export const pause = (milliseconds) => new Promise((resolve) => setTimeout(resolve, milliseconds));

/** Calls something until it gives a value: for half a minute, and longer where more programs run than processors. */
export async function until(attempt) {
  const load = () => Math.max(1, 2 * os.loadavg()[0] / os.cpus().length);
  for (let waited = 0; waited < 30000 * load(); waited += 50) {
    const value = await attempt();
    if (value) return value;
    await pause(50);
  }
  return null;
}

/** The value of an expression of the page, once it is so. */
export async function once(browser, expression, what) {
  const value = await until(() => browser.evaluate(expression));
  if (!value) throw new Error(`not so in all the time that was given: ${what}`);
  return value;
}

export function must(holds, what) {
  if (!holds) throw new Error(what);
}

/** In the page: the texts whose contrast with what is under them is less than 4.5, by WCAG 2. */
export function contrasts() {
  const light = (color) => {
    const [r, g, b] = color.match(/\d+(\.\d+)?/g)
                        .map((n) => n / 255)
                        .map((n) => n <= 0.04045 ? n / 12.92 : ((n + 0.055) / 1.055) ** 2.4);
    return 0.2126 * r + 0.7152 * g + 0.0722 * b;
  };
  const under = (node) => {
    const color = getComputedStyle(node).backgroundColor;
    return color === "rgba(0, 0, 0, 0)" && node.parentElement ? under(node.parentElement) : color;
  };
  return [...document.querySelectorAll("main *")]
    .filter(
      (node) => node.checkVisibility() && [...node.childNodes].some((one) => one.nodeType === 3 && one.data.trim()))
    .filter((node) => {
      const [a, b] = [light(getComputedStyle(node).color), light(under(node))].sort((x, y) => y - x);
      return (a + 0.05) / (b + 0.05) < 4.5;
    })
    .map((node) => node.textContent.slice(0, 40));
}
