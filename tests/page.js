// Runs the script of pages of ./grs-picture without a browser, over a document that keeps what is written into it, and answers what stands there.
// It reads from standard input {script, pages: [data of a page], used: {title, data, script}}, and writes {pages: [{states, table, wrong, verdict,
// sum, widths, dark}], used: what the other script, which uses the page, has looked at}. Each letter is 7 points wide here.
"use strict";
const vm = require("vm");

class Element {
  constructor(tag, drawn) {
    Object.assign(this, { tag, drawn, own: "", children: [], style: {}, dataset: {}, heard: {}, attributes: {}, clientWidth: 700, clientHeight: 400, scrollTop: 0 });
  }
  get textContent() { return this.own + this.children.map(it => it.textContent ?? it).join(""); }
  set textContent(text) { this.own = text; this.children = []; }
  append(...all) { this.children.push(...all); }
  replaceChildren(...all) { this.own = ""; this.children = all; }
  setAttribute(name, value) { this.attributes[name] = value; }
  addEventListener(name, act) { this.heard[name] = act; }
  getBoundingClientRect() {
    const left = parseFloat(this.style.left) || 0, top = parseFloat(this.style.top) || 0;
    return { left, top, right: left + this.offsetWidth, bottom: top + this.offsetHeight };
  }
  get offsetWidth() { return Math.min(520, 7 * this.textContent.length); }
  get offsetHeight() { return 20; }
  click() { this.onclick(); }
  dispatchEvent(event) {
    event.target = this;
    this.heard[event.type]?.(event);
    if (event.bubbles && this.above) this.above.heard[event.type]?.(event);
  }
  getContext() {
    const drawn = this.drawn, kept = {};
    return new Proxy(kept, { get: (_, name) => ({
      measureText: text => ({ width: 7 * String(text).length }),
      fillText: (text, x, y) => drawn.push({ text: String(text), x, y, width: 7 * String(text).length, colour: kept.fillStyle }),
    })[name] ?? (name in kept ? kept[name] : () => "") });
  }
}

class Happened {
  constructor(type, said) { Object.assign(this, { type, deltaX: 0, deltaY: 0, preventDefault() {} }, said); }
}

function opened(script, data, title) {
  const elements = {}, drawn = [], dark = new Element("dark"), window = new Element("window");
  dark.matches = false;
  const document = { title, body: new Element("body"), createElement: tag => new Element(tag, []), getElementById: id => elements[id] ??= Object.assign(new Element(id, drawn), { above: window }) };
  document.getElementById("run").textContent = JSON.stringify(data);
  const page = vm.createContext({ document, location: { hash: "" }, matchMedia: () => dark, innerWidth: 700, innerHeight: 900, devicePixelRatio: 1,
                                  addEventListener: (name, act) => window.addEventListener(name, act), KeyboardEvent: Happened, PointerEvent: Happened, WheelEvent: Happened });
  page.window = page;
  vm.runInContext(script, page);
  return { document, page, drawn, dark };
}

function looked(script, data) {
  const { document, page, drawn, dark } = opened(script, data, "a run");
  const of = text => vm.runInContext(text, page), view = document.getElementById("view");
  // what is written at a width, and where the labels of commands stand among it
  const at = wide => {
    view.clientWidth = wide;
    of("limit(0, shown.length)");
    drawn.length = 0;
    of("draw()");
    const texts = [...drawn], desk = data.desk.map(it => it.what);
    return { wide, texts, commands: texts.filter(it => desk.includes(it.text)) };
  };
  const states = data.events.map((_, event) => of(`stateAt(${event + 1})`));
  const table = document.getElementById("table").children.map(row => row.children.map(cell => cell.textContent));
  const widths = [360, 1300].map(at), ink = of("colours.ink");
  dark.matches = true;
  dark.heard.change();
  // what is marked as what can't stand, in both views
  const wrong = ["ofTasks()", "ofLists()"].map(it => of(it).rows.flatMap(row => row.boxes.filter(box => box[2] === "wrong").map(box => [row.full, box[0], box[1], box[5]])));
  return { states, table, wrong, verdict: document.getElementById("verdict").textContent, sum: document.getElementById("sum").textContent, widths, dark: [ink, of("colours.ink"), at(700).texts.map(it => it.colour)] };
}

const { script, pages, used } = JSON.parse(require("fs").readFileSync(0, "utf8"));
const { document } = opened(script + used.script, used.data, used.title);
process.stdout.write(JSON.stringify({ pages: pages.map(data => looked(script, data)), used: JSON.parse(document.body.dataset.looked) }));
