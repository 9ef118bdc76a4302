// ---- The core: the rows of a script's film, from the module. A script and its rows are bytes.
const examples = JSON.parse(find("examples").textContent);
const module = WebAssembly.compile(Uint8Array.from(atob(find("module").textContent), it => it.charCodeAt(0)));
let core = null, room = 1 << 20;
const sayings = { 1: "A machine has 16 to 4096 frames.", 2: "There is no memory for this film.", 3: "The script has more than 16,777,216 bytes." };
class NoFilm extends Error {}
// Adds a block of so many bytes to the list.
function roomFor(length, blocks) {
  const at = core.page_room(BigInt(length));
  if (at === 0n) throw new NoFilm(sayings[2]);
  blocks.push(at);
  return at;
}
// Memory is 64 bit, so that addresses are BigInts.
const bytesAt = (at, length) => new Uint8Array(core.memory.buffer, Number(at), length);
async function rowsOf(frames, script) {
  // (the module would get the low 32 bits of another number)
  if (!Number.isInteger(frames) || frames < 0 || frames >= 2 ** 32) throw new NoFilm(sayings[1]);
  if (core === null) core = (await WebAssembly.instantiate(await module)).exports;
  const blocks = [];
  try {
    const from = roomFor(script.length, blocks), size = roomFor(8, blocks);
    bytesAt(from, script.length).set(script);
    for (let most = room; ; ) {
      const rows = roomFor(most, blocks);
      const status = core.tower_film(frames, from, BigInt(script.length), rows, BigInt(most), size);
      if (status !== 0 && status !== 4) throw new NoFilm(sayings[status]);
      const length = Number(new DataView(core.memory.buffer).getBigUint64(Number(size), true));
      if (status === 0) {
        room = most;
        return bytesAt(rows, length).slice();
      }
      core.rattle_dealloc(blocks.pop());
      most = length;
    }
  } finally {
    for (const block of blocks) core.rattle_dealloc(block);
  }
}

// ---- The script that is typed
const typed = find("typed");
// The step of the line at the cursor, or of the last line with an event above it.
function stepAtCursor() {
  const line = typed.value.slice(0, typed.selectionStart).split("\n").length - 1;
  for (let at = Math.min(line, lines.length - 1); at >= 0; at--) if (lines[at].step > 0) return lines[at].step;
  return 0;
}
// All typed lines: those that the film doesn't have follow it.
function typedLines() {
  const bad = end.startsWith("malformed") ? Number(end.split(" ")[1]) : 0;
  return typed.value.split("\n").map((text, at) => lines[at] || { text, step: 0, reply: at + 1 === bad ? "malformed" : "" });
}
function say(text, bad) {
  find("computed").textContent = text;
  find("computed").className = bad ? "bad" : "hint";
}
let asking = 0;
// Films the script again. Of answers that come late only the last one is shown.
async function film(step) {
  const own = ++asking, began = performance.now(), frames = Number(find("count").value);
  try {
    const rows = await rowsOf(frames, new TextEncoder().encode(typed.value));
    if (own !== asking) return;
    const took = performance.now() - began;
    take(new TextDecoder().decode(rows));
    show();
    go(step === undefined ? stepAtCursor() : Math.min(step, steps.length - 1));
    say(`${count(steps.length - 1, "event")} in ${took.toFixed(0)} ms, by a module compiled from the proved crates.`, false);
  } catch (fault) {
    // (after a trap the instance isn't used again)
    if (!(fault instanceof NoFilm)) core = null;
    say(fault instanceof NoFilm ? fault.message : `The core can't run here. It needs WebAssembly with 64-bit memories, as Chromium 156 has. (${fault.message})`, true);
  }
}
let waiting = 0;
function filmSoon() {
  clearTimeout(waiting);
  waiting = setTimeout(film, steps.length > 200 || frameCount > 256 ? 300 : 30);
}
function load(name) {
  const example = examples.find(it => it.name === name);
  typed.value = example.text;
  find("count").value = example.frames;
  typed.setSelectionRange(0, 0);
  find("script").scrollTop = 0;
  film(Infinity);
}
typed.addEventListener("input", filmSoon);
find("count").addEventListener("input", filmSoon);
document.addEventListener("selectionchange", () => {
  if (document.activeElement === typed && steps.length > 1 && lines.length > 0 && stepAtCursor() !== at) go(stepAtCursor());
});
find("example").append(...examples.map(it => new Option(it.name, it.name)));
find("example").addEventListener("change", event => load(event.target.value));
begin();
load(examples[0].name);
