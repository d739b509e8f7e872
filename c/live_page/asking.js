// The page's side of the machine: a worker that is sent one call after the other. It is ended where a call is stopped or was cut off, and
// where its memory has grown large, since a module's memory never shrinks; the next call begins with a new one. No proof covers this file.

// A run may take so much memory, and a worker with more than so much isn't kept.
const MOST_MEMORY = 2 ** 30;
const KEPT_MEMORY = 2 ** 28;

// What is waited for is the call with this number, and `answer` is told what came of it.
const asking = { module: null, worker: null, call: 0, answer: null, most: MOST_MEMORY };

// The module, unpacked and compiled once.
function compiledModule() {
  asking.module ??= (async () => {
    const packed = Uint8Array.from(atob(byId("goi-module").textContent), sign => sign.charCodeAt(0));
    const unpacked = new Blob([packed]).stream().pipeThrough(new DecompressionStream("gzip"));
    return WebAssembly.compile(await new Response(unpacked).arrayBuffer());
  })();
  return asking.module;
}

function startWorker(module) {
  const address = URL.createObjectURL(new Blob([byId("goi-machine").textContent], { type: "text/javascript" }));
  asking.worker = new Worker(address);
  asking.worker.onmessage = ({ data: [call, found] }) => { if (call === asking.call) tellAnswer(found); };
  asking.worker.onerror = event => tellAnswer({ cut: event.message || "the worker doesn't start" });
  asking.worker.postMessage({ module, most: asking.most });
}

function endWorker() {
  if (asking.worker) asking.worker.terminate();
  asking.worker = null;
}

function tellAnswer(found) {
  const { answer } = asking;
  asking.answer = null;
  if (found.status === undefined || found.size > KEPT_MEMORY) endWorker();
  if (answer) answer(found);
}

// A call of goi.h: {status, text, milliseconds, size}; {cut} with the browser's own words where it was cut off; {stopped}.
async function ask(name, texts, numbers) {
  document.body.classList.add("waking");
  const module = await compiledModule().finally(() => document.body.classList.remove("waking"));
  if (!asking.worker) startWorker(module);
  asking.call++;
  return new Promise(resolve => {
    asking.answer = resolve;
    asking.worker.postMessage([asking.call, name, texts, numbers]);
  });
}

function stopAsking() {
  if (asking.answer) tellAnswer({ stopped: true });
}
