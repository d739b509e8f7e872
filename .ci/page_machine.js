// Makes calls on the machine that is inside a page, in Node: node page_machine.js PAGE < CALLS
//
// CALLS are JSON: a list of [name, texts, numbers, room, most], where a room or a most of null is the page's own. What comes of them is
// printed as JSON in the same order: {status, text}, or {cut} where the call was cut off, after which a new instance makes the next one.

const fs = require("fs");
const zlib = require("zlib");

const page = fs.readFileSync(process.argv[2], "utf8");
const inside = id => new RegExp(`<script type="text/plain" id="${id}">([^]*?)</script>`).exec(page)[1];
const machineOf = new Function(inside("goi-machine") + "\nreturn machineOf;")();
const module_ = new WebAssembly.Module(zlib.gunzipSync(Buffer.from(inside("goi-module"), "base64")));

async function main() {
  const machines = new Map();
  const found = [];
  for (const [name, texts, numbers, room, most] of JSON.parse(fs.readFileSync(0, "utf8"))) {
    if (!machines.has(most)) machines.set(most, machineOf(module_, most ?? 2 ** 30));
    try {
      found.push(await machines.get(most).call(name, texts, numbers, room ?? undefined));
    } catch (error) {
      machines.delete(most);
      found.push({ cut: String(error) });
    }
  }
  process.stdout.write(JSON.stringify(found));
}

main();
