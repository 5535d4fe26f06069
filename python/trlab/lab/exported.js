// The script of an exported file, which plays the run that the file contains.

import { $ } from "./dom.js";
import { Player } from "./player.js";

const packedRun = Uint8Array.from(atob($("run").textContent.trim()), character => character.charCodeAt(0));
const unpackRun = async () => new Response(new Blob([packedRun]).stream().pipeThrough(new DecompressionStream("gzip")));
globalThis.lab = { player: new Player({}, message => $("fault").textContent = message) };
lab.player.load(unpackRun, JSON.parse($("job").textContent));
