// Links: the job file, compressed, in the fragment of the address, which no server sees.

import { upTo } from "./job.js";

/** The maximum size of an input, as in trlab. */
export const MAX_BYTES = 4194304;
export const LINK_START = "#job=";
const FORMAT = "deflate-raw";

/** The base64 of a link has - and _, and no = at its end. */
const toLinkBase64 = bytes => btoa(upTo(bytes.length).map(k => String.fromCharCode(bytes[k])).join(""))
  .replace(/\+/g, "-").replace(/\//g, "_").replace(/=+$/, "");
const fromLinkBase64 = text => Uint8Array.from(atob(text.replace(/-/g, "+").replace(/_/g, "/")), character => character.charCodeAt(0));

export async function linkOf(text) {
  const compressed = new Blob([new TextEncoder().encode(text)]).stream().pipeThrough(new CompressionStream(FORMAT));
  return LINK_START + toLinkBase64(new Uint8Array(await new Response(compressed).arrayBuffer()));
}
/** The text in a link. Raises an error that says so if the link is damaged, or if the text is too long: few bytes can become many. */
export async function textOfLink(fragment) {
  const parts = [];
  let size = 0;
  try {
    const bytes = fromLinkBase64(fragment.slice(LINK_START.length));
    const reader = new Blob([bytes]).stream().pipeThrough(new DecompressionStream(FORMAT)).getReader();
    for (let part = await reader.read(); !part.done && size <= MAX_BYTES; part = await reader.read()) {
      parts.push(part.value);
      size += part.value.length;
    }
    if (size > MAX_BYTES) reader.cancel();
  } catch {
    throw new Error("The job in this address is damaged and cannot be read.");
  }
  if (size > MAX_BYTES) throw new Error(`The job in this address is too long: at most ${MAX_BYTES} bytes are allowed.`);
  return new Blob(parts).text();
}
