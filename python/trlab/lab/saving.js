// Files that the page saves, and links that contain a job.

import { $ } from "./dom.js";
import { post } from "./backend.js";
import { filmOf } from "./filming.js";
import { linkOf } from "./links.js";

const KEEP_URL_MILLISECONDS = 10000, COPIED_MILLISECONDS = 2000;

/** Save parts of text or bytes as a file. */
export function saveFile(name, parts, type) {
  const link = document.createElement("a");
  link.href = URL.createObjectURL(new Blob(parts, { type }));
  link.download = name;
  link.click();
  setTimeout(() => URL.revokeObjectURL(link.href), KEEP_URL_MILLISECONDS);
}
/** Save the table of a job file's run. */
export async function saveTable(file) {
  saveFile("series.csv", [await (await post("series", file)).blob()], "text/csv");
}
/** Save the film of a job file's whole run, from its start. */
export async function saveFilm(file) {
  $("savefilm").disabled = true;
  try {
    saveFile("traffic.html", await filmOf(file), "text/html");
  } finally {
    $("savefilm").disabled = false;
  }
}
/** Put the job file into the address and onto the clipboard. */
export async function copyLink(file) {
  history.replaceState(null, "", await linkOf(file));
  await navigator.clipboard?.writeText(location.href).catch(() => {});
  $("silent").textContent = $("link").textContent = "Link copied";
  setTimeout(() => $("link").textContent = "Copy a link", COPIED_MILLISECONDS);
}
