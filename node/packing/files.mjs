// The files of the package that are elsewhere in the checkout, and their places in the package.

const place = path => new URL(path, import.meta.url);
export const FILES = [
  { from: place("../../python/trlab/lab/host.js"), to: place("../host.js") },
  { from: place("../../release/trlab-lab.html"), to: place("../trlab-lab.html") },
];
