// Copies the files that the package needs from elsewhere in the checkout into its folder, before `npm pack` packs it.

import { copyFileSync, existsSync } from "node:fs";
import { fileURLToPath } from "node:url";
import { FILES } from "./files.mjs";

for (const { from, to } of FILES) {
  if (!existsSync(from)) {
    console.error(`${fileURLToPath(from)} is missing: release/make builds it`);
    process.exit(1);
  }
  copyFileSync(from, to);
}
