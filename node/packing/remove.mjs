// Removes the copies again, after `npm pack`, so that a checkout never uses an old one.

import { rmSync } from "node:fs";
import { FILES } from "./files.mjs";

for (const { to } of FILES) rmSync(to, { force: true });
