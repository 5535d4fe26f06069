// The page that contains the program, and the program, for tests that run it.

import { existsSync, readFileSync } from "node:fs";
import { fileURLToPath } from "node:url";
import { moduleIn } from "../program.mjs";

const PAGE = new URL("../../release/trlab-lab.html", import.meta.url);
/** Why the tests that run the program are skipped, or false. */
export const missing = !existsSync(PAGE) && "the release has no page with the program";
/** The bytes of the module. */
export const moduleBytes = () => moduleIn(readFileSync(PAGE, "utf8"));
export const example = name => readFileSync(new URL(`../../examples/${name}`, import.meta.url), "utf8");
/** The path of the command. */
export const COMMAND = fileURLToPath(new URL("../trlab-node.mjs", import.meta.url));
