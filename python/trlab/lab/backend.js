// The backend of the page: the server of trlab-lab, or the program that the page itself contains.

import { Program } from "./program.js";

const program = Program.ofPage();
/** Whether the page contains the program, and so needs no server. */
export const isStandalone = program !== null;

/** The response to a request, whose body is the input of a command of trlab. Raises its message if the request is rejected. */
export async function post(path, body, signal) {
  const response = await (program ? program.post(path, body, signal) : fetch(path, { method: "POST", body, signal }));
  if (!response.ok) throw new Error(await response.text());
  return response;
}
/** The example inputs by file name. */
export const loadExamples = async () => program ? program.examples : (await fetch("examples")).json();
/** The page of a film, in which the film itself is missing. */
export const loadFilmPage = async () => program ? JSON.parse(document.getElementById("filmpage").textContent) : (await fetch("film")).text();
