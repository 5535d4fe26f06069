// Calls functions of the page's scripts, which come before this text. Standard input is a list of calls in JSON, each [module,
// function, arguments]. The results are { value }, or { error } with the message of an error that is thrown on purpose.

let text = "";
for await (const part of process.stdin.setEncoding("utf8")) text += part;
const answers = JSON.parse(text).map(([module, name, words]) => {
  try {
    return { value: modules[module][name](...words) };
  } catch (fault) {
    if (fault.constructor !== RangeError) throw fault;
    return { error: fault.message };
  }
});
process.stdout.write(JSON.stringify(answers));
