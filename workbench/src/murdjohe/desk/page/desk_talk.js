// What the page asks of the server, and what the server tells it.

/** What the server refused: a sentence, the status, and where an edit was of an older state what changed since. */
export class Refused extends Error {
  constructor(status, said) {
    super(said.said ?? "the server refused it");
    this.status = status;
    this.since = said.since;
  }
}

async function read(response) {
  let said = {};
  try { said = await response.json(); } catch { said = {said: `the server answered ${response.status}`}; }
  if (!response.ok) throw new Refused(response.status, said);
  return said;
}

/** What the server has at a path. */
export async function got(path) {
  return read(await fetch(path, {headers: {Accept: "application/json"}}));
}

/** What the server answers to something that is done. */
export async function posted(path, data) {
  const headers = {"Content-Type": "application/json"};
  return read(await fetch(path, {method: "POST", headers, body: JSON.stringify(data)}));
}

/** A file as the server takes it: its name, and its bytes in base64. */
export function packed(file) {
  return new Promise((done, failed) => {
    const reader = new FileReader();
    reader.onload = () => done({name: file.name, data: String(reader.result).split(",")[1] ?? ""});
    reader.onerror = () => failed(new Error(`${file.name} can't be read`));
    reader.readAsDataURL(file);
  });
}

/** Tells what changes at the desk, and whether the server is there. */
export function listen(tell, onReady, onLost) {
  const source = new EventSource("/news");
  source.addEventListener("ready", onReady);
  source.addEventListener("error", onLost);
  for (const kind of ["change", "verdict", "saved"]) {
    source.addEventListener(kind, event => tell(kind, JSON.parse(event.data)));
  }
}
