// ---- meaning: what a status means

// In the program's words.
function meaning(call, status, note) {
  if (status === 5) return "The record has no room in this page.";
  const words = call.show ? ["show", ...call.words] : call.words;
  return explained(["--told", String(status), note.split("\n", 1)[0], ...words], call.files);
}
