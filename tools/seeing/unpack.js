// The run of a page: one block, packed so that a long run opens soon.

// What a page shows of a run, from a line of JSON, and its lines, which come after that.
function opened(all) {
  const end = all.indexOf("\n");
  const [told, text] = end < 0 ? [all, ""] : [all.slice(0, end), all.slice(end + 1)];
  const data = JSON.parse(told);
  const found = new Run(data, text);
  found.board = new Board(found, data.board);
  return found;
}

async function unpacked(bytes) {
  const stream = new Blob([bytes]).stream().pipeThrough(new DecompressionStream("deflate"));
  return opened(await new Response(stream).text());
}

function bytesOf(text) {
  const packed = atob(text);
  const bytes = new Uint8Array(packed.length);
  for (let at = 0; at < packed.length; at++) bytes[at] = packed.charCodeAt(at);
  return bytes;
}

const unpackedAt = (id) => unpacked(bytesOf(document.getElementById(id).textContent));
