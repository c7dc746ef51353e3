// Texts that are packed: into an address, or into a page that is one file. They are deflated, and then letters.

async function through(stream, bytes) {
  return new Uint8Array(await new Response(new Blob([bytes]).stream().pipeThrough(stream)).arrayBuffer());
}

export async function packed(text) {
  const bytes = await through(new CompressionStream("deflate-raw"), new TextEncoder().encode(text));
  let letters = "";
  for (const byte of bytes) letters += String.fromCharCode(byte);
  return btoa(letters).replaceAll("+", "-").replaceAll("/", "_").replace(/=+$/, "");
}

export function unpacked(text) {
  const letters = atob(text.trim().replaceAll("-", "+").replaceAll("_", "/"));
  return through(new DecompressionStream("deflate-raw"), Uint8Array.from(letters, (letter) => letter.charCodeAt(0)));
}

export async function unpackedText(text) {
  return new TextDecoder().decode(await unpacked(text));
}
