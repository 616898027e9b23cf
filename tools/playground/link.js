// An input in an address: packed, in the letters that an address may have.

// More than the most that is unpacked would only fill the memory.
const MOST_LINKED = 1 << 24;

async function packedText(text) {
  const packed =
      await new Response(new Blob([text]).stream().pipeThrough(new CompressionStream("deflate-raw"))).arrayBuffer();
  const letters = Array.from(new Uint8Array(packed), byte => String.fromCharCode(byte)).join("");
  return btoa(letters).replaceAll("+", "-").replaceAll("/", "_").replaceAll("=", "");
}

async function unpackedText(letters) {
  const packed = new Blob([bytesOf(letters.replaceAll("-", "+").replaceAll("_", "/"))]);
  const reader = packed.stream().pipeThrough(new DecompressionStream("deflate-raw")).getReader();
  const parts = [];
  for (let size = 0, read = await reader.read(); !read.done; read = await reader.read()) {
    size += read.value.length;
    if (size > MOST_LINKED) throw new Error(`it holds more than ${MOST_LINKED.toLocaleString("en")} bytes`);
    parts.push(read.value);
  }
  return new Blob(parts).text();
}
