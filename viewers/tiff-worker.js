// A service worker by which viewers that ask for JPEG, PNG or WebP show images of a IIIF server that answers TIFF alone. iiif.js
// registers it; README.md says what it does and what it leaves alone.
//
// It takes GET of {base}/{identifier}/{region}/{size}/{rotation}/{quality}.{jpg|png|webp}, asks the same address with .tif, and hands a BMP
// of the answer back: each browser shows BMP, it is a head and rows, and 8 bits a sample are what a screen gets. Of samples of 16 bits
// that is the high byte. Which bases are the server's stands in the address that it is registered by, once for each
// (tiff-worker.js?base=https://HOST/iiif); with none it takes the addresses of all.
"use strict";
const BASES = new URL(self.location).searchParams.getAll("base").map((base) => new URL(base).href.replace(/\/$/, ""));
const NUMBER = "\\d+(?:\\.\\d+)?", FOUR = `${NUMBER}(?:,${NUMBER}){3}`;
const WORDS = [
  `full|square|${FOUR}|pct:${FOUR}`, // region
  `\\^?(?:max|\\d+,|,\\d+|pct:${NUMBER}|!?\\d+,\\d+)`, // size
  `!?${NUMBER}`, // rotation
  "(?:color|gray|bitonal|default)\\.(?:jpg|png|webp)",
].map((word) => new RegExp(`^(?:${word})$`));

self.addEventListener("install", () => self.skipWaiting());
self.addEventListener("activate", (event) => event.waitUntil(self.clients.claim()));
// iiif.js asks for this where a page was loaded past the worker, as by a reload with Shift.
self.addEventListener("message", (event) => event.data === "claim" && event.waitUntil(self.clients.claim()));
self.addEventListener("fetch", (event) => {
  const address = event.request.method === "GET" && tiffOf(new URL(event.request.url));
  if (address) event.respondWith(answerOf(address, event.request.signal).catch(failed));
});

// The address of the TIFF where this one is an image's in another format, at one of the bases.
function tiffOf(url) {
  const parts = url.pathname.split("/"), words = parts.slice(-4), before = parts.slice(0, -4), name = before.pop();
  if (!name || !words.every((word, i) => WORDS[i].test(decoded(word)))) return null;
  if (BASES.length && !BASES.includes(url.origin + before.join("/"))) return null;
  return url.origin + url.pathname.replace(/\w+$/, "tif") + url.search;
}

function decoded(segment) {
  try {
    return decodeURIComponent(segment);
  } catch {
    return segment;
  }
}

// A refusal as the server gives it, or the picture of its TIFF.
async function answerOf(address, signal) {
  const answer = await fetch(address, { signal }).catch(because("the server gives no answer, or none that this page may read"));
  if (!answer.ok) return answer;
  const file = await answer.arrayBuffer().catch(because("the answer was cut off")), told = answer.headers.get("Content-Length");
  // Where an answer is compressed on its way its length isn't the file's.
  if (told && !answer.headers.get("Content-Encoding") && file.byteLength < told) throw new Error("the answer was cut off");
  return new Response(bitmap(pictureOf(file)), { headers: { "Content-Type": "image/bmp" } });
}

const because = (words) => (error) => {
  throw new Error(`${words} (${error.message})`);
};

// No picture, and why: the server can't be reached, its answer is torn, or isn't a TIFF that is read here.
function failed(error) {
  const words = error instanceof RangeError ? "the answer's TIFF ends before what it names" : error.message;
  return new Response(`tiff-worker: ${words}\n`, { status: 502, headers: { "Content-Type": "text/plain" } });
}

// The picture that a file shows by TIFF 6.0: without compression, in strips, gray or RGB.
function pictureOf(file) {
  const data = new DataView(file), little = data.getUint16(0) === 0x4949;
  if (data.getUint16(2, little) !== 42 || !(little || data.getUint16(0) === 0x4d4d)) throw new Error("the answer is no TIFF");
  const field = fieldsOf(data, little), one = (tag, by) => need(field.get(tag) ?? by, tag)[0];
  const [width, height, channels, bits] = [one(256), one(257), one(277, [1]), one(258, [1])], color = one(262);
  if (!width || !height) throw new Error("the picture is empty");
  const sorts = channels === 1 ? [1, 8, 16] : channels === 3 ? [8, 16] : [], meant = channels === 3 ? color === 2 : color < 2;
  const even = (field.get(258) ?? [1]).every((each) => each === bits);
  if (!sorts.includes(bits) || !even || !meant || one(259, [1]) !== 1 || one(266, [1]) !== 1 || field.has(322)) {
    throw new Error("the answer is a TIFF of another kind than gray or RGB of 8 or 16 bits, or bits, in strips without compression");
  }
  const planes = one(284, [1]) === 2 ? channels : 1, samples = channels / planes; // samples of a place that stand side by side
  const rows = rowsOf(file, field, { planes, height, rowBytes: Math.ceil((width * samples * bits) / 8) });
  return { width, height, channels, bits, samples, rows, high: bits === 16 && little ? 1 : 0, white: color === 0 };
}

function need(values, tag) {
  if (!values?.length) throw new Error(`the answer's TIFF lacks the field ${tag}`);
  return values;
}

// The values of each field of the first directory that has whole numbers.
function fieldsOf(data, little) {
  const at = data.getUint32(4, little), n = data.getUint16(at, little), field = new Map(), bytes = { 1: 1, 3: 2, 4: 4 };
  data.getUint32(at + 2 + 12 * n); // where the next directory stands: it isn't read, but a file that ends before is torn
  for (let i = 0; i < n; i++) {
    const entry = at + 2 + 12 * i, size = bytes[data.getUint16(entry + 2, little)], count = data.getUint32(entry + 4, little);
    if (!size) continue;
    const from = size * count <= 4 ? entry + 8 : data.getUint32(entry + 8, little), values = [];
    for (let k = 0; k < count; k++) {
      const place = from + k * size;
      values.push(size === 1 ? data.getUint8(place) : size === 2 ? data.getUint16(place, little) : data.getUint32(place, little));
    }
    field.set(data.getUint16(entry, little), values);
  }
  return field;
}

// The rows of each plane, each within its strip and this within the file.
function rowsOf(file, field, { planes, height, rowBytes }) {
  const offsets = need(field.get(273), 273), counts = need(field.get(279), 279);
  const each = Math.min(height, (field.get(278) ?? [height])[0]), strips = Math.ceil(height / each);
  const planeRows = (plane) => Array.from({ length: height }, (_, y) => {
    const strip = plane * strips + Math.floor(y / each), start = (y % each) * rowBytes;
    if (!(offsets[strip] >= 0 && start + rowBytes <= counts[strip])) throw new RangeError("a strip is wanting, or shorter than its rows");
    return new Uint8Array(file, offsets[strip] + start, rowBytes); // which throws a RangeError behind the file's end
  });
  return Array.from({ length: planes }, (_, plane) => planeRows(plane));
}

// The picture as a BMP: the lowest row first, blue before red, gray and bits by a table of colors.
function bitmap(picture) {
  const { width, height, channels, bits, white } = picture, depth = channels === 3 ? 24 : Math.min(bits, 8);
  const colors = depth === 24 ? 0 : 2 ** depth, head = 54 + 4 * colors, stride = Math.ceil((width * depth) / 32) * 4;
  const out = new Uint8Array(head + stride * height), view = new DataView(out.buffer);
  view.setUint16(0, 0x424d);
  const numbers = { 2: out.length, 10: head, 14: 40, 18: width, 22: height, 28: depth, 46: colors };
  for (const at in numbers) view.setUint32(at, numbers[at], true);
  view.setUint16(26, 1, true);
  for (let c = 0; c < colors; c++) out.fill(Math.round((255 * (white ? colors - 1 - c : c)) / (colors - 1)), 54 + 4 * c, 57 + 4 * c);
  for (let y = 0; y < height; y++) putRow(picture, y, out.subarray(head + (height - 1 - y) * stride));
  return out;
}

// One row's bytes to the start of `out`: bits and bytes as they stand, of 16 bits the high byte, of RGB each channel at its place.
function putRow({ width, channels, bits, samples, rows, high }, y, out) {
  if (channels === 1 && bits <= 8) return out.set(rows[0][y]);
  const step = bits / 8;
  for (let c = 0; c < channels; c++) {
    const row = rows[samples === channels ? 0 : c][y], first = (samples === channels ? c : 0) * step + high;
    for (let x = 0, to = channels - 1 - c, from = first; x < width; x++, to += channels, from += samples * step) out[to] = row[from];
  }
}
