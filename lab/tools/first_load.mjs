// Prints the bytes that the page play/index.html of a site loads, as rows for MEASUREMENTS.md: node lab/tools/first_load.mjs SITE
//
// SITE is the output folder of tools/site. The rows have the page and its parts before the first interaction, and pyelftools, which the
// first image loads: with gzip, as the parts are stored and a server compresses the page, and with brotli -q 11 -w 24, which some servers
// use.
import childProcess from "node:child_process";
import fs from "node:fs";
import path from "node:path";
import zlib from "node:zlib";

const FIRST = ["index.html", "python", "memory", "machine", "lessons"];
const LATER = "later";
const folder = path.join(process.argv[2], "play");
const params = { [zlib.constants.BROTLI_PARAM_QUALITY]: 11, [zlib.constants.BROTLI_PARAM_LGWIN]: 24 };

/** A file of the page, by the start of its name; parts are compressed by gzip. */
function contents(name) {
  const file = fs.readdirSync(folder).find((each) => each.startsWith(name));
  const bytes = fs.readFileSync(path.join(folder, file));
  return file.endsWith(".gz") ? bytes : childProcess.execFileSync("gzip", ["-9n"], { input: bytes });
}

const gzipped = (name) => contents(name).length;
const withBrotli = (name) => zlib.brotliCompressSync(zlib.gunzipSync(contents(name)), { params }).length;
const numbers = (sizes) => sizes.map((size) => size.toLocaleString("en")).join("; ");

/** The sizes, and their sum. */
function all(sizes) {
  const sum = sizes.reduce((total, size) => total + size, 0);
  return `${numbers(sizes)}; ${(sum / 1e6).toFixed(2)} MB`;
}

const parts = "page; Python; its memory; machine; texts, bytes with gzip; all of it";
console.log(`| \`play\`, before the first interaction: ${parts} | ${all(FIRST.map(gzipped))} |`);
console.log(`| the same with \`brotli -q 11 -w 24\`; all of it | ${all(FIRST.map(withBrotli))} |`);
console.log(`| pyelftools, which the first image loads, with gzip; with brotli | ${numbers([gzipped(LATER), withBrotli(LATER)])} |`);
