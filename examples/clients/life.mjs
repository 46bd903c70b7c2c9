#!/usr/bin/env node
// usage: life.mjs [--limit DAY] [--certificates FOLDER] URL
//
// One life by desk.mjs at an empty desk of CH, with the steps, words and lines of life.py.
import { existsSync, readFileSync } from "node:fs";
import { join } from "node:path";
import { parseArgs } from "node:util";
import { Desk, Refused } from "./desk.mjs";

async function life(office, holder, limit) {
  console.log("registered", (await office.register("000001", "CH1234567")).holder);
  const { grn } = await office.openGuarantee("000001", 10 ** 15, 50, "AB12");
  console.log("opened", grn);
  const lines = [{ cents: 999_999_999_999, code: "AB12", grn }];
  const { mrn } = await holder.ie015("000001", "A1", "CH001251", "DE005600", lines);
  console.log("lodged", mrn);
  console.log("sent again", (await holder.ie015("000001", "A1", "CH001251", "DE005600", lines)).mrn);
  try {
    await holder.ie015("000001", "A1", "CH001251", "DE005600", [{ ...lines[0], cents: 1 }]);
  } catch (why) {
    if (!(why instanceof Refused)) throw why;
    console.log("refused", String(why.status), why.error);
  }
  console.log((await office.ie029(mrn, limit)).state);
  console.log("free", String((await holder.seeGuarantee("000001", grn)).free));
  console.log("arrived", (await office.ie007(mrn, "DE005600")).late ? "late" : "in time");
  console.log((await office.ie018(mrn, "A1")).state);
  console.log((await office.ie045(mrn, "results")).state);
  console.log("free", String((await holder.seeGuarantee("000001", grn)).free));
}

let given;
try {
  given = parseArgs({ options: { limit: { type: "string" }, certificates: { type: "string" } }, allowPositionals: true });
  if (given.positionals.length !== 1) throw new Error("it takes one URL");
} catch (why) {
  console.error(`life.mjs: ${why.message}`);
  process.exit(2);
}
const { limit = new Date(Date.now() + 7 * 86400000).toISOString().slice(0, 10), certificates } = given.values;
const desk = name => {
  if (!certificates) return new Desk(given.positionals[0]);
  const read = it => readFileSync(join(certificates, it));
  const cert = read(`${name}.pem`), authority = ["authority.pem", "clients-ca.pem"].find(it => existsSync(join(certificates, it)));
  const key = cert.includes("PRIVATE KEY") ? cert : read(`${name}.key`);
  return new Desk(given.positionals[0], { cert, key, ca: authority && read(authority) });
};
try {
  await life(desk("office"), desk("holder"), limit);
} catch (why) {
  console.error(`life.mjs: ${why.message || why.code}`);
  process.exit(1);
}
