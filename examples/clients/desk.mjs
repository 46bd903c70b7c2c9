// A client of transit-desk, made by examples/clients/make from docs/openapi.yaml.
// An amount is at most 10^15 cents, below Number.MAX_SAFE_INTEGER (2^53 - 1): each is exact as a number.
import http from "node:http";
import https from "node:https";

// A reply that isn't 200: its status, and the name of the error with the members beside it.
export class Refused extends Error {
  constructor(status, told) {
    super(`${status} ${JSON.stringify(told)}`);
    Object.assign(this, { status, error: told.error, told });
  }
}

// A desk by its URL, of which a path in front of the desk's is kept. Behind https `tls` may have cert, key and ca, as
// https.request takes them.
export class Desk {
  constructor(url, tls = {}) {
    if (!/^https?:$/.test(new URL(url).protocol)) throw new Error(`${url}: it is no URL of http or https`);
    Object.assign(this, { url: url.replace(/\/+$/, ""), tls, http: url.startsWith("https:") ? https : http });
  }

  askOnce(method, path, body) {
    return new Promise((done, failed) => {
      const headers = { Connection: "close", "Content-Type": "application/json" };
      const asked = this.http.request(new URL(this.url + path), { method, headers, timeout: 30000, agent: false, ...this.tls }, reply => {
        let text = "";
        reply.setEncoding("utf8").on("data", piece => { text += piece; }).on("error", failed).on("end", () => {
          const told = reply.headers["content-type"] === "application/json" ? JSON.parse(text) : {};
          if (reply.statusCode === 200) done(told); else failed(new Refused(reply.statusCode, told));
        });
      });
      asked.on("error", failed).on("timeout", () => asked.destroy(new Error("no reply")));
      asked.end(body && JSON.stringify(body)); // a whole body comes with its length, never in chunks
    });
  }

  ask(method, path, body, isIdempotent = true) {
    return this.askOnce(method, path, body).catch(why => {
      if (why instanceof Refused || !isIdempotent) throw why;
      return this.askOnce(method, path, body);
    });
  }

  register(holder, eori) { return this.ask("PUT", `/office/holders/${holder}`, { eori }); }
  openGuarantee(holder, reference, cover, code) {
    return this.ask("POST", `/office/holders/${holder}/guarantees`, { reference, cover, code }, false);
  }
  amend(grn, reference, cover) { return this.ask("POST", `/office/guarantees/${grn}/amend`, { reference, cover }); }
  revoke(grn) { return this.ask("POST", `/office/guarantees/${grn}/revoke`); }
  ie029(mrn, limit) { return this.ask("POST", `/office/movements/${mrn}/ie029`, { limit }); }
  ie007(mrn, office) { return this.ask("POST", `/office/movements/${mrn}/ie007`, { office }); }
  ie018(mrn, result) { return this.ask("POST", `/office/movements/${mrn}/ie018`, { result }); }
  ie045(mrn, ground) { return this.ask("POST", `/office/movements/${mrn}/ie045`, { ground }); }
  ie140(mrn) { return this.ask("POST", `/office/movements/${mrn}/ie140`); }
  seeHolder(holder) { return this.ask("GET", `/holders/${holder}`); }
  seeGuarantees(holder) { return this.ask("GET", `/holders/${holder}/guarantees`); }
  seeGuarantee(holder, grn) { return this.ask("GET", `/holders/${holder}/guarantees/${grn}`); }
  addCode(holder, grn, code) { return this.ask("POST", `/holders/${holder}/guarantees/${grn}/codes/add`, { code }); }
  removeCode(holder, grn, code) {
    return this.ask("POST", `/holders/${holder}/guarantees/${grn}/codes/remove`, { code });
  }
  seeMovements(holder) { return this.ask("GET", `/holders/${holder}/movements`); }
  ie015(holder, lrn, departure, destination, lines) {
    return this.ask("POST", `/holders/${holder}/movements`, { lrn, departure, destination, lines });
  }
  seeMovement(holder, mrn) { return this.ask("GET", `/holders/${holder}/movements/${mrn}`); }
  ie014(holder, mrn) { return this.ask("POST", `/holders/${holder}/movements/${mrn}/ie014`); }
}
