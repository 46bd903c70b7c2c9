"""A client of transit-desk, made by examples/clients/make from docs/openapi.yaml."""
import http.client
import json
import ssl
import urllib.parse


class Refused(Exception):
    """A reply that isn't 200: its status, and the name of the error with the members beside it."""

    def __init__(self, status, told):
        super().__init__(f"{status} {told}")
        self.status, self.error, self.told = status, told.get("error"), told


class Desk:
    """A desk by its URL, of which a path in front of the desk's is kept. Behind https there may be a client's certificate, its
    key, if that isn't in the same file, and the file of those who vouch for the server."""

    def __init__(self, url, certificate=None, authority=None, timeout=30, key=None):
        it = urllib.parse.urlsplit(url)
        if it.scheme not in ("http", "https") or not it.hostname:
            raise ValueError(f"{url}: it is no URL of http or https")
        self.address, self.front, self.timeout, self.tls = (it.hostname, it.port), it.path.rstrip("/"), timeout, None
        if it.scheme == "https":
            self.tls = ssl.create_default_context(cafile=authority)
            if certificate:
                self.tls.load_cert_chain(certificate, key)

    def ask_once(self, method, path, body):
        it = (http.client.HTTPSConnection(*self.address, timeout=self.timeout, context=self.tls) if self.tls
              else http.client.HTTPConnection(*self.address, timeout=self.timeout))
        try:
            it.request(method, self.front + path, body and json.dumps(body), {"Connection": "close", "Content-Type": "application/json"})
            reply = it.getresponse()
            is_json = reply.getheader("Content-Type") == "application/json"
            told = json.loads(reply.read()) if is_json else {}
        finally:
            it.close()
        if reply.status != 200:
            raise Refused(reply.status, told)
        return told

    def ask(self, method, path, body=None, is_idempotent=True):
        try:
            return self.ask_once(method, path, body)
        except (OSError, http.client.HTTPException):
            if not is_idempotent:
                raise
            return self.ask_once(method, path, body)

    def register(self, holder, eori):
        return self.ask("PUT", f"/office/holders/{holder}", {"eori": eori})
    def open_guarantee(self, holder, reference, cover, code):
        return self.ask("POST", f"/office/holders/{holder}/guarantees",
                        {"reference": reference, "cover": cover, "code": code}, is_idempotent=False)
    def amend(self, grn, reference, cover):
        return self.ask("POST", f"/office/guarantees/{grn}/amend", {"reference": reference, "cover": cover})
    def revoke(self, grn):
        return self.ask("POST", f"/office/guarantees/{grn}/revoke")
    def ie029(self, mrn, limit):
        return self.ask("POST", f"/office/movements/{mrn}/ie029", {"limit": limit})
    def ie007(self, mrn, office):
        return self.ask("POST", f"/office/movements/{mrn}/ie007", {"office": office})
    def ie018(self, mrn, result):
        return self.ask("POST", f"/office/movements/{mrn}/ie018", {"result": result})
    def ie045(self, mrn, ground):
        return self.ask("POST", f"/office/movements/{mrn}/ie045", {"ground": ground})
    def ie140(self, mrn):
        return self.ask("POST", f"/office/movements/{mrn}/ie140")
    def see_holder(self, holder):
        return self.ask("GET", f"/holders/{holder}")
    def see_guarantees(self, holder):
        return self.ask("GET", f"/holders/{holder}/guarantees")
    def see_guarantee(self, holder, grn):
        return self.ask("GET", f"/holders/{holder}/guarantees/{grn}")
    def add_code(self, holder, grn, code):
        return self.ask("POST", f"/holders/{holder}/guarantees/{grn}/codes/add", {"code": code})
    def remove_code(self, holder, grn, code):
        return self.ask("POST", f"/holders/{holder}/guarantees/{grn}/codes/remove", {"code": code})
    def see_movements(self, holder):
        return self.ask("GET", f"/holders/{holder}/movements")
    def ie015(self, holder, lrn, departure, destination, lines):
        return self.ask("POST", f"/holders/{holder}/movements",
                        {"lrn": lrn, "departure": departure, "destination": destination, "lines": lines})
    def see_movement(self, holder, mrn):
        return self.ask("GET", f"/holders/{holder}/movements/{mrn}")
    def ie014(self, holder, mrn):
        return self.ask("POST", f"/holders/{holder}/movements/{mrn}/ie014")
