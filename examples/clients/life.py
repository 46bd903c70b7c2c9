#!/usr/bin/env python3
"""usage: life.py [--limit DAY] [--certificates FOLDER] URL

One life by desk.py at an empty desk of CH: holder 000001 is registered, a guarantee is opened, a declaration is lodged,
sent again, and refused under the same LRN with another amount; then it is released, has arrived, is controlled and
written off. Each step is a line. The limit is a week from today (UTC) where no day is given.

With https the folder is one that examples/certificates makes for office and holder. It has office.pem and holder.pem, each a
client's certificate, whose key is in office.key and holder.key, or behind it; and clients-ca.pem, or authority.pem: those who
vouch for the server.

Status: 0; 1 where a step fails, with a line on standard error; 2 for wrong words.
"""
import argparse
import datetime
import http.client
import os
import sys

sys.dont_write_bytecode = True
from desk import Desk, Refused  # noqa: E402


def life(office, holder, limit):
    print("registered", office.register("000001", "CH1234567")["holder"])
    grn = office.open_guarantee("000001", 10**15, 50, "AB12")["grn"]
    print("opened", grn)
    lines = [{"cents": 999_999_999_999, "code": "AB12", "grn": grn}]
    mrn = holder.ie015("000001", "A1", "CH001251", "DE005600", lines)["mrn"]
    print("lodged", mrn)
    print("sent again", holder.ie015("000001", "A1", "CH001251", "DE005600", lines)["mrn"])
    try:
        holder.ie015("000001", "A1", "CH001251", "DE005600", [lines[0] | {"cents": 1}])
    except Refused as refused:
        print("refused", refused.status, refused.error)
    print(office.ie029(mrn, limit)["state"])
    print("free", holder.see_guarantee("000001", grn)["free"])
    print("arrived", "late" if office.ie007(mrn, "DE005600")["late"] else "in time")
    print(office.ie018(mrn, "A1")["state"])
    print(office.ie045(mrn, "results")["state"])
    print("free", holder.see_guarantee("000001", grn)["free"])


def main():
    words = argparse.ArgumentParser(usage=__doc__.partition("usage: ")[2], add_help=True)
    words.add_argument("--limit", default=(datetime.datetime.now(datetime.timezone.utc) + datetime.timedelta(days=7)).date().isoformat())
    words.add_argument("--certificates")
    words.add_argument("url")
    given = words.parse_args()

    def desk(name):
        if not given.certificates:
            return Desk(given.url)
        certificate, key, *authorities = (os.path.join(given.certificates, it)
                                          for it in (f"{name}.pem", f"{name}.key", "authority.pem", "clients-ca.pem"))
        with open(certificate, encoding="ascii") as it:
            has_key = "PRIVATE KEY" in it.read()
        return Desk(given.url, certificate, next(filter(os.path.exists, authorities), None), key=None if has_key else key)

    try:
        life(desk("office"), desk("holder"), given.limit)
    except (Refused, OSError, ValueError, http.client.HTTPException) as error:
        print(f"life.py: {error or type(error).__name__}", file=sys.stderr)
        return 1
    return 0


if __name__ == "__main__":
    sys.exit(main())
