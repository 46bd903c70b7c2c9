"""The parts of the walk of tests/installed: each types what a page says, and looks at what came of it."""
import datetime
import json
import re

from installed_machine import EDITOR, lines_of
from installed_walk import (BACKUPS, CALLERS, CERTIFICATES, DESK, FIRST, GRN, LIMIT, RECORDS, SECOND, TODAY, holder, told,
                            with_check_digit)

# References whose check digit, or serial, is another.
NO_MRN, NO_GRN = f"{SECOND[:-1]}{(int(SECOND[-1]) + 1) % 10}", f"{GRN[:15]}9{GRN[16]}"
# What a person breaks in a file: the rule, what `transit-desk-why` has to name, and the change.
BROKEN = [
    ("S3", f"guarantees2 (1, 1): grn is '{NO_GRN}'; right is {GRN}", f"UPDATE guarantees2 SET grn = '{NO_GRN}'"),
    ("S4", "codes (1, 2, 'ZZ99'): the holder has no guarantee 2", "INSERT INTO codes VALUES (1, 2, 'ZZ99')"),
    ("S5", f"movements (1, 2): mrn is '{NO_MRN}'; right is {SECOND}, ", f"UPDATE movements SET mrn = '{NO_MRN}' WHERE serial = 2"),
    ("S5", "movements (1, 1): arrival is 20000; right is NULL ", "UPDATE movements SET arrival = 20000 WHERE serial = 1"),
    ("S7", f"guarantees2 (1, 1) {GRN}: used is 500001, and its lines in use add up to 500000: ", "UPDATE guarantees2 SET used = used + 1"),
]


def first_day(walk):
    machine, (name, package) = walk.machine, walk.packages[0]
    walk.types("! command -v transit-desk nginx nft curl python3 sqlite3", what="the machine is bare")
    machine.put("/usr/local/bin/editor", EDITOR.encode(), "755")
    machine.put("/root/typed/transit-desk", b"")
    machine.put(f"/root/first/{name}", package)
    walk.follows("OPERATIONS", "The first day", 1, folder="/root/first")
    for it in "transit-desk.service", "transit-desk-backup.timer", "transit-desk-reports.timer":
        walk.types(f"! systemctl is-enabled --quiet {it} && ! systemctl is-active --quiet {it}", what=f"{it} is off")
    said = walk.follows("OPERATIONS", "The first day", 2)
    walk.step("the journal says that it listens", "listening 127.0.0.1:8080" in said[-1], said[-1])
    walk.types(f"stat -c %a {RECORDS} {RECORDS}-wal | sort -u", "600", what="the file's mode, and its log's")
    walk.types(f"transit-desk pipe --country CH --db {RECORDS} --new </dev/null", "transit-desk: store", 1, "it is made once",
               user="transit-desk")
    walk.types("ps -o user:20= -C transit-desk", "transit-desk", what="it runs as its user")


def proxy(walk):
    walk.follows("PROXY", "Turn it on", 0)
    walk.types("useradd --create-home clerk", what="a clerk has an account of this machine")
    walk.types(f"curl -s {DESK}", told(error="no-route"), what="and could ask the desk until now", user="clerk")
    made = "".join(walk.follows("PROXY", "Certificates for trials"))
    made += walk.types(f"{CERTIFICATES} trial other unlisted && {CERTIFICATES} elsewhere holder >/dev/null", what="further certificates")
    walk.types("cp trial/server.pem SERVER.pem; cp trial/server.key SERVER.key; cp trial/clients-ca.pem CLIENTS.pem",
               what="three files are brought")
    walk.fingerprints = prints = {name: digits for digits, name in re.findall(r"^([0-9A-F]{40}) (\S+)$", made, re.M)}
    walk.machine.put("/root/typed/callers.map", "".join(f'{prints[it]} "{may}";    # {it}\n' for it, may in CALLERS.items()).encode())
    walk.follows("PROXY", "Turn it on", 1)
    walk.follows("PROXY", "Turn it on", 2)
    for it in "clerk", "root", "nobody", "transit-desk":
        walk.types(f"curl -sS {DESK}", status=7, what=f"the desk's port is shut to {it}", user=it, folder="/")
    walk.types("stat -c %a /etc/nginx/transit-desk/server.key", "600", what="the mode of the server's key")


def one_movement(walk):
    walk.follows("PROXY", "Try it", 0, folder="/root/trial")
    said = walk.follows("PROXY", "Try it", 1, folder="/root/trial", words={'"GRN"': f'"{GRN}"', "MRN": FIRST, "DAY": f"{LIMIT}"})
    guarantee = {"codes": ["AB12"], "cover": 50, "ends": None, "free": 500000, "grn": GRN, "guaranteed": 500000, "reference": 1000000,
                 "used": 500000}
    for what, wanted, got in zip(("the guarantee", "the declaration", "its release", "the amount in use"), (
            told(grn=GRN), told(lrn="A1", message="IE028", mrn=FIRST), told(limit=f"{LIMIT}", message="IE029", mrn=FIRST, state="released"),
            told(guarantees=[guarantee])), said):
        walk.due(what, f"{wanted}\n", got)


def strangers(walk):
    walk.asks("other", "/holders/000001", told(error="not-allowed"), "the certificate of another holder is refused")
    walk.asks("holder", f"/office/movements/{FIRST}/ie007", told(error="not-allowed"), "a holder acts for no office",
              "-d '{\"office\":\"DE005600\"}'")
    walk.asks("agent", "/holders/000001", holder(1), "an agent of the holder may ask")
    walk.asks("office", "/holders/000001", holder(1), "the office's certificate may look")
    walk.asks("office", f"/holders/000001/movements/{FIRST}/ie014", told(error="not-allowed"), "and does nothing in the holder's name",
              "-X POST")
    walk.asks("unlisted", "/holders/000001", told(error="unknown-certificate"), "a certificate without a line is refused")
    walk.asks("../elsewhere/holder", "/holders/000001", told(error="no-certificate"), "one of another authority is refused")
    line = "curl -sS --cacert clients-ca.pem https://localhost/holders/000001"
    walk.types(line, told(error="no-certificate"), what="no certificate is refused", folder="/root/trial")
    walk.types("curl -sS http://localhost:443/holders/000001", told(error="no-tls"), what="no TLS is refused")
    walk.types("curl -sS https://localhost/holders/000001", status=60, what="the server isn't believed without its authority")
    logged = walk.last_line(f"grep -i {walk.fingerprints['other']} /var/log/nginx/transit-desk.log")
    it = json.loads(logged) if logged.startswith("{") else {}
    walk.due("the log says who asked", ("GET", "/holders/000001", "403"), (it.get("method"), it.get("path"), it.get("status")))
    walk.types("sed -i '/# agent/d' /etc/nginx/transit-desk/callers.map && nginx -t && systemctl reload nginx",
               what="the agent's line is taken away")
    shut = "for _ in $(seq 50); do ask agent https://localhost/holders/000001 | grep unknown-certificate && break; sleep 0.2; done"
    walk.types(shut, told(error="unknown-certificate"), what="and the agent is shut out", folder="/root/trial")


def sent_files(walk):
    machine, own = walk.machine, {"folder": "/home/clerk", "user": "clerk"}
    header = "holder,lrn,departure,destination,lines\n"
    first, second = f"000001,A1,CH001251,DE005600,{GRN}:AB12:5000.00\n", f"000001,A2,CH001251,FR000100,{GRN}:AB12:2500.00\n"
    walk.types("cp trial/holder.* trial/other.* trial/clients-ca.pem /home/clerk/ && chown clerk: /home/clerk/*",
               what="the clerk has certificates")
    sends, acts = lines_of("OPERATIONS", "Files of rows")
    sends, acts = sends.replace("desk.example", "localhost"), acts.replace("desk.example", "localhost")
    machine.put("/home/clerk/declarations.csv", f"{header}{first}000001,A2,CH001251,FR000100,{GRN}:AB12:x\n".encode())
    said = walk.types(sends, status=1, what="a file with a bad row", **own)
    walk.step("is told so", "bad csv row 3 column 5" in said, said)
    walk.answered("and not sent", 1)
    machine.put("/home/clerk/declarations.csv", f"{header}{first}{second}".encode())
    said = walk.types(sends.replace("holder.", "other."), status=1, what="a file of another holder", **own)
    walk.step("is refused", "not-allowed" in said, said)
    for what in "OPERATIONS: ", "once more: ":
        walk.types(sends, what=f"{what}{sends}", **own)
        said = walk.types("cat result.csv", what="its result", **own)
        walk.due("which is", f"holder,lrn,outcome,mrn\n000001,A1,IE028,{FIRST}\n000001,A2,IE028,{SECOND}\n", said)
    machine.put("/root/trial/acts.csv", "message,mrn,value\n".encode() + "".join(f"{it},{SECOND},{value}\n" for it, value in (
        ("IE029", LIMIT), ("IE007", "FR000100"), ("IE018", "A1"), ("IE045", "results"))).encode())
    walk.types(acts, what=f"OPERATIONS: {acts}", folder="/root/trial")
    said = walk.types("cat acts-result.csv", what="its result", folder="/root/trial")
    walk.due("which is", "message,mrn,outcome\n" + "".join(f"{it},{SECOND},{state}\n" for it, state in (
        ("IE029", "released"), ("IE007", "arrived"), ("IE018", "cleared"), ("IE045", "written-off"))), said)
    walk.answered("the holder has two movements", 2)


def copies(walk):
    walk.types(f"transit-desk-copy {RECORDS} {BACKUPS}/by-user", "sound", what="its user copies it while it serves", user="transit-desk")
    walk.types(f"transit-desk-copy {RECORDS} {BACKUPS}/by-root", "sound", what="root copies it while it serves")
    walk.types(f"stat -c %U {BACKUPS}/by-root {BACKUPS}/by-root/* | sort -u", "transit-desk", what="as its user")
    walk.types(f"! transit-desk-copy {RECORDS} /root/copy && [ ! -e /root/copy ]", what="root copies it into no folder of its own")
    walk.types("cat >/usr/local/bin/cp <<'END' && chmod 755 /usr/local/bin/cp\n#!/bin/sh\n"
               "systemctl show -P FreezerState transit-desk >>/tmp/freezer\nexec /bin/cp \"$@\"\nEND\n"
               f"transit-desk-copy --no-check {RECORDS} {BACKUPS}/frozen; rm /usr/local/bin/cp; grep -qx frozen /tmp/freezer",
               what="by the freezer of systemd, which is told")
    walk.types("systemctl show -P FreezerState transit-desk", "running", what="and goes on")
    said = walk.follows("OPERATIONS", "Copy by hand")[0]
    walk.due("how long it was frozen, and what the copy is", ("frozen", "sound"), (said.split()[0], said.split()[-1]))
    walk.answered("it answers", 2)


def lists_and_reports(walk):
    walk.follows("OPERATIONS", "Lists for people")
    rows = walk.types("cat movements.csv", what="the list").splitlines()
    walk.due("has both movements", [FIRST, SECOND], [mrn for it in rows[1:] for mrn in it.split(",") if mrn in (FIRST, SECOND)])
    page = walk.types("cat desk.html", what="the page")
    walk.due("has what is released, and loads nothing", (True, False), (FIRST in page, "src=" in page or "http://" in page))
    walk.follows("OPERATIONS", "Report by hand")
    guarantee = f"{GRN} 000001  50{10000:>18.2f}{5000:>18.2f}{5000:>18.2f}{5000:>18.2f} -"
    walk.due("its guarantees", f"GUARANTEES\n{guarantee}\nTOTAL 1\n", walk.types("cat guarantees.txt", what="the report"))
    walk.due("nothing is overdue", f"OVERDUE {TODAY}\nTOTAL 0\n", walk.types("cat overdue.txt", what="the other report"))
    later = LIMIT + datetime.timedelta(days=12)
    said = walk.types(f"transit-desk report overdue --country CH --db {BACKUPS}/by-hand/desk.db --day {later}", what="in some weeks",
                      user="transit-desk")
    walk.due("one is", f"OVERDUE {later}\n{FIRST} 000001 arrival released {LIMIT}    12\nTOTAL 1\n", said)


def timers(walk):
    for it in "transit-desk-backup.timer", "transit-desk-reports.timer":
        walk.types(f"systemctl is-active {it}", "active", what=f"{it} is on")
    walk.types("systemctl start transit-desk-backup.service", what="a backup is made")
    walk.types("journalctl -o cat -t timed -u transit-desk-backup | tail -n 1", "sound", what="which is sound")
    said = walk.follows("OPERATIONS", "A night", ends={0: 1})
    walk.due("what is watched: no unit has failed", [], [it for it in said[0].split() if it not in ("active", "inactive")])
    walk.step("the newest backup", re.fullmatch(rf"{BACKUPS}/20\d\d-\d\d-\d\dT\d{{6}}Z\n", said[1]), said[1])
    walk.due("and no reply of a fault, yet", "", said[3])
    walk.types("systemctl start transit-desk-reports.service", what="reports are made")
    walk.types("cat /var/lib/transit-desk-reports/guarantees-*.txt", "TOTAL 1", what="which are whole")
    walk.types("ls -A /var/lib/transit-desk-reports | wc -l", "2", what="and no copy lies there")
    walk.types(f"chmod 500 {BACKUPS}; ! systemctl start transit-desk-backup.service; systemctl stop transit-desk-backup.service\n"
               f"chmod 700 {BACKUPS}", what="a backup that fails leaves the desk running")
    walk.answered("it answers", 2)


def statement_in(said):
    """The first statement that `transit-desk-why` prints."""
    return next((it.strip() for it in said.splitlines() if re.match("    [A-Z]", it)), "no statement")


def broken_copies(walk):
    """A row of a copy is broken: it is damaged, the row is named, and the statement brings back what was there."""
    own, file = {"user": "transit-desk", "folder": BACKUPS}, "broken/desk.db"
    walk.types("sqlite3 by-hand/desk.db .dump >good.sql", what="what the copy has", **own)
    for rule, names, change in BROKEN:
        walk.types(f'rm -rf broken; cp -r by-hand broken; sqlite3 {file} "{change}"', what=f"a copy is broken: {change}", **own)
        walk.types(f"transit-desk check --country CH --db {file}", f"transit-desk: damaged {rule}", 1, "it is damaged", **own)
        said = walk.types(f"transit-desk-why {file}", status=1, what="why is asked", **own)
        walk.due("and says the same", f"damaged {rule}", said.split("\n")[0])
        walk.step(f"and names {names}", f"\n  {names}" in said, said)
        walk.types(f'sqlite3 {file} "{statement_in(said)}"', what="its statement is done", **own)
        walk.types(f"transit-desk check --country CH --db {file}", "sound", what="it is sound again", **own)
        walk.types(f"sqlite3 {file} .dump | cmp - good.sql", what="and has what was there", **own)


def broken_desk(walk):
    """A row of the desk's own file is broken while it is stopped."""
    walk.types("systemctl stop transit-desk", what="the desk is stopped")
    walk.asks("holder", "/holders/000001", told(error="desk-closed"), "nginx says so")
    change = BROKEN[-1][2]
    walk.types(f'sqlite3 {RECORDS} "{change}"', what=f"its file is broken: {change}", user="transit-desk")
    walk.types("! systemctl start transit-desk", what="it doesn't start")
    walk.types("journalctl -o cat -t serve -u transit-desk | tail -n 1", "transit-desk: damaged S7", what="the journal says why")
    said = walk.follows("OPERATIONS", "When something is wrong", ends={0: 1, 1: 1})[1]
    walk.step("the row is named", BROKEN[-1][1] in said, said)
    said = walk.follows("OPERATIONS", "Put a row right", ends={2: 1})[2]
    said = walk.follows("OPERATIONS", "Put a row right", 1, words={"STATEMENT": statement_in(said)})[1]
    walk.due("it is sound", "sound\n", said)
    walk.answered("and serves", 2)


def restored_copy(walk):
    machine = walk.machine
    machine.put("/home/clerk/more.csv", f"holder,lrn,departure,destination,lines\n000001,A3,CH001251,FR000100,{GRN}:AB12:1.00\n".encode())
    walk.types("transit-desk-send declarations --file more.csv --url https://localhost --cert holder.pem --key holder.key --ca clients-ca.pem",
               what="a third movement", user="clerk", folder="/home/clerk")
    walk.answered("stands", 3)
    walk.follows("OPERATIONS", "Restore a copy")
    walk.answered("the desk is that of the copy", 2)
    walk.types("sqlite3 /var/lib/transit-desk/replaced/desk.db 'SELECT count(*) FROM movements'", "3", what="what was there is kept",
               user="transit-desk")
    walk.types("rm -r /var/lib/transit-desk/replaced", what="and taken away", user="transit-desk")


def clock_that_was_ahead(walk):
    walk.types("systemctl stop transit-desk", what="it is stopped")
    walk.types(f"sqlite3 {RECORDS} 'UPDATE holders SET last_at = last_at + 86400'", what="a change came by a clock that was ahead",
               user="transit-desk")
    walk.types("systemctl start transit-desk", what="it is started")
    target, body = "/office/holders/000001/guarantees", "-d '{\"reference\":100,\"cover\":50,\"code\":\"AB12\"}'"
    walk.asks("office", target, told(error="clock-back"), "the holder is refused", body)
    walk.follows("OPERATIONS", "A clock that was ahead")
    walk.asks("office", target, told(grn=with_check_digit(f"{GRN[:4]}000001000002")), "the holder isn't refused", body)


def stops_and_kills(walk):
    walk.types("systemctl stop transit-desk", what="it is stopped")
    walk.types(f"transit-desk check --country CH --db {RECORDS}", "sound", what="its file is sound", user="transit-desk")
    walk.types("systemctl start transit-desk", what="it is started")
    walk.answered("and answers as before", 2)
    walk.types("pkill -9 -x transit-desk", what="it is killed")
    walk.answered("and begins again by itself", 2)


def newer_and_back(walk):
    (older, package), (newer, second) = walk.packages
    walk.machine.put(f"/root/second/{newer}", second)
    walk.machine.put(f"/root/second/older/{older}", package)
    version = "dpkg-query -W -f '${Version}\\n' transit-desk"
    walk.follows("OPERATIONS", "A newer program", folder="/root/second")
    walk.types(version, newer.split("_")[1], what="the newer package is there")
    walk.answered("and answers with the file that was kept", 2)
    walk.follows("OPERATIONS", "Back to the program before", folder="/root/second")
    walk.types(version, older.split("_")[1], what="the older package is there")
    walk.answered("and answers with the copy", 2)


def booted_anew(walk):
    walk.machine.reboot()
    walk.types("systemctl is-system-running --wait", "running", what="the machine is booted anew, and nothing failed")
    walk.answered("the desk answers through nginx", 2, 2)
    walk.types(f"curl -sS {DESK}", status=7, what="its port is shut", user="clerk")
    for it in "transit-desk-backup.timer", "transit-desk-reports.timer":
        walk.types(f"systemctl is-active {it}", "active", what=f"{it} is on")


def new_file(walk):
    walk.follows("PROXY", "Try it", 2)
    walk.asks("holder", "/holders/000001", told(error="no-holder"), "the work begins with an empty desk")


def removed(walk):
    walk.follows("PROXY", "Turn it on", 3)
    # A reload is done a moment after it was asked for.
    walk.types("for _ in $(seq 50); do curl -sS https://localhost/; [ $? -ne 7 ] || exit 7; sleep 0.2; done", status=7,
               what="nginx has no site for it")
    broken = "/run/systemd/system/transit-desk-feeds.service.d"
    walk.types(f"mkdir -p {broken} && printf '[Service]\\nExecStart=\\n' >{broken}/x.conf && systemctl daemon-reload", what="a unit can't be read")
    walk.types("sed -i 's#^BACKUPS=.*#BACKUPS=/none#' /etc/default/transit-desk-timers && ! systemctl start transit-desk-backup",
               what="a backup fails, and waits to begin again")
    walk.types("apt remove transit-desk", what="the package is removed all the same")
    walk.types(f"rm -r {broken} && systemctl daemon-reload && systemctl list-units --all --no-legend 'transit-desk*' | wc -l", "0",
               what="and no unit of it is left")
    walk.types(f"! systemctl is-active --quiet transit-desk && ! curl -s {DESK}", what="nothing runs, and nobody answers")
    walk.types("find /etc/systemd -name 'transit-desk*' | wc -l", "0", what="nothing is enabled")
    words = ("/etc/default/transit-desk /etc/default/transit-desk-timers /etc/default/transit-desk-feeds /etc/nftables.d/transit-desk.nft "
             "/etc/nginx/sites-available/transit-desk /etc/nginx/transit-desk/callers.map")
    walk.types(f"ls {words}", what="its words are kept")
    walk.types("apt purge transit-desk", what="the package is purged")
    walk.types(f"! ls {words} 2>/dev/null | grep .", what="its words are gone")
    walk.types("ls /etc/nginx/transit-desk", "server.pem", what="and what was brought is kept")
    walk.types("nginx -t && systemctl restart nginx nftables", what="nginx and nftables start without it")
    walk.types(f"test -s {RECORDS} -a -s {BACKUPS}/by-user/desk.db -a -s /var/lib/transit-desk/tried/desk.db", what="the records are kept")
