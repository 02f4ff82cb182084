#!/usr/bin/env python3
"""generate.py FOLDER: writes a fact for each vector beside this file, as the modules of a crate's proofs/.

A fact says that the definitions, evaluated by the checker, give a vector's expected answer (Asked.antt.txt says what is
asked of them). It has the number of the vector's line in its file, from 1. Of the runs there is a fact for each month
that those of runs-Q1 accept, on the ledger and the credits that the months before it leave: no closing of the base has
direct charges.
"""
import json
import os
import sys

HERE = os.path.dirname(os.path.abspath(__file__))

def vectors(name):
    """(line number, vector) of a file, in order."""
    with open(os.path.join(HERE, name + ".jsonl"), encoding="latin-1") as f:
        return [(i, json.loads(line)) for i, line in enumerate(f, 1) if line.strip()]


# ---- terms


def z(x):
    return f"pos {x}" if x >= 0 else f"minus {-x}"


def listed(terms):
    return " ∷ ".join(terms + ["[]"])


def zs(xs):
    return listed([z(x) for x in xs])


def rows(lines):
    """A line's values on a line of text."""
    return "".join(f"\n          {'' if i == 0 else '∷ '}({zs(line)})" for i, line in enumerate(lines)) + (
        "\n          ∷ []" if lines else " []")


def record(fields):
    return "record { " + "; ".join(f"{k} = {v}" for k, v in fields) + " }"


def tall(fields):
    """A record with a field on a line of text."""
    return "record {\n" + "".join(f"      {k} ={v if v.startswith(chr(10)) else ' ' + v.strip()};\n" for k, v in fields) + "    }"


def ledger(g):
    return record([("users", g[0]), ("agents", g[1]), ("month", z(g[2]))])


def blocks(v):
    return [("month", z(v["month"])), ("ons", z(v["ons"]))] + [(k, rows(v[k])) for k in ("agents", "users", "points")]


def quoted(text):
    plain = {'"': '\\"', "\\": "\\\\", "\n": "\\n"}
    return '"' + "".join(plain.get(c, c if " " <= c <= "~" else "\\u{%x}" % ord(c)) for c in text) + '"'


# ---- the months of a run


def month_file(text):
    """The values of a month file after its first line of names."""
    month, agents = text.split("agent,pb,pv,afs,rfs,pa,ret\n")
    agents, users = agents.split("user,kind,ret,ong\n")
    users, points = users.split("at,tp,tf,dp,df,mp,mf,vp,vf\n")
    points = points.split("m")[0]  # where a further file begins, faulty in its first line
    values = lambda lines: [[int(x) for x in line.split(",")] for line in lines.splitlines()]
    (yyyymm, ons), = values(month)
    return {"month": yyyymm, "ons": ons, "agents": values(agents), "users": values(users), "points": values(points)}


def months(name):
    """(its run's line and the file's place in it, the closing) of each month that the runs accept."""
    for number, run in vectors(name):
        ledger, held = None, None
        texts = run["text"].replace("\r\n", "\n").split("month,ons\n")[1:]
        for k, (event, text) in enumerate(zip(run["events"], texts), 1):
            if event.get("refused", [0])[0] in (11, 12):  # what is refused so is no month file, and the last
                break
            v = month_file(text)
            ledger = ledger or [len(v["users"]), len(v["agents"]), 0]
            held = held or [0] * ledger[0]
            if "refused" in event:
                continue
            expect = {"accepted": {a: event[a] for a in AMOUNTS}}
            yield f"{number}_{k}", dict(v, ledger=ledger, held=held, cells_len=1088, work_len=2500, expect=expect)
            ledger, held = ledger[:2] + [v["month"]], event["held"]


# ---- statements


def share(v):
    return "share " + " ".join(f"({z(x)})" for x in v[:4]), z(v[4])


def opening(v):
    back = v["refused"]
    verdict = f"refused {back[0]} {back[1]}" if back else "accepted"
    return f"opening {v['users']} {v['agents']} {v['held_len']}", record([("verdict", verdict), ("ledger", ledger(v["ledger"]))])


AMOUNTS = ["eust", "overrun", "vme", "cpv", "n", "vd", "held", "ong", "vmst", "vmpa", "smse", "vmant", "vc", "credit"]


def closing(v):
    slices = [("ledger", ledger(v["ledger"])), ("held", zs(v["held"])), ("cells", str(v["cells_len"])), ("work", str(v["work_len"]))]
    asked = f"closing ({tall(slices + blocks(v))})"
    if "refused" in v["expect"]:
        number, place = v["expect"]["refused"]
        return asked, f"comes_back {number} {place}"
    a = v["expect"]["accepted"]
    # a closing of the base: no direct charges, so credits are the shared ones
    a = {"ong": [0] * len(v["users"]), "credit": a["vc"], **a}
    assert set(a) == set(AMOUNTS), sorted(a)
    return asked, f"closes ({tall([(k, z(a[k]) if k == 'smse' else zs(a[k])) for k in AMOUNTS])})"


def reading(v):
    e = v["expect"]
    if "refused" in e:
        answer = f"refused {e['refused'][0]} {e['refused'][1]}"
    else:
        answer = f"accepted ({tall(blocks(e))}) {e['position']}"
    asked = f"texts {quoted(v['text'])} {v['position']} " + " ".join(str(n) for n in v["capacity"])
    return asked, record([("reading", answer), ("check", z(v["check"]))])


# ---- modules


def module(words, source, names, fact, numbered):
    """The facts on these vectors: `names` from elsewhere, `fact` their word and unfolding."""
    word, asked, statement = fact
    text = f"-- {words}: the answers of tests/vectors/{source}.jsonl. Written by tests/vectors/generate.py.\n"
    text += "".join(f"use {name}\n" for name in names)
    for number, v in numbered:
        left, right = statement(v)
        note = f"-- {v['name']}\n" if "name" in v else ""
        line = f"{word}_{number} : {left} ≡ {right}"
        if "\n" in line or len(line) > 150:
            line = f"{word}_{number} :\n    {left}\n    ≡ {right}"
        text += f"\n{note}{line}\nunfolding {asked}\n{word}_{number} = refl\n"
    return text


def modules():
    whole = "Rattle.std.specs.Prelude.{◌≡◌, pos, refl}"
    lists = "Rattle.std.specs.Prelude.{◌≡◌, [], ◌∷◌, pos, refl}"
    asked = "Rattle.vectors.specs.Asked.{%s}"
    closings = vectors("closings")
    return {
        "Shares": module(
            "The share as C sees it", "shares", [whole, asked % "minus, share"], ("share", "share", share),
            vectors("shares")),
        "Openings": module(
            "Openings", "openings", [whole, "Rattle.rules.specs.Verdict.{accepted, refused}", asked % "opening"],
            ("opening", "opening", opening), vectors("openings")),
        "Closings": module(
            "Accepted months, every amount", "closings", [lists, asked % "minus, closes, closing"],
            ("closing", "closing", closing), [(i, v) for i, v in closings if "accepted" in v["expect"]]),
        "Refusals": module(
            "Refused months", "closings", [lists, asked % "minus, comes_back, closing"],
            ("closing", "closing", closing), [(i, v) for i, v in closings if "refused" in v["expect"]]),
        "Months": module(
            "Months of runs, every amount", "runs-Q1", [lists, asked % "minus, closes, closing"],
            ("month", "closing", closing), list(months("runs-Q1"))),
        "Readings": module(
            "Reading and the file check", "readings",
            [lists, "Rattle.format.specs.Reading.{accepted, refused}", asked % "minus, texts"],
            ("reading", "texts", reading), vectors("readings")),
    }


def main(folder):
    os.makedirs(folder, exist_ok=True)
    made = modules()
    made["Lib"] = "".join(f"pub mod {name}\n" for name in made)
    for name, text in made.items():
        with open(os.path.join(folder, name + ".antt"), "w", encoding="utf-8") as f:
            f.write(text)


if __name__ == "__main__":
    main(sys.argv[1])
