#!/usr/bin/env python3
"""Makes accounts.csv, accounts.v and transfers.e of this folder: who is who, and who has paid whom in a month.

The accounts and the payments are invented. No random numbers are drawn, so each call writes the same files."""

import math
import pathlib

HERE = pathlib.Path(__file__).resolve().parent

SHIPYARD, HOUSING, GROCER, STATIONER, PAPER_MILL, COURIER, ROWING_CLUB = 1001, 1014, 1015, 1020, 1033, 1034, 1040
WORKERS = dict(zip(range(1002, 1014), "Albers Bruns Claasen Dirks Evers Folkerts Gerdes Harms Ihnen Janssen Kruse Lüken".split()))
CUSTOMERS = dict(zip(range(1021, 1033), "Meyer Norden Ortgies Peters Quade Reents Saathoff Tammen Uphoff Voss Wilts Zobel".split()))
MEMBERS = dict(zip(range(1041, 1050), "Arends Bohlen Coners Duis Ennen Freese Groen Heyen Immega".split()))
FIRST_SHELLS = dict(zip(range(1061, 1066), "Kestrel Merlin Osprey Harrier Goshawk".split()))
SECOND_SHELLS = dict(zip(range(1071, 1075), "Linnet Siskin Plover Dunlin".split()))
FIRMS = {SHIPYARD: "Shipyard", HOUSING: "Housing", GROCER: "Grocer", STATIONER: "Stationer", PAPER_MILL: "Paper mill",
         COURIER: "Courier", ROWING_CLUB: "Rowing club"}


def payments():
    """Payer, payee and euros, the sum of a month."""
    for place, worker in enumerate(WORKERS):
        yield SHIPYARD, worker, 2150 + 85.5 * (place % 5)
        yield worker, HOUSING if place % 3 else GROCER, 610 + 12.25 * place
    for place, customer in enumerate(CUSTOMERS):
        yield customer, STATIONER, 18.9 + 7.35 * place
    yield STATIONER, PAPER_MILL, 1240.0
    yield STATIONER, COURIER, 316.4
    yield GROCER, COURIER, 128.75
    yield SHIPYARD, STATIONER, 402.1
    for place, member in enumerate(MEMBERS):
        yield member, ROWING_CLUB, 25.0
        if place:
            yield member, member - 1, 4.5 + place
    for member in (1003, 1008, 1024):
        yield member, ROWING_CLUB, 25.0
    yield ROWING_CLUB, GROCER, 96.3
    for shells, start in ((FIRST_SHELLS, 9900), (SECOND_SHELLS, 9590)):
        for shell in list(shells)[:-1]:
            yield shell, shell + 1, start - 52.5 * (shell % 10)


def around(middle, radius, vertices, first=0.0):
    """The places of some vertices on a circle."""
    for place, vertex in enumerate(vertices):
        turn = first + 2 * math.pi * place / len(vertices)
        yield vertex, (middle[0] + radius * math.cos(turn), middle[1] + radius * math.sin(turn))


def places():
    """Where each account stands in the picture."""
    found = {SHIPYARD: (0, 0), HOUSING: (-15, 26), GROCER: (13, 25), COURIER: (36, 22), STATIONER: (58, 0),
             PAPER_MILL: (58, 26), ROWING_CLUB: (26, 46)}
    found.update(around((0, 0), 18, WORKERS))
    found.update(around((58, 0), 18, CUSTOMERS))
    found.update(around((26, 46), 12, MEMBERS))
    found.update(around((98, 22), 17, [*FIRST_SHELLS, *SECOND_SHELLS]))
    return found


def main():
    names = {**FIRMS, **WORKERS, **CUSTOMERS, **MEMBERS, **FIRST_SHELLS, **SECOND_SHELLS}
    at = places()
    lines = [f"{vertex},{at[vertex][0]:.1f},{at[vertex][1]:.1f},{names[vertex]}\n" for vertex in sorted(names)]
    (HERE / "accounts.csv").write_text("id,x,y,name\n" + "".join(lines), encoding="utf-8")
    (HERE / "accounts.v").write_text("".join(f"{vertex}\n" for vertex in sorted(names)))
    edges = "".join(f"{payer} {payee} {euros:.2f}\n" for payer, payee, euros in payments())
    (HERE / "transfers.e").write_text("# payer, payee, euros\n" + edges)


if __name__ == "__main__":
    main()
