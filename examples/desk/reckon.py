#!/usr/bin/env python3
"""Says what the desk has to say at the end of a day, from the definitions and without the store.

    reckon.py <transfers
"""

import collections
import sys

ROUNDS = 10


def arcs_of(transfers):
    """Whom each account has paid, and who has paid it, each in rising order."""
    paid, payers = collections.defaultdict(set), collections.defaultdict(set)
    for payer, payee, _ in transfers:
        paid[payer].add(payee)
        payers[payee].add(payer)
    accounts = sorted(set(paid) | set(payers))
    return accounts, {a: sorted(paid[a]) for a in accounts}, {a: sorted(payers[a]) for a in accounts}


def reached(start, steps):
    """How many steps each account is from the start."""
    hops, edge = {start: 0}, [start]
    while edge:
        after = []
        for account in edge:
            for other in steps(account):
                if other not in hops:
                    hops[other] = hops[account] + 1
                    after.append(other)
        edge = after
    return hops


def count_components(accounts, paid, payers):
    """How many sets of accounts there are between which nobody has paid anybody."""
    left, count = set(accounts), 0
    while left:
        left -= set(reached(min(left), lambda a: paid[a] + payers[a]))
        count += 1
    return count


def labels_of(accounts, paid, payers):
    """The label that most of those have who have paid an account or were paid by it, the least of several."""
    labels = {a: a for a in accounts}
    for _ in range(ROUNDS):
        met = {a: collections.Counter(labels[b] for b in paid[a] + payers[a]) for a in accounts}
        labels = {a: min(met[a], key=lambda label: (-met[a][label], label)) for a in accounts}
    return labels


def ring_of(account, paid, payers):
    """The account, who paid it, who paid that one, and so on, always the nearest from the account."""
    hops = reached(account, lambda a: paid[a])
    ring, place = [account], account
    while True:
        near = [a for a in payers[place] if a in hops]
        if not near:
            return None
        place = min(near, key=lambda a: (hops[a], a))
        if place == account:
            return ring
        ring.append(place)


def main():
    transfers = [tuple(map(int, line.split())) for line in sys.stdin]
    accounts, paid, payers = arcs_of(transfers)
    labels = labels_of(accounts, paid, payers)
    rings = {}
    for account in accounts:
        ring = ring_of(account, paid, payers)
        if ring:
            rings.setdefault(tuple(sorted(ring)), ring)
    components = count_components(accounts, paid, payers)
    print(f"{len(transfers)} transfers booked, 0 refused, {len(transfers)} commits")
    amount = sum(amount for _, _, amount in transfers)
    print(f"{len(accounts)} accounts, {components} components, {len(rings)} rings, {amount} paid in all")
    for ring in rings.values():
        text = " pays ".join(map(str, [ring[0]] + ring[::-1]))
        print(text + (", in one group" if len({labels[a] for a in ring}) == 1 else ""))


main()
