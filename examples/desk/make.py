#!/usr/bin/env python3
"""Writes the transfers of a day, a line for each: who pays, who is paid, and the amount.

Customers (1 to 60) pay shops (101 to 120), shops pay suppliers (201 to 210), and so no money comes back to who paid
it. Three rings stand among these transfers, each of which moves an amount round: of three shops, of four customers and
of a supplier, a customer and two shops. With a SCALE above 1 there are so many times as many of each.

    make.py [TRANSFERS [SCALE]] >transfers
"""

import random
import sys

def transfers(count, scale, draw):
    """So many transfers in the order in which they come in, the rings among them."""
    shop, supplier = 100 * scale, 200 * scale
    customers = range(1, 60 * scale + 1)
    shops = range(shop + 1, shop + 20 * scale + 1)
    suppliers = range(supplier + 1, supplier + 10 * scale + 1)
    rings = ((shop + 3, shop + 11, shop + 19), (7, 22, 41, 58), (supplier + 4, 33, shop + 8, shop + 15))
    rows = []
    for _ in range(count - sum(map(len, rings))):
        if draw.random() < 0.7:
            rows.append((draw.choice(customers), draw.choice(shops), draw.randint(5, 200)))
        else:
            rows.append((draw.choice(shops), draw.choice(suppliers), draw.randint(200, 2000)))
    for ring in rings:
        amount = draw.randint(4000, 9000)
        places = sorted(draw.sample(range(len(rows)), len(ring)), reverse=True)
        for place, payer, payee in zip(places, ring, ring[1:] + ring[:1]):
            rows.insert(place, (payer, payee, amount))
    return rows


def main():
    words = [int(word) for word in sys.argv[1:]]
    count, scale = words + [400, 1][len(words):]
    for row in transfers(count, scale, random.Random(11)):
        print(*row)


main()
