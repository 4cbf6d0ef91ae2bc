#!/usr/bin/env python3
"""Makes the tables and the clerks' scripts of this folder from a seed: accounts.csv, transfers.csv, clerk1 to clerk3.

Accounts and sums are invented. The same seed gives the same files."""

import pathlib
import random
import sys

HERE = pathlib.Path(__file__).resolve().parent
SEED, ACCOUNTS, TRANSFERS, CLERKS, CHANGES = 6, 60, 150, 3, 14
CITIES = ("Emden", "Leer", "Norden", "Aurich", "Jever")


class Dice:
    """Draws by the one call whose numbers are the same in each version of Python."""

    def __init__(self, seed):
        self.source = random.Random(seed)

    def below(self, most):
        return int(self.source.random() * most)

    def cents(self):
        return 500 + self.below(250000)


def euros(cents):
    return f"{cents // 100},{cents % 100:02d}"


def accounts(dice):
    """The account's text id and its holder. The place of an account from 1 is the number that the import gives it."""
    return [(f"DE{10 + dice.below(90)}-{100000 + 7919 * place}", f'"Holder {place}, {CITIES[dice.below(len(CITIES))]}"')
            for place in range(1, ACCOUNTS + 1)]


def transfers(dice):
    """Payer, payee and cents, with repeats and two lines that pay the payer."""
    pairs = [(1 + dice.below(ACCOUNTS), 1 + dice.below(ACCOUNTS)) for _ in range(TRANSFERS)]
    pairs = [(payer, payee) for payer, payee in pairs if payer != payee]
    return [(payer, payee, dice.cents()) for payer, payee in pairs + pairs[:9]] + [(3, 3, 100), (8, 8, 250)]


def script_of(dice, pairs):
    """A clerk's day: standing transfers get another sum, are ended, or are begun. All clerks like the same few pairs."""
    lines = ["# a transaction for each order"]
    for _ in range(CHANGES):
        payer, payee = pairs[dice.below(4 if dice.below(3) else len(pairs))]
        kind = dice.below(8)
        if kind == 0:
            payer, payee = 1 + dice.below(ACCOUNTS // 2), ACCOUNTS // 2 + 1 + dice.below(ACCOUNTS // 2)
        write = {0: f"edge {payer} {payee} {dice.cents()}", 1: f"drop {payer} {payee}"}
        lines += ["begin", f"weight {payer} {payee}", write.get(kind, f"set {payer} {payee} {dice.cents()}"), "commit"]
    return "".join(f"{line}\n" for line in lines)


def main():
    dice = Dice(int(sys.argv[1]) if sys.argv[1:] else SEED)
    listed = accounts(dice)
    paid = transfers(dice)
    text = "account;holder\n" + "".join(f"{account};{holder}\n" for account, holder in listed)
    (HERE / "accounts.csv").write_text(text, encoding="utf-8")
    text = "payer;payee;euros\n" + "".join(
        f"{listed[payer - 1][0]};{listed[payee - 1][0]};{euros(cents)}\n" for payer, payee, cents in paid)
    (HERE / "transfers.csv").write_text(text, encoding="utf-8")
    pairs = list(dict.fromkeys((payer, payee) for payer, payee, _ in paid if payer != payee))
    for clerk in range(1, CLERKS + 1):
        (HERE / f"clerk{clerk}").write_text(script_of(dice, pairs), encoding="utf-8")


if __name__ == "__main__":
    main()
