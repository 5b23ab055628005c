"""The inputs of the bench: the same bytes for the same seed and size."""
import random

COUNTRIES = [a + b for a in "ABDEFGI" for b in "DEKLRST"]


def filled(most, line):
    """Lines until one more would pass so many bytes."""
    out, size = [], 0
    while True:
        text = line(len(out))
        if size + len(text) > most:
            return "".join(out)
        out.append(text)
        size += len(text)


def rows(rng, most):
    """A long and a hexadecimal text; each long stands about three times."""
    keys = max(1, most // 60)
    return {"t": filled(most, lambda i: f"{rng.randrange(keys) * 7919 - 100_000},"
                                        f"{rng.getrandbits(20 + rng.randrange(61)):x}\n")}


def words(rng, most):
    """Words of 2 to 12 letters, few of them often."""
    letters = "etaoinshrdlucmfwypvbgkqjxz"
    known = ["".join(rng.choices(letters, k=rng.randint(2, 12))) for _ in range(most // 80 + 2)]
    return {"t": filled(most, lambda i: known[int(len(known) * rng.random() ** 3)] + "\n")}


def orders(rng, most):
    """Customers with a country, and orders with a customer and an amount; one order in fifty is
    of a customer that there isn't."""
    customers = filled(most // 4, lambda i: f"{i + 1},{rng.choice(COUNTRIES)}\n")
    count = customers.count("\n")
    return {"customers": customers,
            "orders": filled(most, lambda i: f"{i},{rng.randint(1, count + count // 50 + 1)},"
                                             f"{rng.randint(1, 100_000)}\n")}


CASES = {"sort": rows, "filter": rows, "words": words, "orders": orders}


def make(case, seed, most):
    """The texts of a case's inputs, by the names of its sources; each has at most `most` bytes."""
    return CASES[case](random.Random(f"{case} {seed}"), most)
