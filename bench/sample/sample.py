"""The sample network of a seed, worked out from its definition: sample.py SEED N prints nodes, links and demands.

With a third word, as in sample.py SEED N file, it prints the network file: a line ends after each closing parenthesis.
"""

import sys
from itertools import combinations


def draws(seed):
    """The function that draws a number below m."""
    x = seed

    def draw(m):
        nonlocal x
        x = (x * 6364136223846793005 + 1442695040888963407) % 2**64
        return x // 2**33 % m

    return draw


def sample(seed, n):
    """The ends of the links with the costs of their two modules, and the demands."""
    draw = draws(seed)
    ends = [(i, (i + 1) % n) for i in range(n)]
    ends += [(i, (i + 2 + draw(n - 3)) % n) for i in range(0, n, 2)]
    links = [(a, b, 20 + draw(80), 50 + draw(200)) for a, b in ends]
    demands = [(i, j, 1 + draw(40)) for i, j in combinations(range(n), 2)]
    return links, demands


def file(n, links, demands):
    """The network file, as words with a space after each but a closing parenthesis."""
    words = ["NODES", "(", *(f"n{i}" for i in range(n)), ")", "LINKS", "("]
    for e, (a, b, small, large) in enumerate(links):
        words += [f"l{e}", "(", f"n{a}", f"n{b}", ")", *["0.000"] * 4]
        words += ["(", "155.000", f"{small}.000", "622.000", f"{large}.000", ")"]
    words += [")", "DEMANDS", "("]
    for k, (a, b, need) in enumerate(demands):
        words += [f"d{k}", "(", f"n{a}", f"n{b}", ")", "1", f"{need}.000", "UNLIMITED"]
    text = "".join(word + ("\n" if word == ")" else " ") for word in [*words, ")"])
    return "?SNDlib native format; type: network; version: 1.0\n" + text


def main():
    seed, n = int(sys.argv[1]), int(sys.argv[2])
    links, demands = sample(seed, n)
    if sys.argv[3:]:
        print(file(n, links, demands), end="")
        return
    print(f"seed {seed}: nodes {n} links {len(links)} demands {len(demands)}")
    for e, (a, b, small, large) in enumerate(links):
        print(f"l{e} n{a} n{b} 155.000 for {small}.000, 622.000 for {large}.000")
    for k, (a, b, need) in enumerate(demands):
        print(f"d{k} n{a} n{b} {need}.000")


if __name__ == "__main__":
    main()
