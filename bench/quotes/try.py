"""Tries the answers of `dsedge quote` against `dsedge check`, with the value that is answered and with one more.

usage: try.py PROGRAM DOMAINS FILE..      the program, how many domains are made at random, and files of others
"""

import os
import random
import re
import subprocess
import sys
import tempfile

MOST = {"cir": 10**13, "pir": 10**13, "eir": 10**13, "cbs": 2**32 - 1, "pbs": 2**32 - 1, "ebs": 2**32 - 1}
LEAST = {"cir": 1, "pir": 1, "eir": 1, "cbs": 0, "pbs": 0, "ebs": 0}
LINE = re.compile(r'^(\w+) = "?([^"]*?)"?$')


def blocks_of(text):
    """The text cut before each heading, and what the keys of each contract say, by the number of its block."""
    blocks = re.split(r"(?m)^(?=\[\[)", text)
    contracts = {}
    for number, block in enumerate(blocks):
        if block.startswith("[[contract]]"):
            contracts[number] = dict(found.groups() for line in block.split("\n") if (found := LINE.match(line)))
    return blocks, contracts


def with_value(blocks, number, field, value):
    changed = list(blocks)
    changed[number] = re.sub(rf"(?m)^{field} = \d+$", f"{field} = {value}", changed[number])
    return "".join(changed)


def least_value(contract, field):
    """The least value that a text may have for a field of a contract."""
    kind = contract["kind"]
    if kind == "trtcm":
        if field == "pir":
            return int(contract["cir"])
        if field in ("cbs", "pbs"):
            return 1
    if kind in ("srtcm", "rfc4115") and field in ("cbs", "ebs"):
        other = "ebs" if field == "cbs" else "cbs"
        return 1 if int(contract[other]) == 0 else 0
    return LEAST[field]


class Trial:
    def __init__(self, program, folder):
        self.program = program
        self.domain = os.path.join(folder, "domain.toml")
        self.certificate = os.path.join(folder, "certificate.txt")
        self.values = self.nones = 0

    def run(self, *words):
        done = subprocess.run([self.program, *words], capture_output=True, text=True, stdin=subprocess.DEVNULL)
        return done.returncode, done.stdout, done.stderr

    def checked(self, text):
        """What the checker says of the least certificate of a text; None where the text is refused."""
        with open(self.domain, "w") as file:
            file.write(text)
        status, certificate, _ = self.run("certify", self.domain)
        if status == 3:
            return None
        assert status == 0, (status, text)
        with open(self.certificate, "w") as file:
            file.write(certificate)
        return self.run("check", self.domain, self.certificate)[1]

    def field(self, text, blocks, number, contract, field):
        with open(self.domain, "w") as file:
            file.write(text)
        status, answer, told = self.run("quote", self.domain, "--contract", contract["name"], "--most", field)
        about = (text, contract["name"], field, status, answer, told)
        if status == 1:
            self.nones += 1
            least = self.checked(with_value(blocks, number, field, least_value(contract, field)))
            assert answer == "none\n" + least and least != "accepted\n", (about, least)
            return
        assert status == 0, about
        self.values += 1
        word, value = answer.split()
        assert word == field, about
        value = int(value)
        assert self.checked(with_value(blocks, number, field, value)) == "accepted\n", about
        more = self.checked(with_value(blocks, number, field, value + 1))
        assert more is None or more.startswith("refused "), (about, more)

    def text(self, text):
        blocks, contracts = blocks_of(text)
        for number, contract in contracts.items():
            for field in MOST:
                if field in contract:
                    self.field(text, blocks, number, contract, field)


def entry(heading, keys):
    lines = [f"[[{heading}]]"]
    for key, value in keys.items():
        lines.append(f"{key} = {value}" if isinstance(value, (int, list)) else f'{key} = "{value}"')
    return "\n".join(lines).replace("'", '"') + "\n"


def rates_of(kind, random_, scale):
    """Rates and bursts of a kind, about as large as a scale."""
    rate = lambda: random_.randint(1, 8_000_000 * scale)
    burst = lambda: random_.choice([0, 1, random_.randint(1, 6000 * scale)])
    if kind == "trtcm":
        committed = rate()
        return {"cir": committed, "cbs": burst() or 1, "pir": committed + random_.choice([0, rate()]), "pbs": burst() or 1}
    if kind == "srtcm":
        return {"cir": rate(), "cbs": burst() or 1, "ebs": burst()}
    return {"cir": rate(), "cbs": burst() or 1, "eir": rate(), "ebs": burst()}


def trusted(random_, version):
    keys = {"cir": random_.randint(1, 8_000_000), "cbs": random_.randint(0, 6000)}
    if random_.random() < 0.5:
        keys |= {"pir": random_.randint(1, 16_000_000), "pbs": random_.randint(0, 9000)}
        if version == 2 and random_.random() < 0.5:
            keys |= {"eir": random_.randint(1, 8_000_000), "ebs": random_.randint(0, 4000)}
    return keys


def domain(number):
    """A domain of up to three meters and six contracts, made at random by its number."""
    random_ = random.Random(number)
    version = random_.choice([1, 2])
    meters = [f"m{place}" for place in range(random_.randint(1, 3))]
    parts = [f"version = {version}\n"]
    for name in meters:
        kind = random_.choice(["srtcm", "trtcm", "rfc4115"])
        keys = rates_of(kind, random_, random_.choice([1, 3, 10]))
        parts.append(entry("meter", {"name": name, "kind": kind, **keys, "skew": random_.choice([0, 500_000])}))
    parts.append(entry("port", {"name": "p", "skew": random_.choice([0, 1_000_000])}))
    for from_ in ["p", *meters]:
        for to in meters:
            if from_ != to:
                keys = {"from": from_, "to": to, "floor": 0, "jitter": random_.choice([0, 1, 1_000_000])}
                parts.append(entry("link", keys))
    for place in range(random_.randint(1, 6)):
        path = random_.sample(meters, random_.randint(1, len(meters)))
        kind = random_.choice(["trusted", "trusted", "srtcm", "trtcm", "rfc4115"])
        keys = {"name": f"c{place}", "kind": kind, "port": "p", "path": path, "class": random_.randint(1, 4)}
        if kind == "trusted":
            keys |= trusted(random_, version)
        else:
            keys |= {"mode": "blind", **rates_of(kind, random_, 1)}
        parts.append(entry("contract", keys))
    return "\n".join(parts)


def main():
    program, count, files = sys.argv[1], int(sys.argv[2]), sys.argv[3:]
    with tempfile.TemporaryDirectory() as folder:
        trial = Trial(program, folder)
        for name in files:
            with open(name) as file:
                trial.text(file.read())
        for number in range(count):
            trial.text(domain(number))
    print(f"{len(files)} examples and {count} domains: {trial.values} values and {trial.nones} nones, and one more of each refused")


main()
