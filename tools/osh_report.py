"""Reads what osh prints: scores, verdicts, counts, faults and the lines on standard error. Shared by osh-picture and osh-explain."""
import re
from dataclasses import dataclass, field

STATE = re.compile(r"(bag|agree\((?P<agree>[^)]*)\)) (?P<place>solo|entire|none|(?:hash|modulus)\([^)]*\)) sort\((?P<sort>[^)]*)\)")


def names_in(text):
    return [it for it in text.split(",") if it]


def in_brackets(text):
    """The names between the brackets of a text like hash(a,b)."""
    found = re.search(r"\((.*)\)$", text)
    return names_in(found[1]) if found else []


@dataclass
class State:
    text: str
    agree: list  # names, or None for a bag
    place: str
    sort: list

    @classmethod
    def read(cls, text):
        found = STATE.fullmatch(text)
        agree = None if found and found["agree"] is None else names_in(found["agree"]) if found else None
        return cls(text, agree, found["place"] if found else "", names_in(found["sort"]) if found else [])


@dataclass
class Operator:
    number: int
    name: str = ""
    how: str = ""  # seq, par or set, and the number of partitions
    grade: str = ""


@dataclass
class Link:
    number: int
    producer: int = None
    output: int = 0
    consumer: int = None
    input: int = 0
    method: str = ""
    sort: str = ""  # of a sort that osh put in
    state: State = None
    count: str = ""


@dataclass
class Refusal:
    link: int
    need: str
    state: State


@dataclass
class Fault:
    operator: int
    kind: str
    place: int
    bytes: str


@dataclass
class Report:
    nodes: int = None
    players: int = None
    operators: dict = field(default_factory=dict)
    links: dict = field(default_factory=dict)
    is_accepted: bool = False
    refusal: Refusal = None
    faults: int = None
    least: Fault = None
    status: int = None
    errors: list = field(default_factory=list)  # lines `osh: ..`, without that word
    others: list = field(default_factory=list)

    def operator(self, number):
        return self.operators.setdefault(number, Operator(number))

    def link(self, number):
        return self.links.setdefault(number, Link(number))

    def has_score(self):
        return any(it.consumer is not None for it in self.links.values())


def read_op(report, found):
    it = report.operator(int(found[1]))
    it.name, it.how = found[2], found[3]


def read_route(report, found):
    it = report.link(int(found[1]))
    it.producer, it.output, it.consumer, it.input = (int(found[at]) for at in (2, 3, 4, 5))
    it.method, it.sort = found[6], found[7] or ""


def read_state(report, found):
    report.link(int(found[1])).state = State.read(found[2])


def read_count(report, found):
    report.link(int(found[1])).count = found[2]


def read_grade(report, found):
    report.operator(int(found[1])).grade = found[2]


def read_refusal(report, found):
    report.refusal = Refusal(int(found[1]), found[2], State.read(found[3]))


def read_least(report, found):
    report.least = Fault(int(found[1]), found[2], int(found[3]), found[4])


def setter(name):
    return lambda report, found: setattr(report, name, int(found[1]))


# the first form that fits counts
LINES = [
    (r"score nodes (\d+)", setter("nodes")),
    (r"op (\d+) (\w+) (seq \d+|par \d+|set \d+)", read_op),
    (r"link (\d+) (\d+)\.(\d+) (\d+)\.(\d+) (\S+?(?:\(.*?\))?)(?: tsort\((.*)\))?", read_route),
    (r"players (\d+)", setter("players")),
    (r"verdict accepted", lambda report, _: setattr(report, "is_accepted", True)),
    (r"verdict refused link (\d+) need (.+) have (.+)", read_refusal),
    (r"link (\d+) ((?:bag|agree).+)", read_state),
    (r"sink (\d+) (exact|by .+|bag)", read_grade),
    (r"count (\d+) (\d+)", read_count),
    (r"faults (\d+)", setter("faults")),
    (r"least op (\d+) (\w+) (\d+) (\S+)", read_least),
    (r"status (\d+)", setter("status")),
    (r"osh: (.+)", lambda report, found: report.errors.append(found[1])),
]


def read(text):
    report = Report()
    for line in text.splitlines():
        for form, take in LINES:
            found = re.fullmatch(form, line.rstrip())
            if found:
                take(report, found)
                break
        else:
            report.others += [line] * bool(line.strip())
    return report
