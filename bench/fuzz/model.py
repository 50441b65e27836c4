"""A slow model of the library, written from docs/ alone: layouts by trying all ends in turn, the sheet line by line."""

from itertools import combinations

MOST_BASELINES, MOST_ISSUES, MOST_SHEET = 64, 9999, 16384


def clusters(n, shares):
    seen, found = set(), []
    for root in range(n):
        if root in seen:
            continue
        cluster, todo = [], [root]
        seen.add(root)
        while todo:
            i = todo.pop(0)
            cluster.append(i)
            for j in range(n):
                if j not in seen and shares(i, j):
                    seen.add(j)
                    todo.append(j)
        found.append(cluster)
    return found


def layouts(cluster, shares):
    """All layouts of a cluster, a baseline's ends being two numbers, up to renaming: each baseline in turn takes two imagers
    that stand already, or new ones, such that it has one in common with each earlier baseline that it shares with, and none
    with each other."""
    ends, found = {}, []

    def fits(i, pair):
        return all(len(pair & ends[j]) == (1 if shares(i, j) else 0) for j in ends)

    def extend(k, imagers):
        if k == len(cluster):
            found.append(dict(ends))
            return
        i = cluster[k]
        for a, b in combinations(range(imagers + 2), 2):
            if b == imagers + 1 and a != imagers:
                continue
            pair = frozenset((a, b))
            if fits(i, pair):
                ends[i] = pair
                extend(k + 1, max(imagers, b + 1))
                del ends[i]

    extend(0, 0)
    return found


def threes(layout):
    """The threes of baselines that have a common imager."""
    at = {}
    for i, pair in layout.items():
        for a in pair:
            at.setdefault(a, []).append(i)
    return {three for star in at.values() for three in combinations(sorted(star), 3)}


def chosen(groupings):
    """Of sets of threes, the one that has the first three on which it disagrees with each other."""
    best = groupings[0]
    for other in groupings[1:]:
        first = min(best ^ other, default=None)
        if first in other:
            best = other
    return best


def place(n, shares):
    """(imagers, [(lower, higher, doubtful)]), or the lowest baseline whose cluster has no layout."""
    stars, doubtful = [], set()
    for cluster in clusters(n, shares):
        found = layouts(cluster, shares)
        if not found:
            return None, min(cluster)
        by_threes = {frozenset(threes(l)): l for l in found}
        if len(by_threes) > 1:
            doubtful |= set(cluster)
        layout = by_threes[frozenset(chosen(list(by_threes)))]
        at = {}
        for i, pair in layout.items():
            for a in pair:
                at.setdefault(a, []).append(i)
        stars += [sorted(star) for star in at.values()]
    stars.sort(key=lambda star: star + [n])
    ends = [[] for _ in range(n)]
    for a, star in enumerate(stars):
        for i in star:
            ends[i].append(a)
    return len(stars), [(lo, hi, i in doubtful) for i, (lo, hi) in enumerate(ends)]


def entry(n, square, out):
    """The answer of the C entry, and what it leaves in `out`."""
    if n > MOST_BASELINES:
        return 6, out
    if len(square) != n * n:
        return 7, out
    for k, byte in enumerate(square):
        i, j = divmod(k, n)
        if byte > 1 or (i == j and byte) or byte != square[j * n + i]:
            return 8 + 256 * k, out
    imagers, told = place(n, lambda i, j: i != j and square[i * n + j] == 1)
    if imagers is None:
        return 18 + 256 * told, out
    if len(out) < 3 * n:
        return 19 + 256 * 3 * n, out
    return 256 * imagers, b"".join(bytes(entry) for entry in told) + out[3 * n:]


class Refused(Exception):
    def __init__(self, number, detail=0, layer="S"):
        self.reply = (number, detail, layer)


class Survey:
    """Survey 1 over a grid."""

    def __init__(self):
        self.spans, self.pairs, self.layout, self.issues = [], set(), None, 0

    def shares(self, i, j):
        return frozenset((i, j)) in self.pairs

    def enlist(self, span):
        if span == 0:
            raise Refused(10)
        if len(self.spans) >= MOST_BASELINES:
            raise Refused(11)
        self.spans.append(span)
        self.layout = None
        return [len(self.spans) - 1]

    def mark(self, i, j, on):
        if i >= len(self.spans) or j >= len(self.spans):
            raise Refused(12)
        if i == j:
            raise Refused(13)
        changed = self.shares(i, j) != on
        if changed:
            self.pairs ^= {frozenset((i, j))}
            self.layout = None
        return [int(changed)]

    def resolve(self):
        imagers, told = place(len(self.spans), self.shares)
        if imagers is None:
            raise Refused(18, told)
        self.layout = imagers, told
        return [imagers, sum(doubtful for _, _, doubtful in told)]

    def issue(self):
        if self.layout is None:
            raise Refused(15)
        if self.issues >= MOST_ISSUES:
            raise Refused(16)
        self.issues += 1
        imagers, told = self.layout
        lines = [("P", 1, self.issues, imagers)]
        lines += [("L", a, i, self.spans[i]) for a in range(imagers) for i, e in enumerate(told) if a in e[:2]]
        lines += [("T", 1, self.issues, len(self.spans))]
        lines += [("R", i, lo, hi, self.spans[i], "D" if d else "C") for i, (lo, hi, d) in enumerate(told)]
        return "".join(",".join(map(str, line)) + "\n" for line in lines)


WORDS = {b"enlist": 1, b"share": 2, b"part": 2, b"resolve": 0, b"issue": 0}


def number(field, place):
    digits = 1 <= len(field) <= 5 and all(48 <= b <= 57 for b in field)
    if not digits or (len(field) > 1 and field[0] == 48) or int(field) > 65535:
        raise Refused(5, place, "T")
    return int(field)


def answer(survey, line):
    if not line.endswith(b"\n"):
        raise Refused(2, 0, "T")
    word, *rest = line[:-1].split(b",")
    if word not in WORDS:
        raise Refused(3, 0, "T")
    if len(rest) != WORDS[word]:
        raise Refused(4, 0, "T")
    numbers = [number(field, k + 1) for k, field in enumerate(rest)]
    if word == b"issue":
        return survey.issue()
    calls = {b"enlist": survey.enlist, b"resolve": survey.resolve}
    calls[b"share"] = lambda i, j: survey.mark(i, j, True)
    calls[b"part"] = lambda i, j: survey.mark(i, j, False)
    return ",".join(["ok"] + [str(x) for x in calls[word](*numbers)]) + "\n"


def sheet(text):
    """What the program replies to a sheet."""
    survey, replies = Survey(), []
    for k, line in enumerate(text[:MOST_SHEET].split(b"\n")):
        last = k == text[:MOST_SHEET].count(b"\n")
        if last and not line:
            break
        try:
            replies.append(answer(survey, line if last else line + b"\n"))
        except Refused as refused:
            replies.append(",".join(map(str, ("no", k + 1, *refused.reply))) + "\n")
    return "".join(replies).encode()
