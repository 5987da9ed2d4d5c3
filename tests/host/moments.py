"""Calls that several processes make on a data folder of this host at once, and whether single steps in one order explain
every answer.

moments.py PROGRAM WORK SEED SECONDS: in the folder WORK eight processes of PROGRAM (host_tools) make random calls on a few
pods. A history has 4 to 8 processes with 3 to 5 calls each; each call is kept with its answer and the times before and
after it. Then an order is searched in which each call takes its steps between its two times, one at a time, each answer is
the one that the steps before it give, and at the end there stands what stands on the disk. Most calls are one step. A
listing is two: it shows each name that stood from the one to the other, and only names that stood at some time between.
Asking for a lock is three: open, lock, close. It prints each history that no order explains, and last how many histories
there were and how many of them failed."""
import os
import random
import select
import shutil
import subprocess
import sys
import time

PLACES = {area: "pods/" + area for area in ["embryo", "prepare", "prepared", "run", "exited-garbage", "garbage"]}
PLACES.update({area: "store/" + area for area in ["incoming", "images", "trees", "removed"]})
# Where a pod may go from where.
MOVES = [("embryo", "prepare"), ("embryo", "garbage"), ("prepare", "prepared"), ("prepare", "run"), ("prepare", "garbage"),
         ("prepared", "run"), ("prepared", "garbage"), ("run", "exited-garbage")]
ANSWERS = {"ok", "missing", "exists", "not empty", "locked", "failed", "no memory"}
PROCESSES = 8
# So many steps are tried for one history; one that needs more is told as undecided.
MOST_STEPS = 200000


class Call:
    """A call of a process: its words, the times before and after it, and the lines of its answer."""

    def __init__(self, words, before=0, after=0, answer=()):
        self.words = words
        self.before = before
        self.after = after
        self.answer = tuple(answer)


class State:
    """What stands: where each folder is (None once it was removed), what it holds, the open handles, the open listings."""

    def __init__(self, places=(), trees=(), handles=(), listings=()):
        self.places = places
        self.trees = trees
        self.handles = handles
        self.listings = listings

    def key(self):
        return (self.places, self.trees, self.handles, self.listings)

    def folder(self, area, name):
        for number, place in enumerate(self.places):
            if place == (area, name):
                return number
        return None

    def with_place(self, folder, place):
        places = self.places[:folder] + (place,) + self.places[folder + 1:]
        return State(places, self.trees, self.handles, self.listings).noted()

    def with_folder(self, place):
        return State(self.places + (place,), self.trees + (frozenset(),), self.handles, self.listings).noted()

    def with_tree(self, folder, tree):
        trees = self.trees[:folder] + (frozenset(tree),) + self.trees[folder + 1:]
        return State(self.places, trees, self.handles, self.listings).noted()

    def with_handles(self, handles):
        return State(self.places, self.trees, tuple(handles), self.listings)

    def with_listings(self, listings):
        return State(self.places, self.trees, self.handles, tuple(listings))

    def shown(self, about):
        """The names of what a listing is about, each with its kind."""
        if about[0] == "area":
            return frozenset((place[1], "") for place in self.places if place and place[0] == about[1])
        _, folder, path = about
        above = path + "/" if path else ""
        return frozenset((at[len(above):], "dir" if text is None else "file") for at, text in self.trees[folder]
                         if at.startswith(above) and "/" not in at[len(above):])

    def noted(self):
        """The same, with what stands now noted for each open listing."""
        listings = []
        for process, about, through, ever in self.listings:
            now = self.shown(about)
            names = {name for name, _ in now}
            listings.append((process, about, through & names, ever | now))
        return self.with_listings(listings)

    def standing(self):
        return sorted((place, sorted(tree)) for place, tree in zip(self.places, self.trees) if place)


def above(path):
    return path.rpartition("/")[0]


def one_step(state, words):
    """What a call of one step is answered in this state, and the state after it."""
    verb, area, name = words[:3]
    folder = state.folder(area, name)
    if verb == "make":
        return (("exists",), state) if folder is not None else (("ok",), state.with_folder((area, name)))
    if folder is None:
        return ("missing",), state
    tree = dict(state.trees[folder])
    if verb == "move":
        target = (words[3], words[4])
        return (("exists",), state) if state.folder(*target) is not None else (("ok",), state.with_place(folder, target))
    if verb == "remove":
        return (("not empty",), state) if tree else (("ok",), state.with_place(folder, None))
    path = words[3]
    is_dir = path in tree and tree[path] is None
    is_file = path in tree and tree[path] is not None
    if verb in ("make-dir", "make-file"):
        if path in tree or path == "":
            return ("exists",), state
        if above(path) and tree.get(above(path), "") is not None:
            return ("missing",), state
        tree[path] = None if verb == "make-dir" else ""
    elif verb == "append":
        if not is_file:
            return ("missing",), state
        tree[path] += words[4]
    elif verb == "read":
        return ((tree[path][:int(words[4])], "ok") if is_file else ("missing",)), state
    elif verb == "sync":
        return (("ok",) if path in tree or path == "" else ("missing",)), state
    elif verb == "remove-file":
        if not is_file:
            return ("missing",), state
        del tree[path]
    else:
        if not is_dir:
            return ("missing",), state
        if any(at.startswith(path + "/") for at in tree):
            return ("not empty",), state
        del tree[path]
    return ("ok",), state.with_tree(folder, tree.items())


def lock_step(state, process, call, stage):
    """The next step of a call that opens, asks for a lock and closes: the state after it and whether it was the last. None where
    its answer can't come so."""
    _, mode, kind = call.words[:3]
    if stage == 0:
        if kind == "area":
            target = ("area", call.words[3])
        else:
            folder = state.folder(call.words[3], call.words[4])
            if folder is None or kind == "claim" and dict(state.trees[folder]).get("pod") is None:
                return (state, True) if call.answer == ("missing",) else None
            target = (kind, folder)
        if call.answer == ("missing",):
            return None
        return state.with_handles(state.handles + ((process, target, ""),)), False
    mine = next(it for it in state.handles if it[0] == process)
    others = [it for it in state.handles if it[0] != process]
    if stage == 1:
        opposed = any(it[1] == mine[1] and it[2] and "exclusive" in (it[2], mode) for it in others)
        if call.answer != (("locked",) if opposed else ("ok",)):
            return None
        return state.with_handles(sorted(others + [(process, mine[1], "" if opposed else mode)])), False
    return state.with_handles(others), True


def listing_step(state, process, call, stage):
    """The same of a listing: its beginning and its end."""
    if stage == 0:
        if len(call.words) == 2:
            about = ("area", call.words[1])
        else:
            _, area, name, path = call.words
            folder = state.folder(area, name)
            if folder is None or path and dict(state.trees[folder]).get(path, "") is not None:
                return (state, True) if call.answer == ("missing",) else None
            about = ("folder", folder, path)
        if call.answer[-1] != "ok":
            return None
        now = state.shown(about)
        return state.with_listings(state.listings + ((process, about, frozenset(name for name, _ in now), now),)), False
    mine = next(it for it in state.listings if it[0] == process)
    rest = [it for it in state.listings if it[0] != process]
    if mine[1][0] == "area":
        items = [(line, "") for line in call.answer[:-1]]
    else:
        items = [tuple(reversed(line.split(" ", 1))) for line in call.answer[:-1]]
    names = [name for name, _ in items]
    if names != sorted(set(names)) or not mine[2] <= set(names) or not set(items) <= mine[3]:
        return None
    return state.with_listings(rest), True


def step(state, process, call, stage):
    if call.words[0] == "try":
        return lock_step(state, process, call, stage)
    if call.words[0] == "list":
        return listing_step(state, process, call, stage)
    answer, after = one_step(state, call.words)
    return (after, True) if answer == call.answer else None


def order_of(start, histories, standing):
    """Whether there is an order of steps that explains the histories, one for each process, and leaves what stands. None where
    that isn't found out within the limit."""
    known = {}
    states = []
    steps = {}

    def number_of(state):
        number = known.setdefault(state.key(), len(states))
        if number == len(states):
            states.append(state)
        return number

    def nexts_of(here, at):
        """What may come next: by the time at which the call ends, the state and how far each process is."""
        waiting = [p for p, (number, _) in enumerate(at) if number < len(histories[p])]
        first = min(histories[p][at[p][0]].after for p in waiting)
        nexts = []
        for p in waiting:
            number, stage = at[p]
            call = histories[p][number]
            if call.before > first:
                continue
            if (here, p, at[p]) not in steps:
                came = step(states[here], p, call, stage)
                steps[here, p, at[p]] = came and (number_of(came[0]), came[1])
            came = steps[here, p, at[p]]
            if came:
                after, is_last = came
                place = (number + 1, 0) if is_last else (number, stage + 1)
                there = (call.after, after, at[:p] + (place,) + at[p + 1:])
                # An answer that is true now and changes nothing for others needs no later moment.
                if is_last and (after == here or call.words[0] == "list"):
                    return [there]
                nexts.append(there)
        return sorted(nexts, key=lambda it: -it[0])

    seen = set()
    todo = [(number_of(start), tuple((0, 0) for _ in histories))]
    while todo:
        here, at = todo.pop()
        if (here, at) in seen:
            continue
        seen.add((here, at))
        if len(seen) > MOST_STEPS:
            return None
        if all(number == len(own) for (number, _), own in zip(at, histories)):
            if standing is None or states[here].standing() == standing:
                return True
            continue
        # The call that ended first is tried first.
        todo.extend(it[1:] for it in nexts_of(here, at))
    return False


def standing_on(data):
    """What stands on the disk, as a state tells it."""
    told = []
    for area, place in PLACES.items():
        for name in os.listdir(f"{data}/{place}"):
            top = f"{data}/{place}/{name}"
            tree = []
            for folder, names, files in os.walk(top):
                inner = os.path.relpath(folder, top)
                inner = "" if inner == "." else inner + "/"
                tree += [(inner + it, None) for it in names]
                for it in files:
                    with open(f"{folder}/{it}", encoding="utf-8") as file:
                        tree.append((inner + it, file.read()))
            told.append(((area, name), sorted(tree)))
    return sorted(told)


def made(data, folders):
    """The state in which these folders stand, made on the disk: each by its place, with its entries."""
    for (area, name), tree in folders.items():
        top = f"{data}/{PLACES[area]}/{name}"
        os.mkdir(top)
        for path, text in tree:
            if text is None:
                os.mkdir(f"{top}/{path}")
            else:
                with open(f"{top}/{path}", "w", encoding="utf-8") as file:
                    file.write(text)
    return State(tuple(folders), tuple(frozenset(tree) for tree in folders.values()))


def cleared(data):
    for place in PLACES.values():
        for name in os.listdir(f"{data}/{place}"):
            shutil.rmtree(f"{data}/{place}/{name}")


POD = (("pod", "{}"),)


def sweeps(luck):
    """Pods that several processes move on one after the other, as sweeps do that come at the same time, and others that look."""
    source, target = luck.choice(MOVES)
    names = ["p1", "p2", "p3", "p4"][:luck.randint(2, 4)]
    walk = [["move", source, name, target, name] for name in names]
    pool = [["list", source], ["list", target]]
    for name in names:
        pool += [["move", at, name, to, name] for at, to in MOVES if at in (source, target)]
        pool += [["list", luck.choice([source, target]), name, ""], ["read", luck.choice([source, target]), name, "pod", "9"],
                 ["try", luck.choice(["shared", "exclusive"]), luck.choice(["own", "claim"]), luck.choice([source, target]), name]]
    kinds = [walk, walk, [["list", source]] + walk, None]
    return {(source, name): POD for name in names}, [luck.choice(kinds) or lots(luck, pool) for _ in range(luck.randint(4, 8))]


def insides(luck):
    """What stands in a folder, and is made, written, read and removed by several."""
    tree = luck.choice([(), POD, (("d", None), ("f", "a")), (("d", None), ("d/f", "a"), ("f", ""))])
    pool = [["make-dir", "d"], ["make-dir", "d"], ["make-file", "d/f"], ["make-file", "f"], ["make-file", "d"], ["make-dir", "d/e"],
            ["append", "f", "b"], ["append", "d/f", "c"], ["read", "f", "9"], ["read", "d/f", "9"], ["remove-file", "f"],
            ["remove-file", "d/f"], ["remove-dir", "d"], ["remove-dir", "d/e"], ["list", ""], ["list", "d"], ["sync", "f"], ["sync", "d"]]
    pool = luck.sample(pool, 7)
    area = luck.choice(["prepare", "incoming"])
    return {(area, "p1"): tree}, [[[it[0], area, "p1", *it[1:]] for it in lots(luck, pool)] for _ in range(luck.randint(4, 8))]


def lives(luck):
    """The life of a pod by its maker, among processes that look."""
    last = luck.choice(["prepared", "run"])
    life = [["make", "embryo", "p1"], ["move", "embryo", "p1", "prepare", "p1"], ["make-file", "prepare", "p1", "pod"],
            ["append", "prepare", "p1", "pod", "{}"], ["move", "prepare", "p1", last, "p1"]]
    pool = [["list", "embryo"], ["list", "prepare"], ["list", last], ["list", "prepare", "p1", ""], ["list", last, "p1", ""],
            ["read", "prepare", "p1", "pod", "9"], ["read", last, "p1", "pod", "9"], ["try", "shared", "own", "prepare", "p1"],
            ["try", "exclusive", "own", last, "p1"], ["try", "exclusive", "claim", last, "p1"], ["make", "embryo", "p1"]]
    pool = luck.sample(pool, 6)
    return {("run", "p2"): POD}, [life] + [lots(luck, pool) for _ in range(luck.randint(3, 7))]


def folders(luck):
    """Folders that are made and removed by several, and locked meanwhile."""
    pool = [["make", "embryo", "p1"], ["remove", "embryo", "p1"], ["make", "embryo", "p2"], ["remove", "embryo", "p2"], ["list", "embryo"],
            ["list", "embryo", "p1", ""], ["try", "shared", "own", "embryo", "p1"], ["try", "exclusive", "own", "embryo", "p1"],
            ["try", "exclusive", "area", "embryo"], ["try", "shared", "area", "embryo"], ["make-dir", "embryo", "p1", "d"],
            ["remove-dir", "embryo", "p1", "d"]]
    pool = luck.sample(pool, 6)
    return {}, [lots(luck, pool) for _ in range(luck.randint(4, 8))]


def lots(luck, pool):
    return [luck.choice(pool) for _ in range(luck.randint(3, 5))]


class Crowd:
    """The processes, each of which makes a call as soon as a line with its words comes, and answers with lines."""

    def __init__(self, program, data):
        env = dict(os.environ, RKT_DIR=data)
        words = [program, "dir", "lines"]
        self.members = [subprocess.Popen(words, env=env, stdin=subprocess.PIPE, stdout=subprocess.PIPE, bufsize=0)
                        for _ in range(PROCESSES)]

    def play(self, calls):
        """Lets each process make its calls, one after the other and beside those of the others. Returns them with times and
        answers."""
        played = [[Call(words) for words in own] for own in calls]
        poll = select.poll()
        inputs = [member.stdin.fileno() for member in self.members]
        owner = {member.stdout.fileno(): p for p, member in enumerate(self.members)}
        at = [0] * len(played)
        text = [b""] * len(played)

        def ask(p):
            call = played[p][at[p]]
            line = (" ".join(call.words) + "\n").encode()
            call.before = time.monotonic_ns()
            os.write(inputs[p], line)

        for p in range(len(played)):
            poll.register(self.members[p].stdout, select.POLLIN)
        for p in range(len(played)):
            ask(p)
        left = len(played)
        while left:
            ready = poll.poll(20000)
            if not ready:
                raise SystemExit("a call isn't answered within 20 seconds")
            for fd, _ in ready:
                p = owner[fd]
                came = os.read(fd, 65536)
                now = time.monotonic_ns()
                if not came:
                    raise SystemExit(f"a process ended at the call: {' '.join(played[p][at[p]].words)}")
                text[p] += came
                lines = text[p].decode().split("\n")
                if lines[-1] or len(lines) < 2 or lines[-2] not in ANSWERS:
                    continue
                call = played[p][at[p]]
                call.after = now
                call.answer = tuple(lines[:-1])
                text[p] = b""
                at[p] += 1
                if at[p] < len(played[p]):
                    ask(p)
                else:
                    left -= 1
        return played

    def end(self):
        for member in self.members:
            member.stdin.close()
            member.wait()


def told(played):
    start = min(call.before for own in played for call in own)
    lines = []
    for p, own in enumerate(played):
        for call in own:
            lines.append((call.before, f"    {(call.before - start) // 1000:6} to {(call.after - start) // 1000:6} us, process {p}: "
                                       f"{' '.join(call.words)} -> {'|'.join(call.answer)}"))
    return "\n".join(line for _, line in sorted(lines))


def known_verdicts():
    """Histories whose verdict is known: the search itself is looked at by them. Each has the folders that stand, calls as (words,
    before, after, answer) by process, and whether an order explains them."""
    run, gone = {("run", "p1"): POD}, "exited-garbage"
    move = ["move", "run", "p1", gone, "p1"]
    return [
        ("two movers, of which one comes too late", run, [[(move, 0, 9, ["ok"])], [(move, 0, 9, ["missing"])]], True),
        ("a target that came only as the source went", run, [[(move, 0, 9, ["ok"])], [(move, 0, 9, ["exists"])]], False),
        ("a mover after the other", run, [[(move, 0, 4, ["ok"])], [(move, 5, 9, ["ok"])]], False),
        ("a listing that lacks what stood", run, [[(["list", "run"], 0, 9, ["ok"])]], False),
        ("a listing that lacks what went meanwhile", run, [[(["list", "run"], 0, 9, ["ok"])], [(move, 0, 9, ["ok"])]], True),
        ("a listing with a name that never stood", run, [[(["list", "run"], 0, 9, ["p1", "p2", "ok"])]], False),
        ("a pod in two areas, one after the other", run,
         [[(["list", gone], 0, 4, ["ok"]), (["list", "run"], 5, 9, ["ok"])], [(move, 0, 9, ["ok"])]], True),
        ("a pod in no area", run,
         [[(["list", "run"], 0, 4, ["ok"]), (["list", gone], 5, 9, ["ok"])], [(move, 0, 9, ["ok"])]], False),
        ("two exclusive locks, one after the other", run,
         [[(["try", "exclusive", "own", "run", "p1"], 0, 9, ["ok"])], [(["try", "exclusive", "own", "run", "p1"], 0, 9, ["ok"])]], True),
        ("a lock that nobody holds", run, [[(["try", "shared", "own", "run", "p1"], 0, 9, ["locked"])]], False),
        ("a read before its append", run,
         [[(["append", "run", "p1", "pod", "x"], 0, 4, ["ok"])], [(["read", "run", "p1", "pod", "9"], 5, 9, ["{}", "ok"])]], False),
    ]


def wrong_verdicts():
    wrong = []
    for name, stands, calls, wanted in known_verdicts():
        start = State(tuple(stands), tuple(frozenset(tree) for tree in stands.values()))
        played = [[Call(*call) for call in own] for own in calls]
        if order_of(start, played, None) != wanted:
            wrong.append(name)
    return wrong


def main(program, work, seed, seconds):
    print(f"moments.py: seed {seed}")
    failed = len(wrong_verdicts())
    for name in wrong_verdicts():
        print(f"moments.py: FAILED: the search is wrong about: {name}")
    luck = random.Random(int(seed))
    data = f"{work}/data"
    os.makedirs(work, exist_ok=True)
    crowd = Crowd(program, data)
    crowd.play([[["list", "run"]]] * PROCESSES)
    end = time.monotonic() + float(seconds)
    histories = calls = beside = undecided = 0
    while time.monotonic() < end and failed < 5:
        stands, words = luck.choice([sweeps, sweeps, sweeps, insides, lives, folders])(luck)
        start = made(data, stands)
        played = crowd.play(words)
        verdict = order_of(start, played, standing_on(data))
        cleared(data)
        histories += 1
        flat = [(call, p) for p, own in enumerate(played) for call in own]
        calls += len(flat)
        beside += sum(any(q != p and other.before < call.after and call.before < other.after for other, q in flat) for call, p in flat)
        undecided += verdict is None
        if verdict is False:
            failed += 1
            print(f"moments.py: FAILED: no order explains history {histories}:\n{told(played)}")
    crowd.end()
    print(f"moments.py: {histories} histories, {calls} calls, {beside} of them beside others, {undecided} histories undecided")
    print(f"{histories + len(known_verdicts())} checks, {failed} failed")


if __name__ == "__main__":
    main(*sys.argv[1:])
