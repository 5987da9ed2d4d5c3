"""Kills of rkt, and calls of the system that fail, on a data folder of this host; and what may stand afterwards.

losses.py PROGRAM WORK SEED KILLS CALLS: in the folder WORK it kills commands at random times until KILLS are killed, and lets CALLS
commands be killed at one of their system calls or have one of these fail (all of them where CALLS is 'all', but
of a call that a command makes more than 16 times 16, evenly spread; none where it is 0). It prints a line for each fault, tables, and last how many checks there were and how many failed."""
import collections
import fcntl
import json
import os
import random
import re
import shutil
import signal
import socket
import subprocess
import sys
import threading
import time

import wholeness

AREAS = ["embryo", "prepare", "prepared", "run", "exited-garbage", "garbage"]
OLD = 1000000
# How a call fails that doesn't answer with an error: the system answers with the end of the heap as it was.
FAILS = {"brk": "retval=0"}
# How many calls of one kind are tried of a command that makes more.
MOST = 16
STATUSES = set(range(21)) - {3, 13}
# How a pod and an app with a volume are asked for.
VOLUME = ["--volume=data,kind=empty", "--mount=volume=data,target=/data"]
# Over these everything that is old goes at once.
NO_TIME = ["--grace-period=0", "--expire-prepared=0"]
# How many connections a metadata service takes before it ends.
CONNECTIONS = 3
NO_TOKEN = "0" * 32
# Stands for an address at which nobody listens yet.
ADDRESS = "ADDRESS"
APP = """#!/bin/sh
echo here >sentinel
sleep 0.02
[ -e sentinel ]
"""
LIVING = """#!/bin/sh
echo here >sentinel
echo up >up
while [ ! -e go ]; do
    for file in sentinel bin/run etc/a etc/b; do
        [ -s $file ] || echo "$PWD/$file" >>LOST
    done
    sleep 0.05
done
"""
# The programs of a killed run outlive it by less than these seconds.
OUTLIVES = 0.1
GONE = None
# What a command may leave of a pod that it meets in a phase: itself always, and these.
AFTER_RM = {"aborted prepare": {"garbage", GONE}, "prepared": {"garbage", GONE}, "exited": {"exited garbage", GONE},
            "exited garbage": {GONE}, "garbage": {GONE}}
AFTER_GC = {"embryo": {"garbage", GONE}, "aborted prepare": {"garbage", GONE}, "exited": {"exited garbage"},
            "garbage": {GONE}}
AFTER_GC_OLD = {"prepared": {"garbage", GONE}, "exited garbage": {GONE}}
# Over no time at all a pod that is marked is deleted by the same sweep.
AFTER_GC_AT_ONCE = {"exited": {GONE}}
# What a command may leave of a pod that it makes.
NEW = {"prepare": {"embryo", "aborted prepare", "prepared"}, "run": {"embryo", "aborted prepare", "exited"}}


class Tally:
    """Checks, faults, and what came of each command."""

    def __init__(self):
        self.checks = 0
        self.failed = 0
        self.came = collections.defaultdict(collections.Counter)

    def check(self, holds, name, told=""):
        self.checks += 1
        if not holds:
            self.failed += 1
            print(f"FAILED: {name}: {str(told)[:300]}", flush=True)

    def table(self, title):
        print(title)
        for name, counts in sorted(self.came.items()):
            print(f"  {name}: {sum(counts.values())}: " + ", ".join(f"{what} {n}" for what, n in sorted(counts.items())))
        self.came.clear()


class World:
    """A data folder, and the program on it."""

    def __init__(self, program, data):
        self.program = program
        self.data = data
        self.env = dict(os.environ, RKT_DIR=data)

    def start(self, words, front=()):
        out = open(self.data + ".out", "wb")
        err = open(self.data + ".err", "wb")
        with out, err:
            return subprocess.Popen([*front, self.program, *words], env=self.env, stdin=subprocess.DEVNULL, stdout=out, stderr=err)

    def said(self):
        return (wholeness.read(self.data + ".out").decode(), wholeness.read(self.data + ".err").decode())

    def tokens(self, pods):
        """The token of each of these pods in run, with the pod."""
        return {wholeness.read(f"{self.area('run')}/{pod}/token").decode().strip(): pod for pod in pods}

    def call(self, *words):
        done = subprocess.run([self.program, *words], env=self.env, stdin=subprocess.DEVNULL, capture_output=True, timeout=60)
        return done.returncode, done.stdout.decode(), done.stderr.decode()

    def area(self, name):
        return f"{self.data}/pods/{name}"

    def store(self, name):
        return f"{self.data}/store/{name}"

    def pods(self):
        """Where each pod's folder stands."""
        return {name: area for area in AREAS for name in os.listdir(self.area(area)) if wholeness.UUID.match(name)}

    def phases(self):
        found = {}
        for pod in self.pods():
            status, out, err = self.call("status", pod)
            found[pod] = out.split("\n")[0].removeprefix("state=") if status == 0 else f"status {status} {err.strip()}"
        return found

    def images(self):
        status, out, err = self.call("image", "list")
        return {line.split(" ")[0] for line in out.splitlines()} if status == 0 else {f"status {status} {err.strip()}"}

    def age(self, pods=None):
        """The marks of these pods, or of all that aren't in run, become old."""
        for pod, area in self.pods().items():
            if area in ("prepared", "exited-garbage") and (pods is None or pod in pods):
                for name in os.listdir(f"{self.area(area)}/{pod}"):
                    mark = re.match(r"(created|marked)-(\d{20})$", name)
                    if mark:
                        os.rename(f"{self.area(area)}/{pod}/{name}", f"{self.area(area)}/{pod}/{mark.group(1)}-{OLD:020}")

    def old(self, pod, area):
        """Whether a pod's time is over. A cut removal may have taken the mark of a pod in exited-garbage already."""
        names = os.listdir(f"{self.area(area)}/{pod}")
        cut = area == "exited-garbage" and not any(name.startswith("marked-") for name in names)
        return cut or any(name.endswith(f"-{OLD:020}") for name in names)


class Clients(threading.Thread):
    """Asks a metadata service for the uuids of pods by their tokens, one after the other, until the service has ended."""

    def __init__(self, address, pods):
        super().__init__(daemon=True)
        self.place = (address.split(":")[0], int(address.split(":")[1]))
        # The token by which is asked, and the pod that has it, if one has.
        self.asked = [*pods.items(), (NO_TOKEN, None)]
        self.replies = []
        self.ended = threading.Event()

    def ask(self, token):
        with socket.create_connection(self.place, timeout=5) as link:
            link.sendall(f"GET /{token}/acMetadata/v1/pod/uuid HTTP/1.1\r\nHost: here\r\nMetadata-Flavor: AppContainer\r\n\r\n".encode())
            told = b""
            while piece := link.recv(4096):
                told += piece
        return told.decode(errors="replace")

    def run(self):
        number = 0
        while not self.ended.is_set():
            token, pod = self.asked[number % len(self.asked)]
            try:
                self.replies.append((pod, self.ask(token)))
                number += 1
            except OSError:
                time.sleep(0.005)

    def faults(self, pods):
        """Replies that tell of another pod, or of one where none has the token, or something else than what was asked."""
        found = []
        for pod, reply in self.replies:
            told = {known for known in pods if known in reply}
            body = reply.partition("\r\n\r\n")[2]
            if told - {pod} or (reply.startswith("HTTP/1.1 200 ") and not (pod and pod.startswith(body))):
                found.append((pod, reply))
        return found


def free_address():
    with socket.socket() as link:
        link.bind(("127.0.0.1", 0))
        return f"127.0.0.1:{link.getsockname()[1]}"


class Bundles:
    """Bundles to import, with the keys and the digests of their images."""

    def __init__(self, work, lost):
        self.work = work
        self.digests = {}
        self.paths = {}
        self.names = {}
        self.make("app", 1, APP, 4)
        self.make("living", 2, LIVING.replace("LOST", lost), 0)
        for number in range(3, 9):
            self.make(f"other{number}", number, "", 4)

    def make(self, name, number, script, files):
        folder = f"{self.work}/{name}"
        os.makedirs(folder + "/rootfs/bin")
        os.makedirs(folder + "/rootfs/etc/deep")
        held = {"bin/run": script or "text", "etc/a": "a" * 3000, "etc/b": "b" * 70000, "etc/deep/a b": name}
        held.update({f"etc/deep/{n}": f"{name} {n}" for n in range(files)})
        for path, text in held.items():
            with open(f"{folder}/rootfs/{path}", "w", encoding="ascii") as file:
                file.write(text)
        os.symlink("deep/1", folder + "/rootfs/etc/link")
        manifest = {"acKind": "ImageManifest", "acVersion": "0.8.0", "name": f"example.com/{name}"}
        if script:
            manifest["app"] = {"exec": ["/bin/run"], "user": "0", "group": "0"}
        with open(folder + "/manifest", "w", encoding="ascii") as file:
            json.dump(manifest, file)
        with open(folder + "/id", "w", encoding="ascii") as file:
            file.write(f"sha512-{number:064x}{0:064}\n")
        key = f"sha512-{number:064x}"
        self.paths[key] = folder
        self.names[name] = key
        self.digests[key] = wholeness.digest_of_bundle(folder)


def may_follow(command, target, pod, phase, old, at_once):
    """The phases in which a command may leave a pod that it met in a phase."""
    if command == "run-prepared" and pod == target:
        return {phase, "exited"} if phase == "prepared" else {phase}
    if command == "rm" and pod == target:
        return {phase} | AFTER_RM.get(phase, set())
    if command == "gc":
        soon = AFTER_GC_AT_ONCE.get(phase, set()) if at_once else set()
        return {phase} | AFTER_GC.get(phase, set()) | (AFTER_GC_OLD.get(phase, set()) if old else set()) | soon
    return {phase}


class Trial:
    """One command on a world: what stood before, and the checks of what stands afterwards."""

    def __init__(self, tally, world, bundles, words, name, living=()):
        self.tally, self.world, self.bundles, self.name = tally, world, bundles, name
        self.words = [free_address() if word == ADDRESS else word for word in words]
        self.command = " ".join(words[:2]) if words[0] == "image" else words[0]
        self.target = words[-1]
        self.writes_fail = False
        self.images = world.images()
        self.phases = world.phases()
        self.old = {pod for pod, area in world.pods().items() if NO_TIME[0] in words or world.old(pod, area)}
        self.clients = Clients(self.words[1], world.tokens(living)) if self.command == "metadata-service" else None

    def start(self, front=()):
        process = self.world.start(self.words, front)
        if self.clients:
            self.clients.start()
        return process

    def check(self, holds, what, told=""):
        self.tally.check(holds, f"{self.name}: {what}", told)

    def judge(self, status):
        """The status is None where the command was killed. Answers in a word what came of it."""
        self.status = status
        out, err = self.world.said()
        whole = out if out.endswith("\n") or not out else out[:out.rfind("\n") + 1]
        phases = self.world.phases()
        self.judge_pods(phases)
        new = [(pod, phase) for pod, phase in phases.items() if pod not in self.phases]
        self.judge_new(new)
        self.judge_images()
        self.judge_replies()
        done = status in (0, 16) or bool(status is None and whole)
        if done:
            self.judge_done(whole, phases, new)
        if status is not None:
            own = {13} if self.command == "metadata-service" else set()
            self.check(status in STATUSES | own, "a status that is told", f"{status} {err}")
            told = (err != "") == (status not in (0, 16))
            self.check(told or self.writes_fail, "a message with a refusal", f"{status} '{err}'")
        return self.outcome(phases, new)

    def judge_replies(self):
        if self.clients:
            self.clients.ended.set()
            self.clients.join(timeout=20)
            faults = self.clients.faults(set(self.phases))
            self.check(not self.clients.is_alive() and not faults, "no reply tells of another pod", faults)

    def judge_pods(self, phases):
        for pod, before in self.phases.items():
            after = phases.get(pod, GONE)
            allowed = may_follow(self.command, self.target, pod, before, pod in self.old, NO_TIME[0] in self.words)
            self.check(after in allowed, "the phase of a pod", f"{pod}: {before}, then {after}")
            if after == "prepared":
                faults = wholeness.faults_of_pod(f"{self.world.area('prepared')}/{pod}")
                self.check(not faults, "a prepared pod is whole", faults)

    def judge_new(self, new):
        self.check(len(new) <= (self.command in NEW), "pods that were made", new)
        for pod, phase in new:
            self.check(phase in NEW.get(self.command, set()), "the phase of a new pod", f"{pod}: {phase}")
            if phase == "prepared":
                faults = wholeness.faults_of_pod(f"{self.world.area('prepared')}/{pod}")
                self.check(not faults, "a new pod is whole", faults)

    def judge_images(self):
        images = self.world.images()
        changed = images ^ self.images
        if self.command == "image import":
            allowed = {key for key, path in self.bundles.paths.items() if path == self.target} - self.images
        else:
            allowed = {self.target} & self.images if self.command == "image rm" else set()
        self.check(changed <= allowed, "the listed images", f"{changed} more or less")
        for key in images:
            faults = wholeness.faults_of_image(f"{self.world.store('images')}/{key}", self.bundles.digests.get(key, "none"))
            self.check(not faults, "a listed image is whole", faults)

    def judge_done(self, out, phases, new):
        """What a command has printed holds."""
        if self.command == "prepare":
            self.check(new == [(out.strip(), "prepared")], "what was printed is prepared", f"'{out}' {new}")
        if self.command == "run":
            self.check(new == [(out.split("\n", maxsplit=1)[0], "exited")], "what was printed has exited", f"'{out}' {new}")
        if self.command == "run-prepared":
            self.check(phases[self.target] == "exited", "what was run has exited", phases[self.target])
        if self.command == "rm":
            self.check(self.target not in phases, "what was removed is gone", phases.get(self.target))
        if self.command == "list":
            self.judge_list(out, phases)
        if self.command == "cat-manifest":
            held = wholeness.read(f"{self.world.area(self.world.pods()[self.target])}/{self.target}/pod")
            self.check(json.loads(out) == json.loads(held), "what was printed is the pod's manifest", out)
        if self.command == "image import":
            self.check(out.strip() in self.world.images(), "what was imported is listed", out)
        if self.command == "image rm":
            self.check(self.target not in self.world.images(), "what was removed isn't listed", out)
        if self.command == "gc":
            for line in out.splitlines():
                pod, deed = line.split(" ", maxsplit=1)
                self.check(deed != "deleted" or pod not in phases, "what was deleted is gone", line)

    def judge_list(self, out, phases):
        """Each line is of a pod with its phase. A list that was printed whole has a line of each pod."""
        lines = dict(line.split("\t")[:2] for line in out.splitlines())
        wrong = {pod: phase for pod, phase in lines.items() if phase != phases.get(pod)}
        self.check(not wrong, "each line is of a pod with its phase", wrong)
        self.check(self.status != 0 or lines.keys() == phases.keys(), "a list that was printed whole has each pod", lines)

    def outcome(self, phases, new):
        if self.command in NEW:
            return new[0][1] if new else "no pod"
        if self.command in ("rm", "run-prepared"):
            return f"{self.phases.get(self.target)} -> {phases.get(self.target, 'gone')}"
        if self.command == "image import":
            return "listed" if self.bundles_key() in self.world.images() else "not listed"
        if self.command == "image rm":
            return "listed" if self.target in self.world.images() else "not listed"
        moved = sum(phases.get(pod, GONE) != phase for pod, phase in self.phases.items())
        return "all as before" if not moved else "some moved or gone"

    def bundles_key(self):
        return next(key for key, path in self.bundles.paths.items() if path == self.target)


def sweep(tally, world, name, living):
    """One sweep of the store leaves nothing dead, and one of the pods, their times over, no pod but the living."""
    status, _, err = world.call("image", "gc")
    left = os.listdir(world.store("incoming")) + os.listdir(world.store("removed"))
    tally.check(status == 0 and not left, f"{name}: a sweep of the store", f"{status} {err} {left}")
    world.call("gc")
    world.age()
    status, _, err = world.call("gc")
    left = {pod: area for pod, area in world.pods().items() if pod not in living}
    tally.check(status == 0 and not left, f"{name}: a sweep of the pods", f"{status} {err} {left}")
    phases = world.phases()
    tally.check(phases == {pod: "running" for pod in living}, f"{name}: the living stay", phases)


# Kills at random times, in one data folder.

class Life:
    """A data folder in which commands are killed, beside pods that live through it."""

    def __init__(self, tally, program, work, seed):
        self.tally = tally
        self.random = random.Random(seed)
        self.work = work
        self.lost = work + "/lost"
        with open(self.lost, "wb"):
            pass
        self.bundles = Bundles(work + "/bundles", self.lost)
        self.world = World(program, work + "/life")
        self.durations = {}
        for key in (self.bundles.names["app"], self.bundles.names["living"]):
            self.world.call("image", "import", self.bundles.paths[key])
        self.processes = []
        self.living = []
        for _ in range(2):
            self.bring_to_life()

    def bring_to_life(self):
        pod = self.world.call("prepare", "example.com/living")[1].strip()
        process = subprocess.Popen([self.world.program, "run-prepared", pod], env=self.world.env, stdout=subprocess.DEVNULL)
        root = f"{self.world.area('run')}/{pod}/stage1/rootfs/opt/stage2/living/rootfs"
        for _ in range(200):
            if os.path.exists(root + "/up"):
                break
            time.sleep(0.05)
        self.processes.append((process, root))
        self.living.append(pod)

    def others(self):
        return sorted(set(self.bundles.paths) - {self.bundles.names["app"], self.bundles.names["living"]})

    def pod_in(self, areas):
        """Some pod of these areas that doesn't live, or one that is made now."""
        pods = sorted(pod for pod, area in self.world.pods().items() if area in areas and pod not in self.living)
        return self.random.choice(pods) if pods else self.world.call("prepare", "example.com/app")[1].strip()

    def words(self, command):
        images = self.world.images()
        if command == "image import":
            missing = [key for key in self.others() if key not in images]
            if not missing:
                self.world.call("image", "rm", self.others()[0])
                missing = self.others()[:1]
            return ["image", "import", self.bundles.paths[self.random.choice(missing)]]
        if command == "image rm":
            stored = [key for key in self.others() if key in images]
            if not stored:
                self.world.call("image", "import", self.bundles.paths[self.others()[0]])
                stored = self.others()[:1]
            return ["image", "rm", self.random.choice(stored)]
        if command == "rm":
            return ["rm", self.pod_in(AREAS[1:])]
        if command == "run-prepared":
            return ["run-prepared", self.pod_in(["prepared"])]
        if command == "gc":
            self.pod_in(AREAS)
            self.world.age({pod for pod in sorted(self.world.pods()) if self.random.random() < 0.5})
            return ["gc", *(NO_TIME if self.random.random() < 0.3 else [])]
        if command == "cat-manifest":
            return ["cat-manifest", self.pod_in(["prepared", "run"])]
        if command == "metadata-service":
            return ["metadata-service", ADDRESS, str(CONNECTIONS)]
        options = VOLUME if command in NEW and self.random.random() < 0.5 else []
        return [*command.split(), *options, *(["example.com/app"] if command in NEW else [])]

    def kill(self, command, name):
        """Whether the command was killed before its end."""
        trial = Trial(self.tally, self.world, self.bundles, self.words(command), name, self.living)
        begun = time.monotonic()
        process = trial.start()
        longest = self.durations.get(command)
        if longest is not None:
            time.sleep(self.random.uniform(0, longest))
            process.kill()
        status = process.wait(timeout=60)
        # So about one in three ends before its kill comes.
        if longest is None:
            self.durations[command] = time.monotonic() - begun
        else:
            self.durations[command] = longest * (1.05 if status < 0 else 0.9)
        if command in ("run", "run-prepared"):
            time.sleep(OUTLIVES)
        came = trial.judge(None if status == -signal.SIGKILL else status)
        self.tally.came[command][("killed, " if status < 0 else "ended, ") + came] += 1
        return status < 0

    def end(self):
        for process, root in self.processes:
            with open(root + "/go", "wb"):
                pass
            self.tally.check(process.wait(timeout=20) == 0, "a living pod ends well", process.returncode)
        lost = wholeness.read(self.lost).decode()
        self.tally.check(lost == "", "no app of a living pod lost a file", lost)


COMMANDS = ["image import", "image rm", "image gc", "prepare", "run", "run-prepared", "rm", "gc", "list", "cat-manifest", "metadata-service"]


def random_kills(tally, program, work, seed, count):
    life = Life(tally, program, work, seed)
    for command in COMMANDS:
        life.kill(command, f"{command}, unhindered")
    tally.came.clear()
    killed = number = 0
    while killed < count and number < 4 * count:
        command = COMMANDS[number % len(COMMANDS)]
        killed += life.kill(command, f"kill {number} of {command}")
        number += 1
        if number % 40 == 0:
            sweep(tally, life.world, f"after {killed} kills", life.living)
    sweep(tally, life.world, f"after {killed} kills", life.living)
    life.end()
    tally.table(f"kills at random times, by what stood afterwards ({number} commands, {killed} of them killed, seed {seed}):")


# Kills and failures at single calls of the system, each in a copy of one data folder.

class Stage:
    """A data folder with a pod in each situation, which is copied for each trial."""

    def __init__(self, tally, program, work):
        self.tally, self.program, self.work = tally, program, work
        self.bundles = Bundles(work + "/bundles2", work + "/lost2")
        self.world = World(program, work + "/stage")
        for key in sorted(self.bundles.paths)[:3]:
            self.world.call("image", "import", self.bundles.paths[key])
        pods = [self.world.call("prepare", "example.com/app")[1].strip() for _ in range(6)]
        self.prepared, self.old, self.aborted, self.garbage, self.live, rested = pods
        self.exited = self.world.call("run", "example.com/app")[1].split("\n", maxsplit=1)[0]
        self.embryo = "00000000-0000-4000-8000-000000000001"
        self.arrange(rested)

    def move(self, pod, area):
        os.rename(f"{self.world.area('prepared')}/{pod}", f"{self.world.area(area)}/{pod}")

    def arrange(self, rested):
        os.mkdir(f"{self.world.area('embryo')}/{self.embryo}")
        self.move(self.aborted, "prepare")
        self.move(self.garbage, "garbage")
        self.move(self.live, "run")
        self.move(rested, "exited-garbage")
        with open(f"{self.world.area('run')}/{self.live}/stage1/rootfs/opt/stage2/app/rootfs/sentinel", "wb") as file:
            file.write(b"here")
        with open(f"{self.world.area('exited-garbage')}/{rested}/marked-{OLD:020}", "wb"):
            pass
        self.world.age({self.old})
        image = f"{self.world.store('images')}/{self.bundles.names['app']}"
        shutil.copytree(image, self.world.store("incoming") + "/00000000-0000-4000-8000-000000000002")
        shutil.copytree(image, self.world.store("removed") + "/00000000-0000-4000-8000-000000000003")

    def commands(self):
        keys = sorted(self.bundles.paths)
        return [["image", "import", self.bundles.paths[keys[3]]], ["image", "rm", keys[2]], ["image", "gc"],
                ["prepare", "example.com/app"], ["prepare", *VOLUME, "example.com/app"], ["run", "example.com/app"],
                ["run", *VOLUME, "example.com/app"], ["run-prepared", self.prepared],
                ["run-prepared", "--metadata=127.0.0.1:1", self.prepared], ["rm", self.prepared], ["rm", self.exited],
                ["rm", self.aborted], ["gc"], ["gc", *NO_TIME], ["list"], ["cat-manifest", self.prepared],
                ["metadata-service", ADDRESS, str(CONNECTIONS)]]

    def trial(self, words, name, front):
        """The command on a copy, beside a pod that this process runs. Answers what came of it."""
        copy = World(self.program, self.work + "/copy")
        shutil.rmtree(copy.data, ignore_errors=True)
        subprocess.run(["cp", "-a", self.world.data, copy.data], check=True)
        live = f"{copy.area('run')}/{self.live}"
        handle = os.open(live, os.O_RDONLY)
        fcntl.flock(handle, fcntl.LOCK_EX)
        try:
            trial = Trial(self.tally, copy, self.bundles, words, name, [self.live])
            trial.writes_fail = "inject=write:error" in " ".join(front)
            status = trial.start(front).wait(timeout=60)
            if status != 0 and trial.command in ("run", "run-prepared"):
                time.sleep(OUTLIVES)
            came = trial.judge(None if status in (-signal.SIGKILL, 128 + signal.SIGKILL) else status)
            sweep(self.tally, copy, name, [self.live])
            held = wholeness.read(live + "/stage1/rootfs/opt/stage2/app/rootfs/sentinel")
            self.tally.check(held == b"here", f"{name}: the sentinel stands")
        except subprocess.TimeoutExpired:
            self.tally.check(False, name, "not within a minute")
            came = "hangs"
        finally:
            os.close(handle)
        return status, came

    def calls_of(self, words):
        """How often the command makes each call of the system."""
        log = self.work + "/calls"
        self.trial(words, " ".join(words), ["strace", "-qq", "-o", log])
        with open(log, encoding="utf-8", errors="replace") as file:
            names = [line.split("(", maxsplit=1)[0] for line in file if re.match(r"[a-z0-9_]+\(", line)]
        return collections.Counter(name for name in names if name not in ("execve", "exit_group"))


def loader_calls(program, work):
    """How often each call of the system is made before the program's own code runs, by an empty program's."""
    log = work + "/loader"
    subprocess.run(["strace", "-qq", "-o", log, program, "--version"], stdout=subprocess.DEVNULL, check=True)
    with open(log, encoding="utf-8", errors="replace") as file:
        lines = [line.split("(", maxsplit=1)[0] for line in file if re.match(r"[a-z0-9_]+\(", line)]
    end = len(lines) - lines[::-1].index("munmap") if "munmap" in lines else 0
    return collections.Counter(lines[:end])


def spread(times):
    """The first to the last of so many calls, or MOST of them."""
    return range(1, times + 1) if times <= MOST else sorted({1 + place * (times - 1) // (MOST - 1) for place in range(MOST)})


def single_calls(tally, program, work, seed, count):
    stage = Stage(tally, program, work)
    loaded = loader_calls(program, work)
    trials = []
    for words in stage.commands():
        for call, times in sorted(stage.calls_of(words).items()):
            for number in spread(times):
                trials.append((words, call, number, "signal=KILL"))
                if number > loaded[call]:
                    trials.append((words, call, number, FAILS.get(call, "error=EIO")))
    tally.came.clear()
    all_of_them = len(trials)
    if count != "all":
        random.Random(seed).shuffle(trials)
        trials = trials[:int(count)]
    for words, call, number, what in trials:
        name = f"{' '.join(words)}: {what} at {call} {number}"
        front = ["strace", "-qq", "-o", "/dev/null", "-e", f"trace={call}", "-e", f"inject={call}:{what}:when={number}"]
        status, came = stage.trial(words, name, front)
        said = "killed" if status in (-signal.SIGKILL, 128 + signal.SIGKILL) else f"status {status}"
        command = " ".join(words[:2]) if words[0] == "image" else words[0]
        tally.came[f"{command}, {'killed' if 'KILL' in what else 'a call fails'}"][f"{said}, {came}"] += 1
    tally.table(f"single calls of the system, by what stood afterwards ({len(trials)} of {all_of_them}, seed {seed}):")


def main(program, work, seed, kills, calls):
    tally = Tally()
    os.makedirs(work, exist_ok=True)
    if int(kills):
        random_kills(tally, program, work, int(seed), int(kills))
    if calls != "0":
        single_calls(tally, program, work, int(seed), calls)
    print(f"{tally.checks} checks, {tally.failed} failed")
    return 1 if tally.failed else 0


sys.exit(main(*sys.argv[1:]))
