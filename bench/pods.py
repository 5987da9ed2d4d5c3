"""Times the program on images and pods, beside its peers; see pods.sh."""
import json
import os
import shutil
import statistics
import subprocess
import sys
import time

RUNS = int(os.environ.get("RUNS", "15"))
WORK = sys.argv[1]
RKT = WORK + "/rkt"
FLOOR = WORK + "/floor"
LAUNCH = WORK + "/launch"
PODMAN = ["podman", "--root", WORK + "/podman", "--runroot", WORK + "/runroot", "--storage-driver=vfs",
          "--cgroup-manager=cgroupfs", "--runtime=runc"]
LIMITS = ["--network=none", "--ulimit=nofile=1024:1024", "--ulimit=nproc=1000:1000"]
AREAS = ["embryo", "prepare", "prepared", "run", "exited-garbage", "garbage"]


def launch(command, env=None):
    """The milliseconds and the MB of one run of a command."""
    command = [shutil.which(command[0]) or command[0], *command[1:]]
    done = subprocess.run([LAUNCH, *command], env=dict(os.environ, **(env or {})), stdout=subprocess.PIPE, check=True)
    taken, memory = done.stdout.split()
    return int(taken) / 1000, int(memory) / 1024


def shell(text):
    return ["/bin/sh", "-c", text]


def told(name, rounds, floor=None):
    taken = sorted(r[0] for r in rounds)
    line = f"| {name} | {taken[0]:.2f} ms | {statistics.median(taken):.2f} ms | {max(r[1] for r in rounds):.1f} MB |"
    if floor is not None:
        line += f" {statistics.median(r[0] / f[0] for r, f in zip(rounds, floor)):.2f} |"
    print(line, flush=True)


def title(text, more=""):
    print(f"\n{text}\n\n| what | least | median | memory |{more}\n|---|---|---|---|{'---|' if more else ''}", flush=True)


class Data:
    """A data folder."""

    def __init__(self, name):
        self.path = f"{WORK}/{name}"
        self.env = {"RKT_DIR": self.path}

    def rkt(self, *words):
        return launch([RKT, *words], self.env)

    def says(self, *words):
        env = dict(os.environ, **self.env)
        return subprocess.run([RKT, *words], env=env, stdout=subprocess.PIPE, check=True).stdout.decode().strip()

    def area(self, name):
        return f"{self.path}/pods/{name}"

    def image(self, key):
        return f"{self.path}/store/images/{key}"

    def pods(self, area):
        return sorted(os.listdir(self.area(area)))

    def age(self, area):
        for pod in self.pods(area):
            for name in os.listdir(f"{self.area(area)}/{pod}"):
                if name.startswith(("created-", "marked-")):
                    os.rename(f"{self.area(area)}/{pod}/{name}", f"{self.area(area)}/{pod}/{name[:-20]}{1:020}")


def bundle(name, number, files):
    """A bundle whose program ends at once, with so many files of 116,508 bytes. Answers its key."""
    folder = f"{WORK}/{name}"
    os.makedirs(folder + "/rootfs/bin")
    shutil.copy(WORK + "/still", folder + "/rootfs/bin/run")
    for n in range(files):
        os.makedirs(folder + "/rootfs/etc", exist_ok=True)
        with open(f"{folder}/rootfs/etc/f{n}", "wb") as file:
            file.write(os.urandom(116508))
    app = {"exec": ["/bin/run"], "user": "0", "group": "0"}
    with open(folder + "/manifest", "w", encoding="ascii") as file:
        json.dump({"acKind": "ImageManifest", "acVersion": "0.8.0", "name": f"example.com/{name}", "app": app}, file)
    with open(folder + "/id", "w", encoding="ascii") as file:
        file.write(f"sha512-{number:064x}{0:064}\n")
    return f"sha512-{number:064x}"


def copied(target):
    """A copy of the larger bundle's root, its files summed before and after, and all of it synced."""
    root = WORK + "/large/rootfs"
    sums = "find {} -type f -exec sha512sum {{}} + >/dev/null"
    text = f"{sums.format(root)}; cp -a {root} {target}; find {target} -exec sync {{}} +; {sums.format(target)}"
    return shell(text)


def peers():
    """Which peers work here, each tried once; a reason for each other."""
    root = WORK + "/small-root"
    shutil.copytree(WORK + "/small/rootfs", root)
    os.makedirs(WORK + "/oci")
    spec = json.loads(json.dumps(SPEC).replace("ROOT", root))
    with open(WORK + "/oci/config.json", "w", encoding="ascii") as file:
        json.dump(spec, file)
    tries = {
        "bwrap": ["bwrap", "--bind", root, "/", "--unshare-pid", "--unshare-ipc", "/bin/run"],
        "crun": ["crun", "--cgroup-manager=disabled", "run", "-b", WORK + "/oci", "measured"],
        "runc": ["runc", "run", "-b", WORK + "/oci", "measured"],
        "podman": [*PODMAN, "run", "--rm", *LIMITS, "--rootfs", root, "/bin/run"],
        "umoci": ["umoci", "--version"],
        "skopeo": ["skopeo", "--version"],
    }
    works = {}
    for name, command in tries.items():
        if shutil.which(name) is None:
            print(f"{name}: isn't installed")
            continue
        done = subprocess.run(command, stdin=subprocess.DEVNULL, capture_output=True, check=False)
        if done.returncode == 0:
            works[name] = command
            version = subprocess.run([name, "--version"], capture_output=True, check=False).stdout.decode().split("\n")[0]
            print(f"{name}: {version}")
        else:
            print(f"{name}: doesn't run here: {done.stderr.decode().strip().splitlines()[-1:]}")
    return works


SPEC = {
    "ociVersion": "1.0.2", "root": {"path": "ROOT"}, "hostname": "measured",
    "process": {"user": {"uid": 0, "gid": 0}, "args": ["/bin/run"], "cwd": "/", "env": ["PATH=/bin"]},
    "mounts": [{"destination": "/proc", "type": "proc", "source": "proc"}],
    "linux": {"namespaces": [{"type": kind} for kind in ("pid", "mount", "ipc", "uts")]},
}


def small_commands(works):
    """What is near an empty program: statuses and lists."""
    title("Statuses and lists, beside an empty C program in turn", " ratio to it |")
    pairs = [(launch([FLOOR]), launch([FLOOR])) for _ in range(50)]
    told("empty C program", [p[1] for p in pairs], [p[0] for p in pairs])
    for count in (1, 100, 1000):
        data = Data(f"pods{count}")
        data.says("image", "list")
        for n in range(count):
            os.mkdir(f"{data.area('run')}/00000000-0000-4000-8000-{n:012x}")
        pairs = [(launch([FLOOR]), data.rkt("status", f"00000000-0000-4000-8000-{count - 1:012x}")) for _ in range(50)]
        told(f"`status` among {count:,} pods", [p[1] for p in pairs], [p[0] for p in pairs])
    for count in (1, 100, 1000):
        data, last = listed_pods(count)
        if data.says("list").count("\texited\tsmall") != count:
            raise SystemExit("a list lacks a pod")
        pairs = [(launch([FLOOR]), data.rkt("list")) for _ in range(50)]
        told(f"`list` of {count:,} pods", [p[1] for p in pairs], [p[0] for p in pairs])
        pairs = [(launch([FLOOR]), data.rkt("cat-manifest", last)) for _ in range(50)]
        told(f"`cat-manifest` among {count:,} pods", [p[1] for p in pairs], [p[0] for p in pairs])
    for count in (1, 100, 1000):
        data = many_images(count)
        pairs = [(launch([FLOOR]), data.rkt("image", "list")) for _ in range(50)]
        told(f"`image list` of {count:,} images", [p[1] for p in pairs], [p[0] for p in pairs])
    lists = {"podman": [*PODMAN, "ps", "--all"], "crun": ["crun", f"--root={WORK}/crun", "list"], "runc": ["runc", f"--root={WORK}/runc", "list"]}
    for name in (name for name in lists if name in works):
        pairs = [(launch([FLOOR]), launch(lists[name])) for _ in range(RUNS)]
        told(f"{name}'s list of no container", [p[1] for p in pairs], [p[0] for p in pairs])


def listed_pods(count):
    """So many exited pods that have the manifest of one, in a data folder; and the last of them."""
    data = Data(f"listed{count}")
    data.says("image", "import", WORK + "/small")
    first = data.says("run", "example.com/small").split("\n", maxsplit=1)[0]
    pods = [first] + [f"00000000-0000-4000-8000-{n:012x}" for n in range(count - 1)]
    for pod in pods[1:]:
        os.mkdir(f"{data.area('run')}/{pod}")
        shutil.copy(f"{data.area('run')}/{first}/pod", f"{data.area('run')}/{pod}/pod")
    return data, pods[-1]


def many_images(count):
    """A store of so many images, copies of one."""
    data = Data(f"images{count}")
    if not os.path.exists(data.path):
        data.says("image", "import", WORK + "/small")
        held = data.image(f"sha512-{1:064x}")
        for n in range(100, 99 + count):
            shutil.copytree(held, data.image(f"sha512-{n:064x}"))
            with open(data.image(f"sha512-{n:064x}") + "/id", "w", encoding="ascii") as file:
                file.write(f"sha512-{n:064x}{0:064}\n")
    return data


def oci_image():
    """The larger image in a layout of OCI, made by umoci."""
    oci = f"{WORK}/layout:measured"
    text = (f"umoci init --layout {WORK}/layout && umoci new --image {oci} && umoci unpack --image {oci} {WORK}/unpacked &&"
            f" cp -a {WORK}/large/rootfs/. {WORK}/unpacked/rootfs/ && umoci repack --image {oci} {WORK}/unpacked &&"
            f" umoci config --image {oci} --config.cmd /bin/run && rm -rf {WORK}/unpacked")
    subprocess.run(shell(text), check=True, capture_output=True)
    return oci


def one_of_each(works):
    """An image of 2 MB in twenty entries: imported, prepared, run and removed, each beside what does the like."""
    data = Data("one")
    rounds = {}

    def add(name, result):
        rounds.setdefault(name, []).append(result)

    oci = oci_image() if "umoci" in works else None
    store = f"containers-storage:[vfs@{WORK}/podman+{WORK}/runroot]measured"
    for _ in range(RUNS):
        add("`image import`", data.rkt("image", "import", WORK + "/large"))
        add("sha512sum, cp -a, sync of each entry, sha512sum", launch(copied(WORK + "/copied")))
        if oci:
            add("umoci unpack", launch(["umoci", "unpack", "--image", oci, WORK + "/unpacked"]))
            shutil.rmtree(WORK + "/unpacked")
        if oci and "skopeo" in works:
            add("skopeo copy to containers-storage (vfs)", launch(["skopeo", "copy", "-q", "oci:" + oci, store]))
        add("`prepare`", data.rkt("prepare", "example.com/large"))
        add("`run-prepared`", data.rkt("run-prepared", data.pods("prepared")[0]))
        add("`rm` of the exited pod", data.rkt("rm", data.pods("run")[0]))
        add("rm -r of the copy", launch(["rm", "-r", WORK + "/copied"]))
        if oci and "skopeo" in works and "podman" in works:
            add("podman create", launch([*PODMAN, "create", "--name", "measured", *LIMITS, "localhost/measured", "/bin/run"]))
            add("podman start -a", launch([*PODMAN, "start", "-a", "measured"]))
            add("podman rm", launch([*PODMAN, "rm", "measured"]))
        add("`image rm`", data.rkt("image", "rm", f"sha512-{2:064x}"))
        if oci and "skopeo" in works and "podman" in works:
            add("podman rmi", launch([*PODMAN, "rmi", "localhost/measured"]))
    title("An image of 2 MB in twenty entries")
    for name, results in rounds.items():
        told(name, results)


def small_runs(works):
    """A small image, made into a pod and run at once, beside what runs its root."""
    data = Data("runs")
    data.says("image", "import", WORK + "/small")
    rounds = {"`run`": [], "`run-prepared`": [], "the program alone": []}
    for _ in range(RUNS):
        rounds["`run`"].append(data.rkt("run", "example.com/small"))
        rounds["`run-prepared`"].append(data.rkt("run-prepared", data.says("prepare", "example.com/small")))
        rounds["the program alone"].append(launch([WORK + "/still"]))
        for name in ("bwrap", "crun", "runc", "podman"):
            if name in works:
                rounds.setdefault(f"{name} run", []).append(launch(works[name]))
    title("An image of one small program, run")
    for name, results in rounds.items():
        told(name, results)


def sweeps():
    """100 exited pods are marked and put aside, and deleted when their time is over."""
    data = Data("sweeps")
    data.says("image", "import", WORK + "/small")
    rounds = {}
    for _ in range(3):
        for _ in range(100):
            data.says("run", "example.com/small")
        shutil.copytree(data.area("run"), WORK + "/hundred", symlinks=True)
        os.sync()
        rounds.setdefault("`gc`: 100 exited pods are marked and put aside", []).append(data.rkt("gc"))
        rounds.setdefault("`gc`: 100 that rest are looked at", []).append(data.rkt("gc"))
        data.age("exited-garbage")
        rounds.setdefault("`gc`: 100 pods are deleted", []).append(data.rkt("gc"))
        rounds.setdefault("rm -r of 100 such folders", []).append(launch(["rm", "-r", WORK + "/hundred"]))
        if any(data.pods(area) for area in AREAS):
            raise SystemExit("a sweep left a pod")
    title("A sweep of 100 pods (three runs)")
    for name, results in rounds.items():
        told(name, results)


def files(folder):
    """50,000 files in 500 directories."""
    for d in range(500):
        os.makedirs(f"{folder}/d{d}")
        for f in range(100):
            with open(f"{folder}/d{d}/f{f}", "wb") as file:
                file.write(b"text")


def large_removal():
    data = Data("large-pod")
    data.says("image", "import", WORK + "/small")
    rounds = {"`rm`": [], "rm -r": []}
    for turn in range(4):
        pod = data.says("run", "example.com/small").split("\n", maxsplit=1)[0]
        files(f"{data.area('run')}/{pod}/stage1/rootfs/opt/stage2/small/rootfs/made")
        files(WORK + "/made")
        os.sync()
        order = [("`rm`", lambda: data.rkt("rm", pod)), ("rm -r", lambda: launch(["rm", "-r", WORK + "/made"]))]
        for name, removes in order if turn % 2 else order[::-1]:
            rounds[name].append(removes())
    title("A pod whose root has 50,000 files in 500 directories (four runs, in turn)")
    for name, results in rounds.items():
        told(name, results)


def growth():
    """The same among many images, and among many pods."""
    title("Growth")
    for count in (1, 100, 1000):
        data = many_images(count)
        rounds = {"import": [], "prepare": [], "rm": []}
        for _ in range(RUNS):
            rounds["import"].append(data.rkt("image", "import", WORK + "/large"))
            rounds["prepare"].append(data.rkt("prepare", "example.com/large"))
            rounds["rm"].append(data.rkt("rm", data.pods("prepared")[0]))
            data.says("image", "rm", f"sha512-{2:064x}")
        told(f"`image import` among {count:,} images", rounds["import"])
        told(f"`prepare` among {count:,} images", rounds["prepare"])
    data = Data("crowd")
    data.says("image", "import", WORK + "/small")
    for count in (0, 100, 1000):
        while len(data.pods("exited-garbage")) < count:
            name = f"00000000-0000-4000-8000-{len(data.pods('exited-garbage')):012x}"
            os.makedirs(f"{data.area('exited-garbage')}/{name}/marked-{int(time.time()) + 3600:020}")
        rounds = {"run": [], "rm": [], "gc": []}
        for _ in range(RUNS):
            rounds["run"].append(data.rkt("run", "example.com/small"))
            rounds["rm"].append(data.rkt("rm", data.pods("run")[0]))
            rounds["gc"].append(data.rkt("gc"))
        for name, results in rounds.items():
            told(f"`{name}` beside {count:,} pods", results)


def main():
    print(f"program {os.path.getsize(RKT) / 1024:.0f} KiB, file system {file_system()}, load {os.getloadavg()[0]:.1f} at the start")
    bundle("small", 1, 0)
    bundle("large", 2, 17)
    works = peers()
    small_commands(works)
    one_of_each(works)
    small_runs(works)
    sweeps()
    large_removal()
    growth()
    print(f"\nload {os.getloadavg()[0]:.1f} at the end")


def file_system():
    return subprocess.run(["stat", "-f", "-c", "%T", WORK], stdout=subprocess.PIPE, check=True).stdout.decode().strip()


main()
