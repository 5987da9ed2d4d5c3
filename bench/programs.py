"""Times the program on data folders and manifests of several sizes; see programs.sh."""
import json
import os
import statistics
import subprocess
import sys

RUNS = 50
WORK = sys.argv[1]
RKT = os.path.join(WORK, "rkt")
FLOOR = os.path.join(WORK, "floor")
LAUNCH = os.path.join(WORK, "launch")


def once(command, env):
    answer = subprocess.run([LAUNCH, *command], env=env, stdout=subprocess.PIPE, check=True)
    taken, memory = answer.stdout.split()
    return int(taken), int(memory)


def measure(name, command, env=None):
    env = dict(os.environ, **(env or {}))
    rounds = [(once([FLOOR], env)[0], *once(command, env)) for _ in range(RUNS)]
    ratio = statistics.median(r[1] / r[0] for r in rounds)
    taken = statistics.median(r[1] for r in rounds)
    memory = max(r[2] for r in rounds)
    print(f"{name:28} {taken / 1000:8.2f} ms {ratio:6.2f} x floor {memory / 1024:7.1f} MB")


def pods(count):
    folder = os.path.join(WORK, f"data{count}")
    for i in range(count):
        os.makedirs(os.path.join(folder, "pods", "run", f"00000000-0000-4000-8000-{i:012x}"))
    return folder


def manifest(annotations):
    """An image manifest with that many annotations of some 45 bytes each."""
    document = {
        "acKind": "ImageManifest",
        "acVersion": "0.8.0",
        "name": "example.com/measured",
        "labels": [{"name": "version", "value": "1.0.0"}, {"name": "os", "value": "linux"}],
        "annotations": [{"name": f"note-{i:05}", "value": f"a text {i:05}"} for i in range(annotations)],
    }
    path = os.path.join(WORK, f"manifest{annotations}.json")
    with open(path, "w", encoding="ascii") as file:
        json.dump(document, file, separators=(",", ":"))
    return path


def labelled(labels):
    """An image manifest with that many labels, named by three letters or digits each."""
    digits = "0123456789abcdefghijklmnopqrstuvwxyz"
    names = [a + b + c for a in digits for b in digits for c in digits][:labels]
    document = {
        "acKind": "ImageManifest",
        "acVersion": "0.8.0",
        "name": "example.com/labelled",
        "labels": [{"name": name, "value": ""} for name in names],
    }
    path = os.path.join(WORK, f"labelled{labels}.json")
    with open(path, "w", encoding="ascii") as file:
        json.dump(document, file, separators=(",", ":"))
    return path


def main():
    print(f"program {os.path.getsize(RKT) / 1024:.0f} KiB, medians of {RUNS} runs")
    measure("empty C program", [FLOOR])
    for count in (1, 100, 1000, 10000):
        folder = pods(count)
        measure(f"status among {count} pods", [RKT, "status", f"00000000-0000-4000-8000-{count - 1:012x}"],
                {"RKT_DIR": folder})
    folder = os.path.join(WORK, "data1")
    for annotations in (20, 20000):
        path = manifest(annotations)
        measure(f"validate of {os.path.getsize(path):,} bytes", [RKT, "validate", path], {"RKT_DIR": folder})
    path = labelled(40000)
    measure("validate of 40,000 labels", [RKT, "validate", path], {"RKT_DIR": folder})


main()
