"""Times `rkt prepare` among many images and of many layers; see listings.sh. Images are written to the store as an
import leaves them; those that no pod uses have no files of their own, since nobody reads them."""
import hashlib
import json
import os
import shutil
import subprocess
import sys

WORK, *PROGRAMS = sys.argv[1:]
RUNS = int(os.environ.get("RUNS", "5"))
NIL = hashlib.sha512(b"").hexdigest()


def image(data, number, name, files, needs=(), real=False, directory=None):
    """An image of so many empty files, in one directory: its own, or one that it shares with the others."""
    directory = directory or name
    folder = f"{data}/store/images/sha512-{number:064x}"
    os.makedirs(f"{folder}/rootfs/{directory}" if real else f"{folder}/rootfs")
    manifest = {"acKind": "ImageManifest", "acVersion": "0.8.0", "name": f"example.com/{name}",
                "app": {"exec": ["/bin/run"], "user": "0", "group": "0"},
                "dependencies": [{"imageName": f"example.com/{need}"} for need in needs]}
    names = sorted("f%d" % n for n in range(files))
    lines = [f"d 0755 0 0 /{directory}"] + [f"f 0644 0 0 0 {NIL} /{directory}/{file}" for file in names]
    texts = {"manifest": json.dumps(manifest), "id": f"sha512-{number:064x}{0:064}\n", "tree": "\n".join(lines) + "\n",
             f"imported-{number + 1:020}": ""}
    for file, text in texts.items():
        with open(f"{folder}/{file}", "w", encoding="ascii") as out:
            out.write(text)
    if real:
        for file in names:
            with open(f"{folder}/rootfs/{directory}/{file}", "wb"):
                pass


def launched(program, data, *words):
    done = subprocess.run([WORK + "/launch", program, *words], env=dict(os.environ, RKT_DIR=data), stdout=subprocess.PIPE, check=True)
    taken, memory = done.stdout.split()
    return int(taken) / 1000, int(memory) / 1024


def is_prepared(data):
    return len(os.listdir(f"{data}/pods/prepared")) == 1


def told(title, data, *words):
    """One line for each program, by turns; the pods are taken away in between."""
    rounds = {program: [] for program in PROGRAMS}
    for _ in range(RUNS):
        for program in PROGRAMS:
            rounds[program].append(launched(program, data, *words))
            if words[0] == "prepare":
                assert is_prepared(data), program
                shutil.rmtree(f"{data}/pods/prepared")
                os.makedirs(f"{data}/pods/prepared")
    for program, taken in rounds.items():
        times = sorted(time for time, _ in taken)
        print(f"| {title} | {program} | {times[0]:.1f} ms | {times[len(times) // 2]:.1f} ms | {max(m for _, m in taken):.1f} MB |", flush=True)


def data_folder(name):
    data = f"{WORK}/{name}"
    subprocess.run([PROGRAMS[0], "image", "list"], env=dict(os.environ, RKT_DIR=data), check=True)
    return data


def among(count, files):
    data = data_folder(f"among-{count}-{files}")
    image(data, 0, "used", 1000, real=True)
    for number in range(1, count):
        image(data, number, f"other{number}", files)
    told(f"prepare of one image of 1,000 files among {count}, the others of {files}", data, "prepare", "example.com/used")
    told(f"image list of {count} images", data, "image", "list")
    shutil.rmtree(data)


def layers(count, files):
    """All have the same paths: a root has no more than 65,536 entries."""
    data = data_folder(f"layers-{count}")
    needs = [f"layer{number}" for number in range(1, count)]
    image(data, 0, "layer0", files, needs, real=True, directory="all")
    for number in range(1, count):
        image(data, number, f"layer{number}", files, real=True, directory="all")
    told(f"prepare of {count} layers of {files} files", data, "prepare", "example.com/layer0")
    shutil.rmtree(data)


if __name__ == "__main__":
    print("| what | program | least | middle | greatest memory |\n|---|---|---|---|---|")
    among(1, 1000)
    among(1000, 1)
    among(1000, 1000)
    among(10000, 1)
    layers(1, 10000)
    layers(20, 10000)
