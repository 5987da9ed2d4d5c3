"""The pod of one image, made from the bundles of images by what is written of pods, and not by the program:
rendering.py WANTED TOKEN CREATED BUNDLE.. writes the pod's folder to WANTED. The first bundle is the app's image."""
import hashlib
import json
import os
import sys


def escaped(path):
    return "".join(c if 32 < ord(c) < 127 and c != "%" else "".join("%%%02X" % b for b in c.encode()) for c in path)


def walked(root, folder=""):
    """The entries below a folder: kind, mode and what a file or a link holds."""
    entries = {}
    for name in sorted(os.listdir(root + folder), key=os.fsencode):
        path = folder + "/" + name
        if os.path.islink(root + path):
            entries[path] = ("l", "0777", os.readlink(root + path))
        elif os.path.isdir(root + path):
            entries[path] = ("d", "0755", None)
            entries.update(walked(root, path))
        else:
            with open(root + path, "rb") as file:
                entries[path] = ("f", "0755", file.read())
    return entries


def listed(bundle):
    """The entries of a bundle's own listing, whose paths have nothing to escape."""
    entries = {}
    with open(bundle + "/tree") as file:
        for line in file.read().splitlines():
            fields = line.split(" ")
            path = fields[-1]
            if fields[0] == "f":
                with open(bundle + "/rootfs" + path, "rb") as data:
                    entries[path] = ("f", fields[1], data.read())
            else:
                entries[path] = (fields[0], fields[1], fields[4] if fields[0] == "l" else None)
    return entries


def parents(path):
    return [path[:i] for i in range(1, len(path)) if path[i] == "/"]


def below(path, other):
    return other.startswith(path + "/")


def lay(base, path, entry):
    for parent in parents(path):
        if base.get(parent, ("",))[0] != "d":
            base[parent] = ("d", "0755", None)
    if entry[0] != "d":
        for other in [p for p in base if below(path, p)]:
            del base[other]
    base[path] = entry


def kept(entries, whitelist):
    if not whitelist:
        return entries
    plain = {p for p in whitelist if not p.endswith("/")}
    slashed = {p[:-1] for p in whitelist if p.endswith("/")}
    stays = {p for p, e in entries.items() if p in plain or (e[0] == "d" and p in slashed)}
    result = {p: e for p, e in entries.items() if p in stays or (e[0] == "d" and any(below(p, s) for s in stays))}
    for path in slashed:
        for part in parents(path) + [path]:
            if part and result.get(part, ("",))[0] != "d":
                result[part] = ("d", "0755", None)
    return result


class Image:
    def __init__(self, bundle):
        with open(bundle + "/manifest", "rb") as file:
            self.bytes = file.read()
        with open(bundle + "/id") as file:
            self.id = file.read().strip()
        self.manifest = json.loads(self.bytes)
        self.name = self.manifest["name"]
        self.entries = listed(bundle) if os.path.exists(bundle + "/tree") else walked(bundle + "/rootfs")


def assembly(images, image):
    result = {}
    for dependency in image.manifest.get("dependencies", []):
        child = assembly(images, next(i for i in images if i.name == dependency["imageName"]))
        for path in sorted(child, key=str.encode):
            lay(result, path, child[path])
    for path in sorted(image.entries, key=str.encode):
        lay(result, path, image.entries[path])
    return kept(result, image.manifest.get("pathWhitelist"))


def line(path, entry):
    kind, mode, held = entry
    middle = ""
    if kind == "f":
        middle = " %d %s" % (len(held), hashlib.sha512(held).hexdigest())
    if kind == "l":
        middle = " " + escaped(held)
    return "%s %s 0 0%s %s\n" % (kind, mode, middle, escaped(path))


def written(folder, path, data):
    os.makedirs(os.path.dirname(folder + "/" + path), exist_ok=True)
    with open(folder + "/" + path, "wb") as file:
        file.write(data)


def main(wanted, token, created, *bundles):
    images = [Image(b) for b in bundles]
    image = images[0]
    app = image.name.split("/")[-1]
    for mark in "._~":
        app = app.replace(mark, "-")
    root = "stage1/rootfs/opt/stage2/" + app
    entries = assembly(images, image)
    reference = {"id": image.id, "name": image.name}
    if image.manifest.get("labels"):
        reference["labels"] = image.manifest["labels"]
    pod = {"acKind": "PodManifest", "acVersion": "0.8.0", "apps": [{"app": image.manifest["app"], "image": reference, "name": app}]}
    written(wanted, "created-" + created, b"")
    written(wanted, "token", token.encode())
    written(wanted, "pod", json.dumps(pod, separators=(",", ":"), sort_keys=True).encode())
    written(wanted, "appsinfo/%s/manifest" % app, image.bytes)
    written(wanted, root + "/tree", "".join(line(p, entries[p]) for p in sorted(entries, key=str.encode)).encode())
    os.makedirs(wanted + "/stage1/rootfs/rkt/status")
    os.makedirs(wanted + "/" + root + "/rootfs", exist_ok=True)
    for path, (kind, mode, held) in entries.items():
        if kind == "d":
            os.makedirs(wanted + "/" + root + "/rootfs" + path, exist_ok=True)
        elif kind == "f":
            written(wanted, root + "/rootfs" + path, held)


main(*sys.argv[1:])
