"""Whether what stands in a data folder is whole, recomputed by docs/formats.md and not by the program. The functions
answer lists of faults in words; `python3 wholeness.py DATA` prints those of all images and prepared pods of a data folder."""
import hashlib
import json
import os
import re
import sys

UUID = re.compile(r"[0-9a-f]{8}-[0-9a-f]{4}-[0-9a-f]{4}-[0-9a-f]{4}-[0-9a-f]{12}$")
KEY = re.compile(r"sha512-[0-9a-f]{64}$")


def read(path):
    with open(path, "rb") as file:
        return file.read()


def escaped(name):
    return b"".join(b"%c" % c if 32 < c < 127 and c != 37 else b"%%%02X" % c for c in os.fsencode(name))


def unescaped(text):
    return re.sub(rb"%([0-9A-F]{2})", lambda found: bytes.fromhex(found.group(1).decode()), text)


def digest(image_id, manifest, listing):
    """The digest of an image by its ID's text, its manifest's bytes and its listing."""
    text = image_id + b"\n" + hashlib.sha512(manifest).hexdigest().encode() + b"\n" + listing
    return hashlib.sha512(text).hexdigest()


def walked(root):
    """The lines of a folder without a listing, in the byte order of the paths as they are written."""
    lines = []
    for folder, folders, files in os.walk(root):
        for name in folders + files:
            path = os.path.join(folder, name)
            shown = escaped(path[len(root):])
            if os.path.islink(path):
                lines.append((os.fsencode(path), b"l 0777 0 0 " + escaped(os.readlink(path)) + b" " + shown))
            elif os.path.isdir(path):
                lines.append((os.fsencode(path), b"d 0755 0 0 " + shown))
            else:
                held = read(path)
                lines.append((os.fsencode(path), b"f 0755 0 0 %d %s " % (len(held), hashlib.sha512(held).hexdigest().encode()) + shown))
    return b"".join(line + b"\n" for _, line in sorted(lines))


def digest_of_bundle(bundle):
    return digest(read(bundle + "/id").strip(), read(bundle + "/manifest"), walked(bundle + "/rootfs"))


def standing(root):
    """The directories and the files below a folder, and what is neither."""
    found = {"d": set(), "f": set(), "other": set()}
    for folder, folders, files in os.walk(os.fsencode(root)):
        for name in folders + files:
            path = os.path.join(folder, name)
            kind = "other" if os.path.islink(path) else "d" if os.path.isdir(path) else "f" if os.path.isfile(path) else "other"
            found[kind].add(path[len(os.fsencode(root)):])
    return found


def faults_of_tree(listing, root):
    """What stands below a root against a listing: its links stand in the listing alone."""
    found = standing(root)
    listed = {"d": set(), "f": set()}
    faults = []
    for line in listing.split(b"\n")[:-1]:
        fields = line.split(b" ")
        path = unescaped(fields[-1])
        if fields[0] in (b"d", b"f"):
            listed[fields[0].decode()].add(path)
        if fields[0] == b"f" and path in found["f"]:
            held = read(os.fsencode(root) + path)
            if int(fields[4]) != len(held) or fields[5].decode() != hashlib.sha512(held).hexdigest():
                faults.append(f"{path} isn't what the listing says")
    for kind in ("d", "f"):
        faults += [f"{path} is missing" for path in listed[kind] - found[kind]]
        faults += [f"{path} isn't listed" for path in found[kind] - listed[kind]]
    return faults + [f"{path} is neither directory nor file" for path in found["other"]]


def faults_of_image(folder, wanted=None):
    """An image of the store: its folder, and the digest that it is to have."""
    try:
        manifest, image_id, listing = (read(f"{folder}/{part}") for part in ("manifest", "id", "tree"))
        faults = faults_of_tree(listing, folder + "/rootfs")
        json.loads(manifest)
    except (OSError, ValueError, IndexError) as error:
        return [f"{folder}: {error}"]
    if not image_id.decode().startswith(os.path.basename(folder)):
        faults.append("its ID is another's")
    if wanted is not None and digest(image_id.strip(), manifest, listing) != wanted:
        faults.append("its digest is another")
    if not any(re.match(r"imported-\d{20}$", name) for name in os.listdir(folder)):
        faults.append("no mark of its import")
    return [f"{os.path.basename(folder)}: {fault}" for fault in faults]


def faults_of_pod(folder):
    """A pod that is prepared: each part that its maker leaves, and each app's root against its listing."""
    try:
        faults = [] if re.match(rb"[0-9a-f]{32}$", read(folder + "/token")) else ["a token that is none"]
        for app in json.loads(read(folder + "/pod"))["apps"]:
            root = f"{folder}/stage1/rootfs/opt/stage2/{app['name']}"
            faults += faults_of_tree(read(root + "/tree"), root + "/rootfs")
            json.loads(read(f"{folder}/appsinfo/{app['name']}/manifest"))
        if os.listdir(folder + "/stage1/rootfs/rkt/status"):
            faults.append("a status before it ran")
    except (OSError, ValueError, IndexError, KeyError) as error:
        return [f"{folder}: {error}"]
    marks = [name for name in os.listdir(folder) if "-" in name]
    if not (len(marks) == 1 and re.match(r"created-\d{20}$", marks[0])):
        faults.append(f"marks {marks}")
    return [f"{os.path.basename(folder)}: {fault}" for fault in faults]


def main(data):
    faults = []
    for name in sorted(os.listdir(data + "/store/images")):
        if KEY.match(name):
            faults += faults_of_image(f"{data}/store/images/{name}")
    for name in sorted(os.listdir(data + "/pods/prepared")):
        if UUID.match(name):
            faults += faults_of_pod(f"{data}/pods/prepared/{name}")
    print("\n".join(faults) or "whole")
    return 1 if faults else 0


if __name__ == "__main__":
    sys.exit(main(sys.argv[1]))
