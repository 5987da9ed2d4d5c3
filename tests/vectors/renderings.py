"""Writes the blocks at the end of `crates/vectors/stdin`, in the script of `pod_vectors`.

Random images, and what the root of the first of them holds.

The rule is the one of a rendering alone, on maps from paths to entries. A node's assembly: the assemblies of its
children laid over each other in their order, then its own entries, then its whitelist. Nothing here is taken from the
program. `python3 tests/vectors/renderings.py 200 > blocks`; the seed is fixed, so the blocks are always the same.
"""
import random
import sys

MADE = ("m", None)
NAMES = ["a", "b", "a-"]


def ancestors(path):
    parts = path.split("/")[1:]
    return ["/" + "/".join(parts[:count]) for count in range(1, len(parts))]


def is_directory(entry):
    return entry is not None and entry[0] in "dm"


def overlay(tree, path, entry):
    """The entry takes its path. Directories are made above it, and what isn't a directory has nothing below it."""
    for above in ancestors(path):
        if not is_directory(tree.get(above)):
            tree[above] = MADE
    tree[path] = entry
    if not is_directory(entry):
        for other in [other for other in tree if other.startswith(path + "/")]:
            del tree[other]


def in_order(paths):
    return sorted(paths, key=lambda path: path.encode())


def lay(tree, upper):
    for path in in_order(upper):
        overlay(tree, path, upper[path])


def keep(tree, whitelist):
    if not whitelist:
        return tree
    kept = {}
    for listed in whitelist:
        path = listed.rstrip("/")
        entry = tree.get(path)
        if entry is None or (listed.endswith("/") and not is_directory(entry)):
            continue
        kept[path] = entry
        for above in ancestors(path):
            kept[above] = tree[above]
    for listed in whitelist:
        if listed.endswith("/"):
            path = listed.rstrip("/")
            for place in ancestors(path) + [path]:
                if not is_directory(kept.get(place)):
                    kept[place] = MADE
    return kept


def assembly(images, number):
    image = images[number]
    tree = {}
    for child in image["needs"]:
        lay(tree, assembly(images, child))
    lay(tree, image["own"])
    return keep(tree, image["keeps"])


def random_path(draw):
    return "/" + "/".join(draw.choice(NAMES) for _ in range(draw.choice([1, 1, 2, 2, 3])))


def random_image(draw, number, count):
    words = []
    own = {}
    for _ in range(draw.randrange(6)):
        letter, path = draw.choice("ddffFl"), random_path(draw)
        words.append(letter + path)
        overlay(own, path, (letter, number))
    listed = draw.randrange(1, 4) if draw.random() < 0.5 else 0
    keeps = list(dict.fromkeys(random_path(draw) + draw.choice(["", "", "/"]) for _ in range(listed)))
    later = range(number + 1, count)
    needs = sorted(draw.sample(later, min(len(later), draw.choice([0, 1, 2, 3]))), key=lambda _: draw.random())
    return {"own": own, "words": words, "keeps": keeps, "needs": needs}


def name(number):
    return "top" if number == 0 else "abcdefgh"[number - 1]


def image_line(number, image):
    words = ["image", "%02x" % (number + 1), name(number)]
    for key, items in [("needs", [name(child) for child in image["needs"]]), ("keeps", image["keeps"]), ("own", image["words"])]:
        if items:
            words.append(key + "=" + ",".join(items))
    return " ".join(words)


def entry_line(path, entry):
    letter, number = entry
    return "  " + letter + path + (" from " + name(number) if letter in "fF" else "")


def nodes(images, number):
    return 1 + sum(nodes(images, child) for child in images[number]["needs"])


def is_worth(images):
    """More than one node, and no more than a reader can follow."""
    return 3 <= nodes(images, 0) <= 24 and assembly(images, 0)


def block(draw, number):
    while True:
        count = draw.randrange(3, 7)
        images = [random_image(draw, place, count) for place in range(count)]
        if is_worth(images):
            break
    root = assembly(images, 0)
    lines = ["# Random images %d." % number]
    lines += [image_line(place, image) for place, image in enumerate(images)]
    answer = [entry_line(path, root[path]) for path in in_order(root)]
    return lines + ["root"] + answer + ["laid"] + answer


if __name__ == "__main__":
    draw = random.Random(2026)
    print("\n\n".join("\n".join(block(draw, number)) for number in range(1, int(sys.argv[1]) + 1)))
