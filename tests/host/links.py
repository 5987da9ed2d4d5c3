"""Prints each link of the documents that leads to no file, or to no heading of it."""
import os
import re


def heading_names(path):
    """The names by which the headings of a page are linked."""
    names = set()
    with open(path, encoding="utf-8") as lines:
        for line in lines:
            if line.startswith("#"):
                text = line.lstrip("#").strip().lower()
                names.add(re.sub(r"[^a-z0-9 _-]", "", text).replace(" ", "-"))
    return names


def pages():
    for folder, folders, files in os.walk("."):
        folders[:] = [f for f in folders if f not in (".git", "out", "build", "crates")]
        yield from (os.path.join(folder, f) for f in files if f.endswith(".md"))


def main():
    for page in sorted(pages()):
        with open(page, encoding="utf-8") as file:
            text = file.read()
        for link in re.findall(r"\]\(([^)\s]+)\)", text):
            if "://" in link:
                continue
            place, _, heading = link.partition("#")
            target = os.path.join(os.path.dirname(page), place) if place else page
            if not os.path.exists(target):
                print(f"{page}: no file: {link}")
            elif heading and heading not in heading_names(target):
                print(f"{page}: no heading: {link}")


if __name__ == "__main__":
    main()
