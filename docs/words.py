#!/usr/bin/env python3
"""Writes what follows from docs/words.table, below a folder (the repository where none is named):

    python3 docs/words.py [FOLDER]

the texts of --help, the marked parts of the man page, the completions, and the list of commands in README.md."""
import itertools
import os
import re
import sys
import textwrap

HERE = os.path.dirname(os.path.abspath(__file__))
TOP = os.path.dirname(HERE)
WIDTH = 80
LINES = 24
BEGIN_ROW = ("version", "about", "exit", "value", "option", "command")
NOTE = "Written by docs/words.py from docs/words.table."


class Row:
    """A row of the table: its kind and name, what else is said of it, and the paragraphs of its text."""

    def __init__(self, kind, rest):
        self.kind = kind
        self.name, _, self.rest = rest.partition(" ")
        self.said = {}
        self.texts = []

    def words_of(self, key):
        return self.said.get(key, "").split()

    @property
    def text(self):
        return self.texts[0]


class Table:
    """The rows of the table, by kind."""

    def __init__(self, path):
        self.rows = []
        with open(path, encoding="utf-8") as lines:
            for number, line in enumerate(lines, 1):
                self.read(line.rstrip("\n"), number)
        self.exits = {row.name: row.rest for row in self.of("exit")}
        self.values = {row.name: row for row in self.of("value")}
        self.options = {row.name: row for row in self.of("option")}
        self.commands = []
        for row in self.of("command"):
            row.name = f"{row.name} {row.rest}".strip()
            self.commands.append(row)

    def read(self, line, number):
        if not line.strip() or line.startswith("#"):
            return
        if line.startswith(" "):
            self.rows[-1].texts.append(line.strip())
            return
        kind, _, rest = line.partition(" ")
        if kind in BEGIN_ROW:
            self.rows.append(Row(kind, rest))
        elif kind in ("says", "brief", "does", "options", "words", "areas", "exits", "more", "default"):
            self.rows[-1].said[kind] = rest
        else:
            sys.exit(f"docs/words.table: line {number}: no such word: {kind}")

    def of(self, kind):
        return [row for row in self.rows if row.kind == kind]

    def alone(self, kind):
        row = self.of(kind)[0]
        return f"{row.name} {row.rest}".strip()

    def exits_of(self, command):
        """Each status of a command with its name: the one that the command has of several."""
        for word in command.words_of("exits"):
            number, _, name = word.partition("=")
            yield number, name.replace("-", " ") or self.exits[number]

    def option_value(self, option):
        return self.options[option].rest

    def plain_values(self, command):
        """The values that stand for the plain words of a command."""
        return [self.values[word.rstrip(".")] for word in command.words_of("words")]


# ---- synopses

def synopsis(table, command):
    options = [f"[--{o}={table.option_value(o)}]" for o in command.words_of("options")]
    return " ".join(["rkt", command.name] + options + command.words_of("words"))


def short_synopsis(command):
    options = ["[OPTION...]"] if command.words_of("options") else []
    return " ".join(["rkt", command.name] + options + command.words_of("words"))


def command_lines(table):
    """A line for each command: its short synopsis and what it does."""
    width = max(len(short_synopsis(c)) for c in table.commands)
    return [f"{short_synopsis(c):<{width}}  {c.said['does']}" for c in table.commands]


# ---- what --help prints

def fill(text, first="", later=None):
    return textwrap.wrap(text, WIDTH, initial_indent=first, subsequent_indent=first if later is None else later,
                         break_on_hyphens=False, break_long_words=False)


def paired(rows):
    """Lines of names with texts, the texts below one another."""
    width = max(len(name) for name, _ in rows)
    lines = []
    for name, text in rows:
        lines += fill(text, f"  {name:<{width}}  ", " " * (width + 4))
    return lines


def option_text(option):
    default = option.said.get("default")
    return option.text + (f"; {default} where it isn't given" if default else "")


def value_rows(table, command):
    """The words of a command, its options, and the values of these."""
    options = [table.options[o] for o in command.words_of("options")]
    rows = [(plain.name, plain.text) for plain in table.plain_values(command)]
    rows += [(f"--{o.name}={o.rest}", option_text(o)) for o in options]
    names = dict.fromkeys(o.rest for o in options)
    return rows + [(name, table.values[name].text) for name in names]


def exit_lines(table, command):
    """The statuses of a command; no line ends inside of a name."""
    names = [f"{n} {name}".replace(" ", "\0") for n, name in table.exits_of(command)]
    return [line.replace("\0", " ") for line in fill("exit status: " + ", ".join(names), "", "  ")]


def sentence(text):
    """The text as a sentence; a form, as NAME=VALUE, begins as it does."""
    first = text if "=" in text.split()[0] else text[0].upper() + text[1:]
    return first + "."


def help_of(table, command):
    lines = fill(f"usage: {synopsis(table, command)}", "", "       ") + [""]
    for text in command.texts:
        lines += fill(text)
    rows = value_rows(table, command)
    lines += [""] + (paired(rows) + [""] if rows else [])
    return lines + exit_lines(table, command)


def help_of_image(table):
    commands = [c for c in table.commands if c.name.startswith("image ")]
    lines = ["usage: rkt image COMMAND, one of these:", ""]
    lines += paired([(short_synopsis(c), c.said["does"]) for c in commands])
    return lines + [""] + fill("Each of them tells more of itself, as rkt image import --help does.")


def exit_columns(table):
    cells = [f"{row.name:>4}  {row.said.get('brief', row.rest)}" for row in table.of("exit")]
    half = (len(cells) + 1) // 2
    left, right = cells[:half], cells[half:] + [""]
    return [f"{a:<38}{b}".rstrip() for a, b in zip(left, right)]


def main_help(table):
    width = max(len(short_synopsis(c)) for c in table.commands)
    lines = [f"rkt: {table.alone('about')}", "", "usage:"]
    lines += ["  " + line for line in command_lines(table)]
    lines += [f"  {'rkt COMMAND --help':<{width}}  tells its words, options and statuses",
              f"  {'rkt --help':<{width}}  prints this, as rkt -h and rkt help do",
              f"  {'rkt --version':<{width}}  prints the version", ""]
    lines += fill("The data folder is the one that RKT_DIR names, or rkt in the current folder "
                  "where that is unset or empty. Whatever is missing of it is made.")
    return lines + ["", "exit status:"] + exit_columns(table)


def checked(name, lines, most):
    """The text of these lines, if they fit on a screen."""
    wide = [line for line in lines if len(line) > WIDTH]
    if wide or len(lines) > most:
        sys.exit(f"docs/words.py: the help of {name} has {len(lines)} lines, and too wide ones: {wide}")
    return "".join(line + "\n" for line in lines)


def helps(table):
    """The texts, by the words in front of --help."""
    texts = {"": checked("rkt", main_help(table), 37), "image": checked("image", help_of_image(table), LINES)}
    for command in table.commands:
        texts[command.name] = checked(command.name, help_of(table, command), LINES)
    return texts


# ---- crates/rkt/src/texts.rt

def constant_name(words):
    return re.sub("[ -]", "_", words).upper() if words else "HELP"


def rust_text(text):
    return text.replace("\\", "\\\\").replace('"', '\\"')


def constant(name, doc, text):
    head = f"/// {doc}\npub const" if doc else "const"
    return f'{head} {name}: &str = "\\\n{rust_text(text)}";\n'


def rust_table(name, doc, rows):
    items = "".join(f'    ("{word}", {constant_name(words)}),\n' for word, words in rows)
    return f"/// {doc}\npub const {name}: [(&str, &str); {len(rows)}] = [\n{items}];\n"


def rust(table):
    texts = helps(table)
    parts = [f"// What the program prints by itself. {NOTE}\n",
             f'/// What `--version` prints.\npub const VERSION: &str = "rkt {table.alone("version")}\\n";\n',
             constant("HELP", "What `--help` prints.", texts[""])]
    parts += [constant(constant_name(words), "", text) for words, text in texts.items() if words]
    firsts = [(w, w) for w in texts if w and " " not in w]
    seconds = [(w.split()[1], w) for w in texts if " " in w]
    parts += [rust_table("COMMANDS", "The text of each first word.", firsts),
              rust_table("IMAGE_COMMANDS", "The text of each word behind `image`.", seconds)]
    return "\n".join(parts)


# ---- docs/rkt.1

def roff(text):
    text = text.replace("\\", "\\e").replace("-", "\\-")
    return "\\&" + text if text[:1] in (".", "'") else text


def roff_word(word):
    """A word of a synopsis: values in italics, all else in bold."""
    return "".join(rf"\fI{roff(p)}\fR" if p.isupper() else (roff(p) if p in "[].=" or p == "..." else rf"\fB{roff(p)}\fR")
                   for p in re.findall(r"[A-Z]+|\.\.\.|[\[\]=]|[a-z-]+", word))


def roff_synopsis(table, command):
    return " ".join(roff_word(word) for word in synopsis(table, command).split())


def man_synopsis(table):
    lines = [roff_synopsis(table, c) for c in table.commands]
    lines += [r"\fBrkt\fR \fICOMMAND\fR \fB\-\-help\fR", r"\fBrkt \-\-help\fR | \fB\-h\fR | \fBhelp\fR", r"\fBrkt \-\-version\fR"]
    return "\n.br\n".join(lines) + "\n"


def man_command(table, command):
    return f".SS {roff_synopsis(table, command)}\n"


def man_statuses(table, command):
    numbers = command.words_of("exits")
    names = [n.partition("=")[0] for n in numbers]
    return f"Its statuses are {', '.join(names[:-1])} and {names[-1]}.\n"


def tagged(tag, text):
    return f".TP\n{tag}\n{roff(text)}\n"


def man_options(table):
    parts = []
    for option in table.options.values():
        users = " and ".join(f"rkt {c.name}" for c in table.commands if option.name in c.words_of("options"))
        tag = rf"\fB\-\-{roff(option.name)}=\fR\fI{option.rest}\fR"
        parts.append(tagged(tag, f"{sentence(option_text(option))} Of {users}."))
    parts.append(tagged(r"\fB\-\-help\fR", "Alone behind a command: prints what this page says of it, in short."))
    return "".join(parts)


def man_values(table):
    return "".join(tagged(rf"\fI{v.name}\fR", " ".join([sentence(v.text)] + v.texts[1:])) for v in table.values.values())


def roff_message(message):
    """A message: values in italics, all else in bold."""
    runs = itertools.groupby(message.split(), lambda word: "I" if word.isupper() else "B")
    return " ".join(rf"\f{font}{roff(' '.join(words))}\fR" for font, words in runs)


def man_exits(table):
    """Each status with its messages and its text."""
    parts = []
    for row in table.of("exit"):
        messages = [roff_message(m) for m in row.said.get("says", "").split("|") if m.strip()]
        said = ";\n".join(messages) + "\n.br\n" if messages else ""
        parts.append(f".TP\n\\fB{row.name}\\fR\n{said}{roff(row.text)}\n")
    return "".join(parts)


def man_parts(table):
    """The marked parts of the man page, by their marks."""
    title = f'.TH RKT 1 "2026-11-30" "rkt {table.alone("version")}" "User Commands"\n'
    parts = {"title": title, "synopsis": man_synopsis(table), "options": man_options(table), "values": man_values(table), "exits": man_exits(table)}
    for command in table.commands:
        parts[f"command {command.name}"] = man_command(table, command)
        parts[f"statuses {command.name}"] = man_statuses(table, command)
    return parts


def replaced(text, mark, begin, end, part):
    """The text with this part between the two marks."""
    head, found, rest = text.partition(begin)
    _, closed, tail = rest.partition(end)
    if not (found and closed):
        sys.exit(f"docs/words.py: the mark is missing: {mark}")
    return head + begin + part + end + tail


def man(table):
    with open(os.path.join(HERE, "rkt.1"), encoding="utf-8") as file:
        text = file.read()
    for mark, part in man_parts(table).items():
        text = replaced(text, mark, f'.\\" table: {mark}\n', '.\\" end\n', part)
    return text


# ---- README.md

def readme(table):
    with open(os.path.join(TOP, "README.md"), encoding="utf-8") as file:
        text = file.read()
    part = "".join(f"    {line}\n" for line in command_lines(table))
    return replaced(text, "commands", "<!-- commands: docs/words.table -->\n\n", "\n<!-- end -->\n", part)


# ---- dist/completion

BASH = r"""# Words of rkt for bash: commands, options, pods by area, images and keys. @NOTE@
_rkt_pods() {
    local area
    for area in "$@"; do ls "${RKT_DIR:-rkt}/pods/$area" 2>/dev/null; done | grep -x '[0-9a-f-]*'
}

_rkt_keys() {
    ls "${RKT_DIR:-rkt}/store/images" 2>/dev/null | grep -x 'sha512-[0-9a-f]*'
}

# Nothing is asked of the program where there is no data folder, since it would make one.
_rkt_images() {
    [ ! -d "${RKT_DIR:-rkt}" ] || "$1" image list 2>/dev/null | cut -d ' ' -f 2 | sort -u
}

_rkt_files() {
    local file
    while IFS= read -r file; do COMPREPLY+=("$file"); done < <(compgen "$1" -- "$2")
    compopt -o filenames 2>/dev/null
}

_rkt() {
    local program=$1 current=${COMP_WORDS[COMP_CWORD]} before=${COMP_WORDS[COMP_CWORD - 1]} command='' words='' options='' word
    COMPREPLY=()
    [ "$COMP_CWORD" -lt 2 ] || command=${COMP_WORDS[1]}
    [ "$command" != image ] || [ "$COMP_CWORD" -lt 3 ] || command="image ${COMP_WORDS[2]}"
    case $current$before in *=) return ;; esac
    case $before in @VALUED@) return ;; esac
    case $command in
@CASES@
    esac
    case $current in -*) words=$options ;; esac
    while IFS= read -r word; do COMPREPLY+=("$word"); done < <(compgen -W "$words" -- "$current")
    case ${COMPREPLY[0]-} in *=) compopt -o nospace 2>/dev/null ;; esac
}
complete -F _rkt rkt
"""

ZSH = r"""#compdef rkt
# Words of rkt for zsh: commands, options, pods by area, images and keys. @NOTE@
_rkt_pods() {
    local area
    local -a pods
    for area in $@; do pods+=(${RKT_DIR:-rkt}/pods/$area/*(N:t)); done
    compadd -a pods
}

_rkt_keys() {
    local -a keys
    keys=(${RKT_DIR:-rkt}/store/images/*(N:t))
    compadd -a keys
}

# Nothing is asked of the program where there is no data folder, since it would make one.
_rkt_images() {
    local -a names
    [[ -d ${RKT_DIR:-rkt} ]] && names=(${(f)"$(rkt image list 2>/dev/null | cut -d ' ' -f 2 | sort -u)"})
    compadd -a names
}

_rkt() {
    local command
    local -a commands image_commands
    commands=(
@COMMANDS@
    )
    image_commands=(
@IMAGE_COMMANDS@
    )
    if (( CURRENT == 2 )); then
        _describe command commands
        return
    fi
    command=$words[2]
    if [[ $command == image ]]; then
        if (( CURRENT == 3 )); then
            _describe 'image command' image_commands
            return
        fi
        command="image $words[3]"
        shift words
        (( CURRENT-- ))
    fi
    shift words
    (( CURRENT-- ))
    case $command in
@CASES@
    esac
}
_rkt "$@"
"""


def bash_completer(table, command):
    plain = table.plain_values(command)
    kind = plain[0].rest if plain else "nothing"
    return {"folders": '_rkt_files -d "$current"', "files": '_rkt_files -f "$current"',
            "pods": f"words=$(_rkt_pods {command.said.get('areas', '')})", "images": 'words=$(_rkt_images "$program")',
            "keys": 'words=$(_rkt_keys)', "nothing": ":"}[kind]


def bash_case(table, command):
    options = "".join(f"--{o}= " for o in command.words_of("options"))
    body = f"options='{options}--help'"
    completer = bash_completer(table, command)
    if completer.startswith("_rkt_files"):
        body += f"; case $current in -*) ;; *) {completer}; return ;; esac"
    elif completer != ":":
        body += f"; {completer}"
    return f"    '{command.name}') {body} ;;"


def bash(table):
    firsts = list(dict.fromkeys(c.name.split()[0] for c in table.commands))
    seconds = [c.name.split()[1] for c in table.commands if " " in c.name]
    cases = [f"    '') words='{' '.join(firsts)} help'; options='--help --version' ;;",
             f"    image) words='{' '.join(seconds)}'; options=--help ;;"]
    cases += [bash_case(table, c) for c in table.commands]
    valued = " | ".join(f"--{o}" for o in table.options)
    return BASH.replace("@NOTE@", NOTE).replace("@VALUED@", valued).replace("@CASES@", "\n".join(cases))


def zsh_text(text):
    return text.replace("'", "’").replace("[", "(").replace("]", ")").replace(":", "\\:")


def zsh_case(table, command):
    rules = [f"'--{o}=[{zsh_text(table.options[o].text)}]:{table.option_value(o)}: '" for o in command.words_of("options")]
    rules.append("'--help[tells its words, options and statuses]'")
    for number, plain in enumerate(table.plain_values(command), 1):
        completer = {"folders": "_files -/", "files": "_files", "pods": f" _rkt_pods {command.said.get('areas', '')}",
                     "images": " _rkt_images", "keys": " _rkt_keys", "nothing": " "}[plain.rest]
        place = "*" if command.said["words"].endswith("...") else number
        rules.append(f"'{place}:{plain.name}:{completer}'")
    return f"    ('{command.name}') _arguments {' '.join(rules)} ;;"


def zsh_rows(rows):
    return "\n".join(f"        '{word}:{zsh_text(text)}'" for word, text in rows)


def zsh(table):
    images = [c for c in table.commands if " " in c.name]
    firsts = [("image", "has four commands on images")] + [(c.name, c.said["does"]) for c in table.commands if " " not in c.name]
    firsts += [("help", "prints the commands"), ("--help", "prints the commands"), ("--version", "prints the version")]
    seconds = [(c.name.split()[1], c.said["does"]) for c in images] + [("--help", "tells the commands on images")]
    cases = "\n".join(zsh_case(table, c) for c in table.commands)
    return (ZSH.replace("@NOTE@", NOTE).replace("@COMMANDS@", zsh_rows(firsts))
            .replace("@IMAGE_COMMANDS@", zsh_rows(seconds)).replace("@CASES@", cases))


# ---- all of it

FILES = {"crates/rkt/src/texts.rt": rust, "docs/rkt.1": man, "README.md": readme,
         "dist/completion/rkt.bash": bash, "dist/completion/_rkt": zsh}


def main():
    folder = sys.argv[1] if len(sys.argv) > 1 else TOP
    table = Table(os.path.join(HERE, "words.table"))
    for path, written in FILES.items():
        text = written(table)
        place = os.path.join(folder, path)
        os.makedirs(os.path.dirname(place), exist_ok=True)
        with open(place, "w", encoding="utf-8") as file:
            file.write(text)


if __name__ == "__main__":
    main()
