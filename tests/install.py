"""Tries `./install` into an empty folder, what it installs, and the completions against the help of the program and of the tools."""

import hashlib
import os
import re
import shutil
import stat
import time

from checking import TOP, Room, checks_of, last_of, lines_with, parts_of

TOOLS = ("check", "compare", "from_ionrc", "latest", "report", "timeline", "timetable")
COMMANDS = "check explain first follow help many next verify".split()
# What each shell runs to tell what it offers after some words, the last of which is to be completed, and its file of
# completions. In zsh, the commands of the line editor have stubs.
SHELLS = {
    "bash": (["bash", "-c", r'source "$0"; COMP_WORDS=("$@") COMP_CWORD=$(($# - 1)); _cgrlist; printf "%s\n" "${COMPREPLY[@]}"'], "cgrlist.bash"),
    "zsh": (["zsh", "-f", "-c", 'compadd() { shift; print -l -- "$@"; }; compset() { :; }; _files() { print -l -- *; }; _describe() { \
print -l -- "${(@)${(@P)2}%%:*}"; }; words=("$@") \
CURRENT=$#; source "$0"'], "_cgrlist"),
    "fish": (["fish", "--no-config", "-c", 'source $argv[1]; complete -C "$argv[2..]"'], "cgrlist.fish"),
}
FILES = "--plan --session --names --program --report --requests --choices --explained --html".split()
CHOICES = {**dict.fromkeys(FILES, ["a plan.txt"]), "--distinct": ["contacts", "entry", "nodes"], "--order": ["link", "route"],
           "--form": ["dtnsim", "hdtn", "ion"], "--first-number": ["0", "1"], "--round": ["down", "up"]}


def words_in_table(text, shell, command):
    """The words of a command in the file of completions of zsh or fish."""
    if shell == "zsh":
        return sorted(re.findall(r"^ +'(-*[a-z-]+):", re.search(rf"^    {command}\)\n((?: {{8}}.*\n)*)", text, re.M)[1], re.M))
    where = {"cgrlist": "cgrlist -n __fish_use_subcommand", "help": "cgrlist -n '__fish_seen_subcommand_from help'"}.get(
        command, command if command.startswith("cgrlist-") else f"cgrlist -n '__fish_seen_subcommand_from {command}'")
    found = re.findall(rf"^complete -c {where} -(l|a) (?:'([^']*)'|(\S+))", text, re.M)
    return sorted(f"{'--' * (kind == 'l')}{word}" for kind, words, one in found for word in (words or one).split())


def listed(text, pattern):
    return sorted(filter(None, sum(re.findall(pattern, text, re.M), ())))


with open(f"{TOP}/library/cgrlist.h", encoding="ascii") as header:
    SHARED = f"libcgrlist.so.{re.search('^#define CGRLIST_ABI (.*)', header.read(), re.M)[1]}"
LIBRARY = [
    "f 644 usr/include/cgrlist.h", "f 644 usr/include/cgrlist.hpp", "f 644 usr/lib/libcgrlist.a", f"f 755 usr/lib/{SHARED}", "l 777 usr/lib/libcgrlist.so",
    "f 644 usr/lib/pkgconfig/cgrlist.pc", "f 644 usr/share/man/man3/cgrlist.3", "f 644 usr/share/cgrlist/wrappers/libcgrlist.py",
    *(f"f 644 usr/share/cgrlist/wrappers/rust/{it}" for it in ("Cargo.toml", "build.rs", *(
        f"src/{name}" for name in os.listdir(f"{TOP}/library/rust/src")))),
]


class Installing(Room):
    def __init__(self, program):
        super().__init__()
        self.program = program
        os.mkdir(f"{self.path}/files")
        self.file("files/a plan.txt")
        os.mkdir(f"{self.path}/made")
        self.run("tools/completions", [f"{self.path}/made"])

    def words_of_help(self, *command):
        """The words that help lists: the commands, and the long form of each option. After the command `help` the other commands
        may follow."""
        if command == ("help",):
            return [it for it in self.words_of_help() if it[0] != "-" and it != "help"]
        ran = self.run([self.program, *command, "--help"])
        lists = re.findall(r"^(?:Commands|Options):\n((?:.+\n)*)", ran.out + ran.err, re.M)
        return listed("".join(lists), r"^  (?:([a-z]+) |(?:    |-., )(--[a-z-]+))")

    def offered(self, shell, *words):
        """What a shell offers after some words."""
        offering, name = SHELLS[shell]
        out = self.run([*offering, f"{self.path}/made/{name}", *words], at=f"{self.path}/files").out
        return sorted(filter(None, (line.partition("\t")[0] for line in out.splitlines())))

    def words_in_table(self, shell, command):
        """The words of a command in the file of completions of zsh or fish."""
        return words_in_table(self.read(f"made/{SHELLS[shell][1]}"), shell, command)

    def installed(self, at="at"):
        """What stands below a folder in which it was installed: type, mode, and place, a line each."""
        lines = []
        for folder, _, names in os.walk(f"{self.path}/{at}"):
            for name in names:
                mode = os.lstat(f"{folder}/{name}").st_mode
                place = os.path.relpath(f"{folder}/{name}", f"{self.path}/{at}")
                lines.append(f"{'l' if stat.S_ISLNK(mode) else 'f'} {mode & 0o777:o} {place}")
        return by_place(lines)

    def install(self, words, before="", into=None, **further):
        return self.run("bash -c", [f"{before} {TOP}/install {words}"], at=self.path,
                        DESTDIR=f"{self.path}/at" if into is None else into, **further)

    def placed(self, text):
        """The places in what installing prints."""
        return sorted(text.replace(f"{self.path}/at/", "").splitlines())

    def named(self, *words):
        """Runs what is installed by its name alone, in another folder than the clone."""
        return self.run("env", *words, at=self.path, PATH=f"{self.path}/at/usr/bin:{os.environ['PATH']}")


def by_place(lines):
    return sorted(lines, key=lambda line: line.split(" ", 2)[2])


def completions_of_the_program(room):
    yield "help lists the commands", COMMANDS, lambda: [it for it in room.words_of_help() if it[0] != "-"]
    for shell in SHELLS:
        for command in ((), *((it,) for it in COMMANDS)):
            wanted, what = room.words_of_help(*command), f"the words of cgrlist {''.join(command)}"
            if shell != "bash":
                yield f"{shell}: {what}, in its table", wanted, room.words_in_table, shell, "".join(command) or "cgrlist"
            if shutil.which(shell):
                # Without dashes, fish offers no options.
                dashes = "--" if shell == "fish" and command not in ((), ("help",)) else ""
                offered = wanted if dashes or shell != "fish" else [it for it in wanted if it[0] != "-"]
                yield f"{shell}: {what}", offered, room.offered, shell, "cgrlist", *command, dashes
        if not shutil.which(shell):
            continue
        for command, option in (("next", "--plan"), ("next", "--session"), ("next", "--session-out"), ("many", "--requests"),
                                ("follow", "--lists")):
            yield f"{shell}: files after {option}", ["a plan.txt"], room.offered, shell, "cgrlist", command, option, ""
        equals = ["--plan", "=", ""] if shell == "bash" else ["--plan="]  # bash makes three words of it
        yield (f"{shell}: files after --plan=", ["a plan.txt"],
               lambda: [it.removeprefix("--plan=") for it in room.offered(shell, "cgrlist", "first", *equals)])
        for option in "--from --to --at --margin-ppm --max-hops --avoid --count".split():
            yield f"{shell}: nothing after {option}", [], room.offered, shell, "cgrlist", "first", option, ""


def completions_of_the_tools(room):
    help_of = {tool: room.run(f"tools/{tool} --help", COLUMNS="1000").out for tool in TOOLS}
    for shell in SHELLS:
        for tool in TOOLS:
            command = f"cgrlist-{tool.replace('_', '-')}"

            def options(value):
                """The options that the tool's help lists, with such a value."""
                return listed(help_of[tool], rf"^  (-h, )?(--[a-z-]+){value}(?: .*)?$")

            words = sorted(set(options(".*")) - {"-h, "})
            if shell != "bash":
                yield f"{shell}: the words of {command}, in its table", words, room.words_in_table, shell, command
            if not shutil.which(shell):
                continue
            yield f"{shell}: the words of {command}", words, room.offered, shell, command, "--"
            for option in options(r" (?:[A-Z]+|\{.*\}).*"):
                yield f"{shell}: after {command} {option}", CHOICES.get(option, []), room.offered, shell, command, option, ""
            for option in sorted(set(options("(?: |$)(?: .*)?")) - {"-h, "}):
                again = [] if shell == "bash" else [option]  # bash offers no option that is given
                yield (f"{shell}: {option} of {command} takes nothing", sorted({*words} - {option} | {*again}),
                       room.offered, shell, command, option, "--")
        if shutil.which(shell):
            yield f"{shell}: files after cgrlist-from-ionrc", ["a plan.txt"], room.offered, shell, "cgrlist-from-ionrc", ""


def installed_files():
    """What is installed: type, mode, and place, a line each."""
    commands = [f"cgrlist-{tool.replace('_', '-')}" for tool in TOOLS]
    completions = ("bash-completion/completions/cgrlist", ""), ("fish/vendor_completions.d/cgrlist", ".fish")
    lines = ["f 755 usr/bin/cgrlist", *(f"l 777 usr/bin/{it}" for it in commands), "f 644 usr/share/zsh/site-functions/_cgrlist"]
    for place, end in completions:
        lines += [f"f 644 usr/share/{place}{end}", *(f"l 777 usr/share/{place}{it.removeprefix('cgrlist')}{end}" for it in commands)]
    lines += [f"f 755 usr/share/cgrlist/{tool}" for tool in TOOLS]
    lines += [f"f 644 usr/share/man/man1/{it}.1" for it in ["cgrlist", *commands]]
    for folder, _, names in os.walk(f"{TOP}/tools/cgrlist"):
        if not folder.endswith("__pycache__"):
            lines += [f"f 644 usr/share/cgrlist/{os.path.relpath(f'{folder}/{it}', f'{TOP}/tools')}" for it in names]
    return by_place([*lines, *LIBRARY] if has_library() else lines)


def sum_of(path):
    """The checksum of a file."""
    with open(path, "rb") as file:
        return hashlib.sha256(file.read()).hexdigest()


def run_by_the_script():
    """The program that the last proof left, statically linked if it could be."""
    with open(f"{TOP}/crates/cgrlist/out/proved", encoding="ascii") as file:
        return f"{TOP}/crates/cgrlist/out/{file.read().split()[-1]}"


def has_library():
    return os.path.exists(f"{TOP}/library/out/cgrlist.pc")


def the_installation(room):
    files = installed_files()
    places = [line.split(" ", 2)[2] for line in files]
    for turn in ("the first time", "again"):
        ran = room.install("/usr/", before="umask 077;")
        yield f"it is installed {turn}", (0, ran.out, ""), lambda: ran
        yield f"it prints each file, {turn}", places, room.placed, ran.out
        yield f"each has its place and mode, {turn}", files, room.installed
    yield ("folders are open to all", {0o755}, lambda: {
        stat.S_IMODE(os.stat(folder).st_mode) for folder, _, _ in os.walk(f"{room.path}/at")})
    yield "the program is the one that ./cgrlist runs", sum_of(run_by_the_script()), sum_of, f"{room.path}/at/usr/bin/cgrlist"
    yield "each link leads to a file", [], lambda: [it for it in places if not os.path.exists(f"{room.path}/at/{it}")]

    shutil.copy(f"{TOP}/examples/a.txt", room.path)
    window, request = "2030/01/01-00:00:00 2030/01/01-00:01:00", "--plan a.txt --from 1 --to 3"
    room.file("host.ionrc", f"a contact {window} 1 2 100000\na range {window} 1 2 5\n")
    first, at = "1 delivery 2030/01/01-00:00:15 hops 2 entry 2 until 2030/01/01-00:01:40 contacts 1 4", "--at 2030/01/01-00:00:00"
    yield "the program lists routes", f"{first}\nmore\n", lambda: room.named(f"cgrlist first {request} {at} --count 1").out
    for tool in TOOLS:
        command = f"cgrlist-{tool.replace('_', '-')}"
        yield (f"help of {command} names commands", f"usage: {command}",
               lambda: parts_of("^usage: [a-z-]+|tools/", room.named(command, "--help").out))
        yield (f"no words for {command}", f"{command}: the following arguments are required: ; see --help\n",
               lambda: re.sub(": [A-Z-].*;", ": ;", room.named(command).err))
    yield "timeline lists contacts", ["1", "2", "3", "4"], lambda: re.findall(
        r"^ +(\d+)", room.named("cgrlist-timeline --plan a.txt --list").out, re.M)
    yield "timeline finds the program", "delivery 2030/01/01-00:00:15", lambda: parts_of(
        "delivery 2030/01/01-00:00:15", room.named(f"cgrlist-timeline {request} {at} --count 1 --text").out)
    room.file("plan.txt", room.named("cgrlist-from-ionrc host.ionrc").out)
    yield "from-ionrc makes a plan", "contacts 1", lambda: parts_of("^contacts .*", room.named("cgrlist check --plan plan.txt").out)
    yield "report finds the program", "1 > 2 > 3", lambda: parts_of(
        "1 > 2 > 3", room.named(f"cgrlist-report {request} {at} --count 1").out)
    yield "latest finds the program", first, lambda: lines_with(
        "^1 delivery", room.named(f"cgrlist-latest {request} --by 2030/01/01-00:00:15").out)
    if shutil.which("man"):
        page = f"{room.path}/at/usr/share/man/man1/cgrlist.1\n"
        yield "the manual page is found", page, lambda: room.run("man -w cgrlist", MANPATH=f"{room.path}/at/usr/share/man").out
    if has_library() and shutil.which("cc") and shutil.which("pkg-config"):
        yield from with_the_library(room)
    yield "running leaves nothing there", files, room.installed

    room.file("at/usr/share/other")
    removed = room.install("--uninstall /usr")
    yield ("uninstalling removes each file and no other", (0, "", ["f 644 usr/share/other"]),
           lambda: (removed.status, removed.err, room.installed()))
    yield "it prints what it removed", places, room.placed, removed.out
    yield "uninstalling removes the folder of the tools", False, os.path.exists, f"{room.path}/at/usr/share/cgrlist"
    yield "nothing to uninstall is no failure", "", lambda: room.install("--uninstall /usr").all()
    # Where the path lacks the folder of commands, it says so.
    home = f"{room.path}/home/.local"
    yield "the path lacks them", f"""\
install: the path lacks {home}/bin. Put this line at the end of ~/.profile, and log in again:
export PATH="{home}/bin:$PATH"
""", lambda: room.install(home, into="").err
    yield "the path has them", "", lambda: room.install(home, into="", PATH=f"{home}/bin:{os.environ['PATH']}").err


def with_the_library(room):
    """A program is made by pkg-config alone, and finds the library where it was installed."""
    at = f"{room.path}/at"
    further = {"PKG_CONFIG_SYSROOT_DIR": at, "PKG_CONFIG_PATH": f"{at}/usr/lib/pkgconfig", "PKG_CONFIG_ALLOW_SYSTEM_CFLAGS": "1",
               "PKG_CONFIG_ALLOW_SYSTEM_LIBS": "1", "LD_LIBRARY_PATH": f"{at}/usr/lib"}
    made = f"cc {TOP}/examples/router.c $(pkg-config --cflags --libs cgrlist) -o router"
    yield "the prefix stands in cgrlist.pc", "prefix=/usr", lambda: parts_of("^prefix=.*", room.read("at/usr/lib/pkgconfig/cgrlist.pc"))
    yield "a program is compiled", "", lambda: room.run("sh -c", [made], at=room.path, **further).all()
    yield "it asks", "to node 2 first, there at 1893456015, over 1 4", lambda: (
        room.run("./router a.txt 1 3 1893456000", at=room.path, **further).out.partition("\n")[0])
    ran = room.install("--library '/a & b|'", into=f"{room.path}/alone")
    yield "the library alone", (0, "", by_place(it.replace("usr/", "a & b|/") for it in LIBRARY)), lambda: (
        ran.status, ran.err, room.installed("alone"))
    yield "its prefix stands in cgrlist.pc", "prefix=/a & b|", lambda: parts_of(
        "^prefix=.*", room.read("alone/a & b|/lib/pkgconfig/cgrlist.pc"))
    if shutil.which("man"):
        yield "its manual page is found", f"{at}/usr/share/man/man3/cgrlist.3\n", lambda: (
            room.run("man -w 3 cgrlist", MANPATH=f"{at}/usr/share/man").out)


def what_fails(room):
    ran = room.install("--help")
    yield ("help, and no more", (0, "usage: ./install [--uninstall | --library] [PREFIX]", "Status: 0 done"),
           lambda: (ran.status, ran.out.partition("\n")[0], last_of(ran.out).partition(",")[0]))
    for words, message in (
        ("usr", "PREFIX must begin with /: usr"), ("--prefix=/usr", "PREFIX must begin with /: --prefix=/usr"),
        ("/usr /opt", "more than one PREFIX was given"), ("--uninstall /usr /opt", "more than one PREFIX was given"),
    ):
        yield f"refused: {words}", f"install: {message}\nstatus 2", lambda: room.install(words).all()
    room.file("at/opt")
    yield ("a file in the place of PREFIX", "install: cannot create directory\nstatus 1",
           lambda: re.sub(" '.*", "", room.install("/opt", LC_ALL="C").all()))
    # A clone without a program, and then with one that is older than a source.
    for folder in ("low/src", "cgrlist/out"):
        os.makedirs(f"{room.path}/clone/crates/{folder}")
    for name in ("install", "cgrlist"):
        shutil.copy(f"{TOP}/{name}", f"{room.path}/clone")
    room.file("clone/crates.txt")
    room.file("clone/crates/low/src/lib.rt")
    hour, now = 3600, time.time()
    for place in ("crates.txt", "crates/low/src"):
        os.utime(f"{room.path}/clone/{place}", (now - 3 * hour,) * 2)
    for lack in ("isn't built yet", "is older than crates/low/src/lib.rt"):
        yield (f"the program {lack}", f"install: the proved program {lack}: run {room.path}/clone/cgrlist --prove first\nstatus 1",
               lambda: re.sub(r" \(.*", "", room.run([f"{room.path}/clone/install"], DESTDIR=f"{room.path}/none").all()))
        shutil.copy(room.program, f"{room.path}/clone/crates/cgrlist/out/cgrlist")
        os.utime(f"{room.path}/clone/crates/cgrlist/out/cgrlist", (now - 2 * hour,) * 2)
    yield "then nothing is installed", False, os.path.exists, f"{room.path}/none"


def checks(asked):
    return checks_of("install", Installing(asked.program("cgrlist")), [
        completions_of_the_program, completions_of_the_tools, the_installation, what_fails])
