"""The commands of a document, and what it says that they print; and a folder in which they run."""
import os, re, shutil, subprocess, textwrap

from lib import TOP, check, holds, path_of

HOME = "/home/me"  # where the recipes run, as they are printed


def section(document, heading):
    """The part of a document below a heading, up to the next one of its level or above."""
    text = (TOP / "docs" / document).read_text()
    begin = text.index(f"\n{heading}\n") + 1
    level = len(heading.split()[0])
    after = re.compile(rf"^#{{1,{level}}} ", re.M).search(text, begin + len(heading))
    return text[begin:after.start() if after else len(text)]


def sessions(text):
    """Each command of a part of a document, with what it prints. The other lines of a command begin
    with '> '."""
    found = []
    for block in re.findall(r"(?m)(?:^    .*\n)+", text):
        lines = textwrap.dedent(block).splitlines()
        if not lines[0].startswith("$ "):
            continue
        for line in lines:
            if line.startswith("$ "):
                found.append([line[2:], ""])
            elif line.startswith("> ") and not found[-1][1]:
                found[-1][0] += "\n" + line[2:]
            else:
                found[-1][1] += line + "\n"
    return found


def scripts(text):
    """The files that a part of a document prints."""
    found = re.findall(r"(\w+\.(?:py|c)):\n\n((?:    .*\n|\n)+?)(?=\n    \$ )", text)
    return {name: textwrap.dedent(code) for name, code in found}


def installed(folder):
    """The folder of the programs, as ./install leaves them: the launcher, and the program that it starts."""
    for name, path in (("bin/sqrescue", "sqrescue-locked"), ("libexec/sqrescue/sqrescue", "sqrescue")):
        target = folder / name
        target.parent.mkdir(parents=True, exist_ok=True)
        shutil.copy(path_of(path), target)
    return folder / "bin"


def run(folder, programs, text, settings=None):
    """Runs the commands of a part of a document in a folder, and compares what they print."""
    where = str(folder)
    for name, code in scripts(text).items():
        (folder / name).write_text(code)
    setting = {key: value for key, value in os.environ.items() if not key.startswith("SQRESCUE")}
    setting.update(PATH=f"{programs}:{setting['PATH']}", PYTHONDONTWRITEBYTECODE="1", LC_ALL="C.UTF-8")
    setting.update(settings or {})
    commands = sessions(text)
    holds("the commands of a recipe", len(commands) >= 1, commands)
    for command, wanted in commands:
        done = subprocess.run(["bash", "-c", command], cwd=folder, env=setting, text=True, stdin=subprocess.DEVNULL,
                              stdout=subprocess.PIPE, stderr=subprocess.STDOUT)
        check(command, done.stdout.replace(where, HOME).rstrip("\n"), wanted.rstrip("\n"))
