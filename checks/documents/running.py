"""The commands of documents: where they are in a text, how they are run, and whether they print what is written."""
import re
import subprocess

MARK = "-- command ended"
SECONDS = 3600


def blocks(text):
    """For each block of code that has a command or is a script: the text of the comment before it, and its lines."""
    fenced = re.finditer(
        r"(?:<!-- (.*?) -->\n+)?^```\w*\n(.*?)^```$|(?:<!-- (.*?) -->\n+)?((?:^    [^\n]*\n|^\n(?=    ))+)",
        text,
        re.S | re.M,
    )
    for found in fenced:
        said, lines = (
            (found[1], found[2]) if found[2] is not None else (found[3], re.sub(r"^    ", "", found[4], flags=re.M))
        )
        if said == "script" or re.search(r"^\$ ", lines, re.M):
            yield said or "", lines


def commands(lines):
    """Each command of a block, with the lines that it prints. A here-document extends to its last line."""
    for part in re.split(r"^\$ ", lines, flags=re.M)[1:]:
        command, *rest = part.rstrip("\n").split("\n")
        end = re.search(r"<<'(\w+)'", command)
        while end and rest:
            command += f"\n{rest[0]}"
            if rest.pop(0) == end[1]:
                break
        yield command, rest


def script(lines, runner):
    """The command that runs a script, and the replies, each of which is next to its line."""
    rows = [re.split(r" {2,}", line, maxsplit=1) for line in lines.splitlines()]
    command = [f"{runner} <<'END' # {rows[0][0]} ..", *(row[0] for row in rows), "END"]
    return "\n".join(command), [reply for _, reply in rows]


def as_pattern(lines):
    """The pattern of the output that fits the lines: `...` matches any lines."""
    parts = [r"(?:.*\n)*?" if line.strip() == "..." else re.escape(line.rstrip()) + "\n" for line in lines]
    return re.compile("".join(parts) + r"\Z")


def ran(folder, asked, environment=None):
    """What each command of a shell prints that begins in a folder, its status and its seconds."""
    script = "".join(f"{command}\nended=$?\necho\necho '{MARK}' $ended $SECONDS\n" for command in asked)
    how = {"cwd": folder, "env": environment, "stdin": subprocess.DEVNULL, "stdout": subprocess.PIPE}
    how |= {"stderr": subprocess.STDOUT, "text": True, "errors": "replace"}
    said = subprocess.run(["bash", "-c", script], timeout=SECONDS, **how).stdout
    return [
        (text[:-1] if text.endswith("\n\n") or text == "\n" else text, int(status), int(at))
        for text, status, at in re.findall(rf"(.*?){MARK} (\d+) (\d+)\n", said, re.S)
    ]


def without_which(text):
    """What a command prints, except the line in which a wrapper says which program it runs."""
    return re.sub(r"^(tower|memory_map): this is (an unproved run|the proved program).*\n", "", text, flags=re.M)


def fits(lines, said, status):
    """Whether a command printed what is written; if that may be anything, whether it ended with 0."""
    if all(line.strip() == "..." for line in lines):
        return status == 0
    wanted = without_which("".join(f"{line}\n" for line in lines)).splitlines()
    plain = "".join(f"{line.rstrip()}\n" for line in without_which(said).rstrip("\n").split("\n"))
    return bool(as_pattern(wanted).match(plain))


def told(document, command, lines, said, status, took):
    """Prints how a command ended, and whether it did as is written."""
    good = fits(lines, said, status)
    print(f"{'as written' if good else 'DIFFERS'}  {took:4} s  {document}: {command.splitlines()[0]}", flush=True)
    if not good:
        print("    wanted:", *lines, sep="\n    | ")
        print(f"    status {status}, and printed:", *said.splitlines()[-30:], sep="\n    | ", flush=True)
    return good


def asked_of(document, text, runner):
    """A document's commands with what each prints. Prints those that are left out."""
    for said, lines in blocks(text):
        found = [script(lines, runner)] if said == "script" else commands(lines)
        listed = [(command, rest) for command, rest in found if not command.startswith("git clone")]
        if said.startswith("not run"):
            print(f"left out           {document}: {listed[0][0].splitlines()[0]} ({said})")
        else:
            yield from listed


def tried(folder, document, runner="./tower run", environment=None):
    """Runs a document's commands at the top of a folder that has it, and its scripts by the runner. Returns how many
    commands differ, or were not reached."""
    listed, differ, before = list(asked_of(document, (folder / document).read_text(), runner)), 0, 0
    outcomes = ran(folder, [command for command, _ in listed], environment)
    for (command, rest), (printed, status, at) in zip(listed, outcomes):
        differ += not told(document, command, rest, printed, status, at - before)
        before = at
    if len(outcomes) < len(listed):
        print(f"DIFFERS            {document}: its shell ended before {listed[len(outcomes)][0].splitlines()[0]}")
    return differ + len(listed) - len(outcomes)
