"""What the built program says of itself by `--help`, in parts."""
import re
import subprocess


def sections_of(text):
    """The parts of a help text, by their titles; what stands before the first one has none."""
    sections, title = {"": []}, ""
    for line in text.splitlines():
        found = re.fullmatch(r"(Usage|[A-Z][a-z ]+):(.*)", line)
        if found:
            title = found[1]
            sections[title] = [found[2].strip()] if found[2].strip() else []
        elif title == "Exit status" and re.match(r"   +\S", line):
            sections[title][-1] += f" {line.strip()}"  # goes on with the status above
        elif line.startswith("  "):
            sections[title].append(line.strip())
        elif line:
            sections.setdefault("end" if title else "", []).append(line)
    return sections


class Help:
    """The help of a program: its name and version, the parts of `--help`, and those of each subcommand's."""

    def __init__(self, program):
        def said(*words):
            return subprocess.run([program, *words], capture_output=True, text=True, check=True).stdout

        self.name, self.version = said("--version").split()[:2]
        self.top = sections_of(said("--help"))
        self.abouts = dict(re.split(r"  +", line, maxsplit=1) for line in self.top["Commands"])
        self.commands = {command: sections_of(said(command, "--help")) for command in self.abouts}
        # `help COMMAND` isn't among the subcommands, and takes no options.
        if any("help COMMAND" in line for line in self.top.get("end", [])):
            self.abouts["help"] = "Print the help of a command"
