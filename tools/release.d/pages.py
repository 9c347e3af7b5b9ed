"""The man page of isle, and its completions for bash, zsh and fish, made of what `isle --help` prints."""

import re
from collections import namedtuple

# A line of the help: the words before its text, and the text.
Entry = namedtuple("Entry", "head text")

# What a word in capitals stands for, where it isn't a name that only the user knows.
VALUES = {"WHEN": "always never auto", "FOLDER": "folders", "FILE": "files"}

# The tasks with options of their own, which their lines name, and those of them that look for files in a folder.
OTHERS = ("fmt", "conditions", "lsp")
LOOKING = ("fmt", "conditions")


class Help:
    """What the help says: how the program is called, what it is, its tasks, its options, its statuses."""

    def __init__(self, text):
        usage, rest = cut(text, "\n")
        about, rest = cut(rest, "Tasks:\n")
        tasks, rest = cut(rest, "Options:\n")
        options, status = cut(rest, "\nStatus: ")
        self.usage = usage.removeprefix("usage: ")
        self.about = joined(about)
        self.tasks = list(entries(tasks))
        self.options = list(entries(options))
        self.status = joined(status)

    def names(self):
        """The names of the tasks."""
        return [entry.head.split()[0] for entry in self.tasks]

    def options_of(self, task):
        """The options of a task, each with the word that it takes, or the empty text."""
        text = next(entry.text for entry in self.tasks if entry.head.split()[0] == task)
        if task in OTHERS:
            named = {word: "" for word in re.findall(r"--[a-z]+", text)}
            return named | ({"-C": "FOLDER"} if task in LOOKING else {})
        found = {}
        for entry in self.options:
            tasks = re.match(r"((?:[a-z]+, )*[a-z]+): ", entry.text)
            named = tasks and tasks[1].split(", ")
            if named and set(named) <= set(self.names()) and task not in named:
                continue
            for option in entry.head.split(", "):
                word, _, value = option.partition(" ")
                word = re.sub(r"=.*", "=", word)
                found[word] = f"{found[word]} {value}".strip() if word in found else value
        return found


def cut(text, mark):
    """What stands before and behind a mark."""
    before, found, behind = text.partition(mark)
    if not found:
        raise SystemExit(f"release: the help of isle has no {mark.strip()!r}")
    return before, behind


def joined(text):
    """A text without its lines."""
    return " ".join(text.split())


def entries(text):
    """The entries of a list: two spaces are before each, and more before each further line."""
    for block in re.split(r"^  (?=\S)", text, flags=re.M)[1:]:
        head = re.match(r"(.*?)(  +|\n|$)", block)
        yield Entry(head[1], joined(block[head.end():]))


def roff(text):
    """A text for roff."""
    text = text.replace("\\", "\\e").replace("-", "\\-").replace("'", "\\(aq")
    return re.sub(r"^\.", r"\\&.", text)


def man(said, version, date):
    """The man page."""
    lines = [f'.TH ISLE 1 "{date}" "joshuapool {version}"', ".SH NAME", "isle \\- checks and compiles ISLE rules"]
    lines += [".SH SYNOPSIS", roff(said.usage), ".SH DESCRIPTION", roff(said.about), ".SH TASKS"]
    for head, text in said.tasks:
        lines += [".TP", f".B {roff(head)}", roff(text)]
    lines.append(".SH OPTIONS")
    for head, text in said.options:
        lines += [".TP", f".B {roff(head)}", roff(text) or "Says how the command is used, or which version it is."]
    lines += [".SH EXIT STATUS", roff(said.status)]
    return "\n".join(lines) + "\n"


def first_sentence(text):
    """The first sentence of a text, for a line of a menu."""
    return re.split(r"\.(?: |$)", text)[0].replace("'", "").replace(":", ",")


def bash(said):
    """Completions for bash."""
    tasks = " ".join(said.names())
    lines = ["# Completions of isle for bash.", "_isle() {", "  local word=${COMP_WORDS[COMP_CWORD]} before=${COMP_WORDS[COMP_CWORD - 1]} options="]
    lines += ["  COMPREPLY=()", "  if ((COMP_CWORD == 1)); then", f"    mapfile -t COMPREPLY < <(compgen -W '{tasks} --help --version' -- \"$word\")"]
    lines += ["    return", "  fi", "  case ${COMP_WORDS[1]}:$before in", "    samples:samples)"]
    lines += ['      mapfile -t COMPREPLY < <(compgen -W "$(isle samples 2> /dev/null)" -- "$word")', "      return", "      ;;"]
    for option, value in sorted(valued(said).items()):
        lines += [f"    *:{option})", f"      mapfile -t COMPREPLY < <(compgen {bash_values(value)} -- \"$word\")", "      return", "      ;;"]
    lines += ["  esac", "  case ${COMP_WORDS[1]} in"]
    for task in said.names():
        lines.append(f"    {task}) options='{' '.join(said.options_of(task))}' ;;")
    lines += ["  esac", "  if [[ $word == -* ]]; then", '    mapfile -t COMPREPLY < <(compgen -W "$options" -- "$word")', "  else"]
    lines += ["    mapfile -t COMPREPLY < <(compgen -f -- \"$word\")", "  fi", "}", "complete -o filenames -F _isle isle"]
    return "\n".join(lines) + "\n"


def bash_values(value):
    """How bash finds the values of an option."""
    value = VALUES.get(value, value)
    return {"folders": "-d", "files": "-f"}.get(value, f"-W '{value}'")


def valued(said):
    """The options whose values are known, each with them: words, or what they stand for."""
    found = {}
    for task in said.names():
        for option, value in said.options_of(task).items():
            if value in VALUES or value and value.islower():
                found[option] = max(value, found.get(option, ""), key=len)
    return found


def zsh(said):
    """Completions for zsh."""
    lines = ["#compdef isle", "# Completions of isle for zsh.", "local -a tasks options", "if (( CURRENT == 2 )); then", "  tasks=("]
    lines += [f"    '{entry.head.split()[0]}:{first_sentence(entry.text)}'" for entry in said.tasks]
    lines += ["  )", "  _describe task tasks", "  compadd -- --help --version", "  return", "fi", 'case "$words[2]:$words[CURRENT-1]" in']
    lines += ["  samples:samples) compadd -- ${(f)\"$(isle samples 2> /dev/null)\"}; return ;;"]
    for option, value in sorted(valued(said).items()):
        lines.append(f"  *:{option}) {zsh_values(value)}; return ;;")
    lines += ["esac", "case $words[2] in"]
    lines += [f"  {task}) options=({' '.join(said.options_of(task))}) ;;" for task in said.names()]
    lines += ["esac", "if [[ $PREFIX == -* ]]; then", "  compadd -- $options", "else", "  _files", "fi"]
    return "\n".join(lines) + "\n"


def zsh_values(value):
    """How zsh finds the values of an option."""
    value = VALUES.get(value, value)
    return {"folders": "_files -/", "files": "_files"}.get(value, f"compadd -- {value}")


def fish(said):
    """Completions for fish."""
    lines = ["# Completions of isle for fish."]
    for entry in said.tasks:
        task = entry.head.split()[0]
        lines.append(f"complete -c isle -n __fish_use_subcommand -f -a {task} -d '{first_sentence(entry.text)}'")
    lines.append("complete -c isle -n '__fish_seen_subcommand_from samples' -f -a '(isle samples 2> /dev/null)'")
    known = valued(said)
    for task in said.names():
        for option in said.options_of(task):
            lines.append(f"complete -c isle -n '__fish_seen_subcommand_from {task}' {fish_option(option, known.get(option))}")
    return "\n".join(lines) + "\n"


def fish_option(option, value):
    """An option of fish."""
    name = f"-l {option[2:].rstrip('=')}" if option.startswith("--") else f"-s {option[1:]}"
    value = VALUES.get(value, value)
    if not value:
        return name
    if value == "files":
        return f"{name} -r"
    return f"{name} -x -a '{'(__fish_complete_directories)' if value == 'folders' else value}'"
