"""What shells complete of the commands: of the program by its own rows (tools/documents.py), of a tool by what its help lists."""
import json
import os
import re
import subprocess
import sys
from dataclasses import dataclass

import documents

# An option, its value, and what it is about, as argparse lists them.
LISTED = re.compile(r"^  (?:-\w, )?(-[\w-]+)( \S+)?(?:\n {10,}| {2,})(\S.*(?:\n {10,}\S.*)*)", re.MULTILINE)
# Prints what each of the tools that it is given prints of --help.
HELPS = """
import contextlib, io, json, os, runpy, sys
said, tools = [], sys.argv[1:]
for path in tools:
    sys.argv, printed = [path, "--help"], io.StringIO()
    sys.path.insert(0, os.path.dirname(path))
    with contextlib.redirect_stdout(printed):
        try:
            runpy.run_path(path, run_name="__main__")
        except SystemExit as ended:
            if ended.code:
                raise
    said.append(printed.getvalue())
print(json.dumps(said))
"""
BASH = """\
# Completes the words of {name}.
{function}() {{
    local word=${{COMP_WORDS[COMP_CWORD]}} words=
    case $COMP_CWORD:${{COMP_WORDS[1]}} in
{rows}
    esac
    COMPREPLY=()
    if [[ $word = -* || $words != -* ]]; then
        mapfile -t COMPREPLY < <(compgen -W "$words" -- "$word")
    fi
}}
complete -o default -F {function} {name}
"""
ZSH = """\
#compdef {name}
local -a commands=({named})
if (( CURRENT == 2 )); then
    if [[ $PREFIX = -* ]]; then
        {options}
    else
        _describe command commands
    fi
    return
fi
case $words[2] in
{rows}
esac
"""


@dataclass(frozen=True)
class Option:
    name: str
    has_value: bool
    about: str


@dataclass(frozen=True)
class Command:
    """A command, its options, and the commands of which its first word is one."""
    name: str
    about: str
    options: tuple
    commands: tuple = ()

    def words(self):
        return " ".join(it.name for it in (*self.commands, *self.options))


# ---- what there is

def program():
    found = tuple(Command(it.name, it.about, tuple(Option(f"--{option.name}", bool(option.value), option.about)
                                                   for option in it.options if not option.is_word)) for it in documents.all_commands())
    return Command("sfi", "", (Option("--help", False, "Say what the commands do"), Option("--version", False, "Say the version")),
                   (*found, Command("help", "Say more of a command", (), found)))


def options_of(help_text):
    rows = LISTED.findall(help_text.partition("\noptions:\n")[2])
    return tuple(Option(name, bool(value), " ".join(about.split())) for name, value, about in rows)


def asked(tools):
    """The tools as their help lists them: all in one process, since it takes longer to start one than to print help."""
    said = subprocess.run([sys.executable, "-Bc", HELPS, *tools], capture_output=True, text=True, check=True,
                          env={**os.environ, "COLUMNS": "1000"}).stdout
    return [Command(path.name, "", options_of(it)) for path, it in zip(tools, json.loads(said))]


# ---- as each shell has it

def bash(command):
    rows = [("1:*" if command.commands else "*", command), *((f"*:{it.name}", it) for it in command.commands)]
    return BASH.format(name=command.name, function=f"_{command.name.replace('-', '_')}",
                       rows="\n".join(f"        {pattern}) words='{it.words()}' ;;" for pattern, it in rows))


def quoted(text):
    """A word in single quotes, as zsh has it and, but for backslashes, fish."""
    return "'" + text.replace("'", "'\\''") + "'"


def zsh_option(option):
    about = re.sub(r"([][:\\])", r"\\\1", option.about)
    return quoted(f"{option.name}[{about}]" + (":value:_files" if option.has_value else ""))


def zsh_options(command):
    return " ".join(["_arguments", *map(zsh_option, command.options), "'*:file:_files'"])


def zsh_call(command):
    """What completes a command's words: the names of commands, or its options and files."""
    return "_describe command commands" if command.commands else zsh_options(command)


def zsh(command):
    if not command.commands:
        return f"#compdef {command.name}\n{zsh_options(command)}\n"
    named = " ".join(quoted(f"{it.name}:{it.about}") for it in command.commands)
    rows = "\n".join(f"    {it.name}) {zsh_call(it)} ;;" for it in command.commands)
    return ZSH.format(name=command.name, named=named, options=zsh_options(command), rows=rows)


def fish_rows(command, whole, condition):
    start = f"complete -c {whole}{condition}" + " -f" * bool(command.commands)  # no file stands where a command does
    for it in (*command.commands, *command.options):
        about = quoted(it.about.replace("\\", "\\\\"))
        if isinstance(it, Command):
            name = f"-a {it.name}"
        else:
            name = (f"-l {it.name[2:]}" if it.name.startswith("--") else f"-s {it.name[1:]}") + " -r" * it.has_value
        yield f"{start} {name} -d {about}"


def fish(command):
    rows = [*fish_rows(command, command.name, " -n __fish_use_subcommand" if command.commands else "")]
    for it in command.commands:
        rows += fish_rows(it, command.name, f" -n '__fish_seen_subcommand_from {it.name}'")
    return "\n".join([f"# Completes the words of {command.name}.", *rows, ""])


def files(tools):
    """The texts of the files of completions for the program and these tools, by their places below the prefix."""
    found = {}
    for it in (program(), *asked(tools)):
        found[f"share/bash-completion/completions/{it.name}"] = bash(it)
        found[f"share/zsh/site-functions/_{it.name}"] = zsh(it)
        found[f"share/fish/vendor_completions.d/{it.name}.fish"] = fish(it)
    return found
