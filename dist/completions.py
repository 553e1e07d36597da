"""Completions of a program for bash, zsh and fish, of what its help tells (dist/helps.py)."""

import os
import re

# What the values of these names are. A help does not tell that, so a name that is not here stops the release until it is.
KINDS = {
    "COLUMN ROW": "free",
    "DIR": "folder",
    "FILE": "file",
    "FOLDER": "folder",
    # (what every program with such a value takes; redlook has two forms more)
    "FORM": "text json",
    "GROUP": "free",
    "GROUP NUMBER": "free",
    "K": "free",
    "N": "free",
    "NAME": "free",
    "OTHER": "file",
    "PATH": "file",
    "REPORT": "file",
    "RULE": "free",
    "SCRIPT": "file",
    "TEXT": "free",
    "WHEN": "auto always never",
}
# Options that may stand several times; a help does not tell that either.
REPEATED = ("--allow",)


def kind_of(name):
    if name not in KINDS:
        raise SystemExit(f"{__file__}: KINDS says nothing of values with the name {name}")
    return KINDS[name]


def options_with_values(program):
    """The options of all commands that take values, by name: how many, and of which kind. One name means one thing in a program."""
    found = {}
    for command in program.commands:
        for option in command.options:
            kinds = tuple(kind_of(it) for it in option.values)
            if found.setdefault(option.long, kinds) != kinds or len(set(kinds)) > 1:
                raise SystemExit(f"{program.name()}: {option.long} takes different values in different commands")
    return {name: kinds for name, kinds in found.items() if kinds}


def names_of(options):
    return [name for it in options for name in (it.short, it.long) if name]


def places_of(command):
    """The kinds of the arguments, by place."""
    return [kind_of(it.name) for it in command.arguments]


def brief(text):
    """The first words of what is said, which a list has room for: up to a colon or a semicolon."""
    return re.split(r"(?<!default)[:;] ", text)[0]


def quoted(text):
    """A word for a shell."""
    return "'" + text.replace("'", "'\\''") + "'"


BASH = """\
# Completes {name} in bash. Made by dist/pages of what {name} --help prints.
_{name}() {{
    local current=${{COMP_WORDS[COMP_CWORD]}} command='' kind='' taken='' values=0 count=0 at
    # readline splits --option=value at the sign
    if [[ $current == = ]]; then current=''; fi
    for ((at = 1; at < COMP_CWORD; at++)); do
        values=0
        case ${{COMP_WORDS[at]}} in
{values}
            -*) ;;
            *) if [[ -z $command ]]; then command=${{COMP_WORDS[at]}}; else count=$((count + 1)); fi ;;
        esac
        if ((values)); then
            if [[ ${{COMP_WORDS[at + 1]}} == = ]]; then at=$((at + 1)); fi
            at=$((at + values))
            if ((at >= COMP_CWORD)); then kind=$taken; fi
        fi
    done
    if [[ -z $kind && $current == -* ]]; then
        case $command in
{options}
        esac
    elif [[ -z $kind ]]; then
        case $command:$count in
{places}
        esac
    fi
    case $kind in
        file) compopt -o filenames 2> /dev/null; mapfile -t COMPREPLY < <(compgen -f -- "$current") ;;
        folder) compopt -o filenames 2> /dev/null; mapfile -t COMPREPLY < <(compgen -d -- "$current") ;;
        free | '') COMPREPLY=() ;;
        *) mapfile -t COMPREPLY < <(compgen -W "$kind" -- "$current") ;;
    esac
}}
complete -F _{name} {name}
"""


def bash_places(command):
    kinds = places_of(command)
    rows = [(f"{command.name()}:{at}", kind) for at, kind in enumerate(kinds)]
    if command.repeats_last():
        rows.append((f"{command.name()}:*", kinds[-1]))
    return rows


def commands_of(program):
    """The names of the commands, with `help`, which a program has that has others."""
    return [it.name() for it in program.commands] + (["help"] if program.commands else [])


def bash(program):
    commands = " ".join(commands_of(program))
    values = [f"{name}) values={len(kinds)} taken={quoted(kinds[0])} ;;" for name, kinds in options_with_values(program).items()]
    options = [("''", program.options)] + [(it.name(), it.options) for it in program.commands]
    places = [(head, commands) for head in (":0", "help:0") if commands] + [row for it in program.commands for row in bash_places(it)]
    return BASH.format(
        name=program.name(),
        values="\n".join(" " * 12 + it for it in values),
        options="\n".join(f"{' ' * 12}{head}) kind={quoted(' '.join(names_of(it)))} ;;" for head, it in options),
        places="\n".join(f"{' ' * 12}{head}) kind={quoted(kind)} ;;" for head, kind in places),
    )


def zsh_kind(kind):
    return {"file": "_files", "folder": "_files -/", "free": " "}.get(kind, f"({kind})")


def zsh_text(text):
    return text.replace("\\", "\\\\").replace("[", "\\[").replace("]", "\\]").replace(":", "\\:")


def zsh_option(option):
    """The words for _arguments that stand for an option."""
    said = f"[{zsh_text(brief(option.text))}]"
    if option.short:
        return f"'(- *)'{{{option.short},{option.long}}}{quoted(said)}"
    values = "".join(f":{it}:{zsh_kind(kind_of(it))}" for it in option.values)
    mark = "*" if option.long in REPEATED else ""
    return quoted(f"{mark}{option.long}{'=' if values else ''}{said}{values}")


def zsh_arguments(command):
    words = []
    for at, it in enumerate(command.arguments, 1):
        place = "*" if it.repeated else f"{at}:" if it.needed else f"{at}::"
        words.append(quoted(f"{place.rstrip(':') if it.repeated else place[:-1]}:{it.name}:{zsh_kind(kind_of(it.name))}"))
    return words


def zsh_plain(program):
    """The function of a program without commands."""
    name = program.name()
    lines = [f"#compdef {name}", f"# Completes {name} in zsh. Made by dist/pages of what {name} --help prints.", f"_{name}() {{"]
    lines += ["    _arguments \\", *[f"        {zsh_option(it)} \\" for it in program.options]]
    lines += [f"        {it} \\" for it in zsh_arguments(program)] + ["        && return 0", "    return 1", "}", f'_{name} "$@"']
    return "\n".join(lines) + "\n"


def zsh(program):
    if not program.commands:
        return zsh_plain(program)
    name = program.name()
    listed = [(it.name(), brief(it.about)) for it in program.commands] + [("help", "Print this message or the help of the given subcommand(s)")]
    lines = [f"#compdef {name}", f"# Completes {name} in zsh. Made by dist/pages of what {name} --help prints.", f"_{name}() {{"]
    lines += ["    local curcontext=$curcontext state line ret=1", "    local -a commands", "    commands=("]
    lines += ["        " + quoted(f"{word}:{text}") for word, text in listed]
    lines += ["    )", "    _arguments -C \\", *[f"        {zsh_option(it)} \\" for it in program.options]]
    lines += ["        '1: :->command' '*:: :->rest' && ret=0", "    case $state in"]
    lines += ["        command) _describe -t commands command commands && ret=0 ;;", "        rest)", "            case $words[1] in"]
    for command in program.commands:
        given = [zsh_option(it) for it in command.options] + zsh_arguments(command)
        lines += [f"                {command.name()})", "                    _arguments \\"]
        lines += [f"                        {it} \\" for it in given]
        lines += ["                        && ret=0", "                    ;;"]
    lines += ["                help) ((CURRENT == 2)) && _describe -t commands command commands && ret=0 ;;"]
    lines += ["            esac", "            ;;", "    esac", "    return ret", "}", f'_{name} "$@"']
    return "\n".join(lines) + "\n"


def fish_values(kinds):
    if not kinds:
        return ""
    return {"file": " -r -F", "folder": " -x -a '(__fish_complete_directories)'", "free": " -x"}.get(kinds[0], f" -x -a {quoted(kinds[0])}")


def fish(program):
    name = program.name()
    lines = [f"# Completes {name} in fish. Made by dist/pages of what {name} --help prints.", f"complete -c {name} -f"]

    def add(when, rest, text):
        said = brief(text).replace("\\", "\\\\").replace("'", "\\'")
        lines.append(f"complete -c {name} -n {quoted(when)} {rest} -d '{said}'")

    for it in program.options:
        add("__fish_use_subcommand", f"{'-s ' + it.short[1:] + ' ' if it.short else ''}-l {it.long[2:]}", it.text)
    for it in program.commands:
        add("__fish_use_subcommand", f"-a {it.name()}", it.about)
        add("__fish_seen_subcommand_from help", f"-a {it.name()}", it.about)
    if program.commands:
        add("__fish_use_subcommand", "-a help", "Print this message or the help of the given subcommand(s)")
    for command in program.commands:
        when = f"__fish_seen_subcommand_from {command.name()}; and not __fish_seen_subcommand_from help"
        for it in command.options:
            kinds = [kind_of(value) for value in it.values]
            add(when, f"{'-s ' + it.short[1:] + ' ' if it.short else ''}-l {it.long[2:]}{fish_values(kinds)}", it.text)
        kinds = set(places_of(command))
        lines.append(f"complete -c {name} -n {quoted(when)} " + ("-a '(__fish_complete_directories)'" if kinds == {"folder"} else "-F"))
    return "\n".join(lines) + "\n"


# Where each shell looks for the file of a program, below share.
PLACES = {
    bash: "bash-completion/completions/{}",
    zsh: "zsh/site-functions/_{}",
    fish: "fish/vendor_completions.d/{}.fish",
}


def write_all(program, share):
    for made, place in PLACES.items():
        path = os.path.join(share, place.format(program.name()))
        os.makedirs(os.path.dirname(path), exist_ok=True)
        with open(path, "w", encoding="utf-8") as file:
            file.write(made(program))
