"""The man page of a program, of what its help tells (dist/helps.py), in the macros man(7)."""

import re
import textwrap

SPECIAL = {"\\": "\\e", "-": "\\-", "'": "\\(aq", "`": "\\(ga", "^": "\\(ha", "~": "\\(ti"}
FOLDER = "/usr/share/doc/redplay"


def literal(text):
    """Text that stands as it is, character by character: a word of a command line, a line of an example."""
    shown = "".join(SPECIAL.get(it, it if it.isascii() else f"\\[u{ord(it):04X}]") for it in text)
    return "\\&" + shown if shown.startswith(".") else shown


def running(text):
    """Words of a sentence. What stands between backquotes, and what begins as an option does, is set in bold."""
    parts = re.split(r"`([^`]*)`|(?<![\w-])(--[a-z][a-z-]*)", text)
    shown = ""
    for plain, quoted, option in zip(parts[::3], parts[1::3] + [None], parts[2::3] + [None]):
        shown += literal(plain).replace("\\-", "-")
        shown += f"\\fB{literal(quoted or option)}\\fR" if quoted or option else ""
    return shown


def sentences(text):
    """The lines of a paragraph: each sentence begins a line, as the macros want it."""
    lines = []
    for sentence in re.split(r"(?<=[.;]) ", text):
        lines += textwrap.wrap(running(sentence), 76, break_long_words=False, break_on_hyphens=False)
    return [("\\&" + it) if it[:1] in (".", "'") else it for it in lines]


def usage_line(usage, words):
    """The words that are written as they are in bold, the names of values in italics."""
    name = " ".join(words)
    rest = usage.removeprefix(name)
    shown = re.sub(r"<([^>]+)>|(--?[a-z][a-z-]*)|([^<-]+|.)", shown_word, rest)
    return f"\\fB{literal(name)}\\fR{shown}"


def shown_word(found):
    value, option, other = found.groups()
    if value:
        return f"\\fI{literal(value)}\\fR"
    if option:
        return f"\\fB{literal(option)}\\fR"
    return re.sub(r"[A-Z]+", lambda it: f"\\fI{it[0].lower() if it[0] == 'OPTIONS' else it[0]}\\fR", literal(other))


def tagged(term, text):
    return [".TP", term, *(sentences(text) or ["\\&"])]


def option_term(option):
    names = ", ".join(f"\\fB{literal(it)}\\fR" for it in (option.short, option.long) if it)
    return names + "".join(f" \\fI{literal(it)}\\fR" for it in option.values)


def entries(command):
    lines = []
    for it in command.arguments:
        lines += tagged(f"\\fI{literal(it.name)}\\fR" + (" .\\|.\\|." if it.repeated else ""), it.text)
    for it in command.options:
        lines += tagged(option_term(it), it.text)
    return lines


def rows_of(rows):
    """Rows of two columns as a list, others as they are."""
    split = [re.fullmatch(r"(\S+(?: \S+)*) {2,}(\S.*)", row) for row in rows]
    if rows and all(split):
        return [line for it in split for line in [".TP", f"\\fB{literal(it[1])}\\fR", *sentences(it[2])]]
    return [".PP", ".RS 4", ".nf", *[literal(row) for row in rows], ".fi", ".RE"] if rows else []


def block(it):
    return [".PP", *sentences(it.head), *rows_of(it.rows)]


def section(command):
    """A command: what it does, what it takes, and what else its help says, statuses and examples left for their own sections."""
    lines = [f".SS {usage_line(command.usage, command.words)}", *sentences(command.about + "."), *entries(command)]
    for it in command.blocks:
        if not it.is_example() and not it.is_status():
            lines += block(it)
    return lines


def statuses(program, known):
    """The exit statuses: those of the program's help, or else those that are known of it, and those that a command tells of itself."""
    lines = [".SH EXIT STATUS"]
    told = [it for it in program.blocks if it.is_status()]
    for rows in [it.rows for it in told] or [[f"{number}  {text}" for number, text in known]]:
        lines += rows_of(rows)
    for command in program.commands:
        for it in command.blocks:
            if it.is_status():
                head = it.head if "`" in it.head else f"Exit status of `{command.name()}`:"
                lines += [".PP", *sentences(head), *rows_of(it.rows)]
    return lines


def examples(program):
    told = [it for command in program.commands for it in command.blocks if it.is_example()]
    if not told:
        return []
    lines = [".SH EXAMPLES", "The folder", "\\fIexamples\\fR", "stands beside the documents, in a Debian package in", f"\\fI{FOLDER}\\fR."]
    return lines + [line for it in told for line in rows_of(it.rows)]


def commands(program):
    lines = [line for it in program.commands for line in section(it)]
    return [".SH COMMANDS", *lines] if lines else []


def page(program, others, known, version, date):
    """The page of a program, with its commands if it has any; `others` are the names of the pages beside it, `known` its exit statuses where its help has none."""
    name = program.name()
    about = program.about[0].lower() + program.about[1:]
    lines = [f'.\\" Made by dist/pages of what {name} --help prints.']
    lines += [f'.TH {name.upper()} 1 "{date}" "redplay {version}" "User commands"']
    lines += [".SH NAME", f"{name} \\- {running(about)}", ".SH SYNOPSIS", ".nf"]
    lines += [usage_line(it.usage, it.words) for it in program.commands or [program]]
    lines += [".fi", ".SH DESCRIPTION", *sentences(program.about + ".")]
    if program.commands:
        lines += sentences(f"`{name} help COMMAND` prints what is told of a command below.")
    lines += [".SH OPTIONS", *entries(program), *commands(program)]
    for it in program.blocks:
        if not it.is_example() and not it.is_status():
            lines += block(it)
    lines += statuses(program, known) + examples(program)
    lines += [".SH SEE ALSO", ",\n".join(f".BR {it} (1)" for it in others).replace(",\n", " ,\n")]
    return "\n".join(lines) + "\n"
