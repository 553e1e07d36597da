"""What shells offer behind a command line that is being typed, by the completions that dist/pages wrote."""

import os
import subprocess

# Beside the commands and options: what is offered of a folder `a-folder` and a file `a-file`, and where words are known.
TRIALS = {
    "redplay": (
        (["pl"], {"play"}),
        (["help", "ch"], {"check"}),
        (["play", "a-"], {"a-folder"}),
        (["play", "--script", "a-"], {"a-file", "a-folder"}),
        (["play", "a-folder", "--script", "a-file", "--le"], {"--lenient"}),
        (["to-der", "a-f"], {"a-file", "a-folder"}),
    ),
    "redlook": (
        (["why", "--color", "a"], {"auto", "always"}),
        (["image", "a-file", "--output", "a-"], {"a-folder"}),
    ),
    "redtry": (
        (["cover", "a-folder", "a-fi"], {"a-file"}),
        (["live", "--record", "a-fi"], {"a-file"}),
    ),
}

BASH = """\
source "$1"
shift
COMP_WORDS=("$@") COMP_CWORD=$(($# - 1)) COMP_LINE="$*" COMP_POINT=${#COMP_LINE}
complete -p "$1" > /dev/null
"_$1"
((${#COMPREPLY[@]} == 0)) || printf '%s\\n' "${COMPREPLY[@]}"
"""

FISH = """\
source $argv[1]
complete -C "$argv[2]"
"""

# A shell in a terminal of its own, in which one line is typed and completed. Its `compadd` prints what would be added, between marks.
ZSH = r"""
zmodload zsh/zpty
zpty typed zsh -f -i
zpty -w typed "fpath=(${(q)1:h} \$fpath) PROMPT= COLUMNS=500; unsetopt zle_bracketed_paste; source ${(q)3}"
for at in {1..200}; do
    zpty -r typed line || exit 3
    [[ $line == *is-ready* ]] && break
done
zpty -w -n typed "$2"$'\t'
inside=0
while zpty -r typed line; do
    case $line in
        *begin-offers*) inside=1 ;;
        *end-offers*) exit 0 ;;
        *) ((inside)) && print -r -- "${line%%$'\r'*}" ;;
    esac
done
"""

ZSH_INSIDE = r"""
autoload -Uz compinit
compinit -u -d "$PWD/.offers"
bindkey '^I' complete-word
zstyle ':completion:*' insert-tab false
zstyle ':completion:*' completer _complete
compadd() {
    if [[ ${@[1,(i)(-|--)]} == *-(O|A|D)\ * ]]; then
        builtin compadd "$@"
        return
    fi
    typeset -a offers
    builtin compadd -A offers "$@"
    ((${#offers} == 0)) || print -rl -- $offers
    builtin compadd "$@"
}
begin-offers() { print; print begin-offers; }
end-offers() { print end-offers; exit; }
compprefuncs=(begin-offers)
comppostfuncs=(end-offers)
print is-re""ady
"""


def run(words, **how):
    done = subprocess.run(words, capture_output=True, text=True, encoding="utf-8", timeout=60, check=False, **how)
    return {it.rstrip("/") for it in done.stdout.splitlines() if it}


def ask_bash(name, share, words):
    file = os.path.join(share, "bash-completion", "completions", name)
    return run(["bash", "--norc", "--noprofile", "-c", BASH, "bash", file, name, *words])


def ask_zsh(name, share, words):
    file = os.path.join(share, "zsh", "site-functions", f"_{name}")
    inside = os.path.abspath(".inside.zsh")
    with open(inside, "w", encoding="utf-8") as it:
        it.write(ZSH_INSIDE)
    return run(["zsh", "-f", "-c", ZSH, "zsh", file, " ".join([name, *words]), inside])


def ask_fish(name, share, words):
    file = os.path.join(share, "fish", "vendor_completions.d", f"{name}.fish")
    offered = run(["fish", "--no-config", "-c", FISH, file, " ".join([name, *words])])
    # what is said of an offer stands behind a tabulator
    return {it.partition("\t")[0].rstrip("/") for it in offered}


ASKERS = {"bash": ask_bash, "zsh": ask_zsh, "fish": ask_fish}


def asker(shell, name, share):
    """A function that tells what the shell offers for the last of these words, the program's name left out."""
    return lambda words: ASKERS[shell](name, share, words)
