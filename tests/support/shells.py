"""What bash, zsh and fish offer by a completion script, as a word and the text beside it.

Each shell runs the script itself, and completes all lines in one process.
"""

import os
import shlex
import subprocess
import tempfile

SECONDS = 60

# What stands for the names of files.
FILE = "a file"

# What ends the words that are offered for a line.
END = "--end--"

# Ends a script of bash: completes a line; `files` is whether files are offered if nothing else is.
IN_BASH = """
compopt() { [[ $* == '+o default' ]] && files=; }
known=$(complete -p odb_batch)
[[ $known =~ -F\\ ([^ ]+) ]] && offers=${BASH_REMATCH[1]}
offer() {
    COMP_WORDS=("$@") COMP_CWORD=$(($# - 1)) COMPREPLY=() files=
    [[ $known == *'-o default '* ]] && files=yes
    "$offers"
    ((${#COMPREPLY[@]})) && printf '%s\\n' "${COMPREPLY[@]}" || printf '%s' "${files:+a file
}"
}
"""

# Begins a script of zsh: what it calls prints the words, each with its text after a colon.
IN_ZSH = """
compdef() { known=$1 }
compadd() { if [[ $1 == -a ]]; then print -rl -- ${(P)2}; else shift; print -rl -- $@; fi }
_describe() { print -rl -- ${(P)2} }
_files() { print 'a file' }
offer() { words=($@); CURRENT=$#; PREFIX=$@[-1]; $known }
"""


class Unread(Exception):
    """What a shell prints on standard error, as of a script with an error."""


def printed(words, given, folder=None):
    """The lines that a shell prints, those of each line that it completed, and nothing on standard error."""
    done = subprocess.run(words, input=given, cwd=folder, capture_output=True, text=True, timeout=SECONDS)
    if done.stderr:
        raise Unread(done.stderr.strip())
    return [listed.splitlines() for listed in done.stdout.split(f"{END}\n")[:-1]]


def begun(offered, word):
    """What begins as the word does; a file may have any name."""
    return {it: text for it, text in offered.items() if it.startswith(word) or it == FILE}


def calls(lines):
    """The calls that complete lines, each a list of words."""
    return "".join(f"offer {' '.join(map(shlex.quote, words))}\necho {END}\n" for words in lines)


def by_bash(script, lines):
    return [dict.fromkeys(listed, "") for listed in printed(["bash", "--norc"], f"{script}\n{IN_BASH}{calls(lines)}")]


def by_zsh(script, lines):
    found = printed(["zsh", "-f"], f"{IN_ZSH}{script}\n{calls(lines)}")
    offered = [dict(line.partition(":")[::2] for line in listed if line) for listed in found]
    return [begun(it, words[-1]) for it, words in zip(offered, lines)]


def by_fish(script, lines):
    asked = "".join(f"complete -C {shlex.quote(' '.join(words))}\necho {END}\n" for words in lines)
    with tempfile.TemporaryDirectory(prefix="fish-") as folder:
        with open(os.path.join(folder, FILE), "w", encoding="utf-8"):
            pass
        found = printed(["fish", "--no-config"], f"{script}\n{asked}", folder)
    named = lambda word: FILE if word.replace("\\", "") == FILE else word
    return [{named(word): text for word, _, text in (line.partition("\t") for line in listed)} for listed in found]
