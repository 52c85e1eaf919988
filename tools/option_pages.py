"""What is made of the options that the command line declares (tools/declared.py): the completions of three shells, the
section OPTIONS of the man page, and docs/OPTIONS.md. `tools/docs --write` writes these, and `tools/docs` compares
them."""
import re
import textwrap

import declared
from common import TOP

MAN, PAGE = "docs/tunygarop.1", "docs/OPTIONS.md"
COMPLETIONS = "tools/completions"
COLUMNS = 100
OPTION = re.compile(r"--[a-z][a-z-]*[a-z]")

# The words of help for a value that a shell can complete: a file; and the option whose value is a host.
FILES, HOST = ("FILE", "FOLDER"), "host"


def named(command):
    """The options of a command that have a name on the command line."""
    return [it for it in command.options if not it.is_alone]


def short(text):
    """What help says first: up to a semicolon, or to a colon after more than some words."""
    return re.match(r"(.{24}.*?|.*)([:;] |$)", text)[1]


def lower(text):
    return text[0].lower() + text[1:]


def without(option):
    """What holds without an option, where its help doesn't say that."""
    return f"; {option.default} without it" if option.default else ""


def grouped(parts_of):
    """Each option by its name, with its texts as `parts_of` has them, and the commands of each text."""
    found = {}
    for command in declared.commands().values():
        for option in command.options:
            found.setdefault(option.name, {}).setdefault(parts_of(option), []).append(command.name)
    return found


def names():
    """The options of the program."""
    return {f"--{it.name}" for command in declared.commands().values() for it in named(command)}


# ---- bash


BASH = r"""# Completions of tunygarop for bash. tools/docs --write makes them.

_tunygarop() {
    local word=${COMP_WORDS[COMP_CWORD]} before=${COMP_WORDS[COMP_CWORD - 1]} command=${COMP_WORDS[1]}
    local commands="%(commands)s"
    local names option given

    COMPREPLY=()
    # In --NAME=VALUE, bash makes '=' a word of its own.
    if [ "$word" = "=" ]; then
        word=""
    elif [ "$before" = "=" ]; then
        before=${COMP_WORDS[COMP_CWORD - 2]}
    fi

    case $before in
        "<" | ">" | ">>" | ">|" | "<>" | "&>" | ">&")
            compopt -o filenames 2> /dev/null
            mapfile -t COMPREPLY < <(compgen -f -- "$word")
            return
            ;;
        --host)
            mapfile -t COMPREPLY < <(compgen -A hostname -- "$word")
            return
            ;;
%(files)s)
            compopt -o filenames 2> /dev/null
            mapfile -t COMPREPLY < <(compgen -f -- "$word")
            return
            ;;
%(values)s)
            return
            ;;
    esac

    if [ "$COMP_CWORD" -eq 1 ]; then
        mapfile -t COMPREPLY < <(compgen -W "$commands help --help --version -h -V" -- "$word")
        return
    fi

    case $command in
%(names)s
        help)
            [ "$COMP_CWORD" -eq 2 ] && mapfile -t COMPREPLY < <(compgen -W "$commands" -- "$word")
            return
            ;;
        *) return ;;
    esac

    # An option may be given once.
    given=" ${COMP_WORDS[*]:2:COMP_CWORD - 2} ${COMP_WORDS[*]:COMP_CWORD + 1} "
    for option in $names help; do
        if [[ $given != *" --$option "* && "--$option" == "$word"* ]]; then
            COMPREPLY+=("--$option")
        fi
    done
    [ "$word" = "-h" ] && COMPREPLY+=("-h")
}

complete -F _tunygarop tunygarop
"""


def alternatives(names):
    """The options as a pattern of bash, on lines of at most 100 columns."""
    words = " |@".join(f"--{it}" for it in names)
    lines = textwrap.wrap(words, COLUMNS - 10, break_on_hyphens=False, break_long_words=False)
    joined = " \\\n".join(f"        {line}" for line in lines)
    return joined.replace("|@", "| ")


def bash():
    commands = declared.commands().values()
    values = {it.name: it for command in commands for it in named(command) if it.word and it.name != HOST}
    rows = (f'        {it.name}) names="{" ".join(option.name for option in named(it))}" ;;' for it in commands)
    return BASH % {
        "commands": " ".join(it.name for it in commands),
        "files": alternatives(name for name, it in values.items() if it.word in FILES),
        "values": alternatives(name for name, it in values.items() if it.word not in FILES),
        "names": "\n".join(rows),
    }


# ---- zsh


ZSH = r"""#compdef tunygarop
# Completions of tunygarop for zsh. tools/docs --write makes them.

_tunygarop() {
    local -a commands specs
    local command

    commands=(
%(commands)s
    )

    if (( CURRENT == 2 )); then
        commands+=('help:print help')
        if [[ $PREFIX == -* ]]; then
            _arguments '(- *)'{-h,--help}'[print help]' '(- *)'{-V,--version}'[print the version]'
        else
            _describe command commands
        fi
        return
    fi

    command=$words[2]
    case $command in
%(specs)s
        help)
            (( CURRENT == 3 )) && _describe command commands
            return
            ;;
        *) return 1 ;;
    esac

    specs+=('(- *)'{-h,--help}'[print help]')
    shift words
    (( CURRENT-- ))
    _arguments $specs
}

_tunygarop "$@"
"""


def zsh_text(text, special):
    """A text in single quotes, with a backslash before what is special there."""
    return re.sub(rf"([{special}\\])", r"\\\1", text).replace("'", r"'\''")


def zsh_value(option):
    """What zsh says of a value, and how it completes it."""
    action = "_hosts" if option.name == HOST else "_files" if option.word in FILES else ""
    kind = option.range or (option.word.lower() if len(option.word) > 1 else option.name)
    parts = [kind, f"{option.default} without it" if option.default else ""]
    return f":{zsh_text(', '.join(filter(None, parts)), ':')}:{action}"


def zsh_spec(option):
    about = zsh_text(lower(short(option.help)), r"\[\]:")
    if option.word:
        return f"                '--{option.name}=[{about}]{zsh_value(option)}'"
    return f"                '--{option.name}[{about}]'"


def zsh_command(command):
    rows = "".join(f"{zsh_spec(it)}\n" for it in named(command))
    specs = f"specs=(\n{rows}            )" if rows else "specs=()"
    return f"        {command.name})\n            {specs}\n            ;;"


def zsh():
    commands = declared.commands().values()
    rows = (f"        '{it.name}:{zsh_text(lower(short(it.about)), ':')}'" for it in commands)
    return ZSH % {"commands": "\n".join(rows), "specs": "\n".join(map(zsh_command, commands))}


# ---- fish


FISH = r"""# Completions of tunygarop for fish. tools/docs --write makes them.

complete -c tunygarop -f

%(commands)s
complete -c tunygarop -n __fish_use_subcommand -a help -d 'Print help'
complete -c tunygarop -n '__fish_seen_subcommand_from help' -a '%(names)s'

complete -c tunygarop -s h -l help -d 'Print help'
complete -c tunygarop -n __fish_use_subcommand -s V -l version -d 'Print the version'

%(options)s
"""


def fish_text(text):
    return text.replace("\\", "\\\\").replace("'", "\\'")


def fish_value(name, word):
    if not word:
        return ""
    action = "(__fish_print_hostnames)" if name == HOST else "(__fish_complete_path)" if word in FILES else ""
    return f" -x -a '{action}'" if action else " -x"


def fish_options():
    texts = grouped(lambda it: None if it.is_alone else (it.word, short(it.help)))
    for name, of_commands in texts.items():
        for text, commands in of_commands.items():
            if text:
                seen = f"-n '__fish_seen_subcommand_from {' '.join(commands)}'"
                yield f"complete -c tunygarop {seen} -l {name}{fish_value(name, text[0])} -d '{fish_text(text[1])}'"


def fish():
    commands = declared.commands().values()
    row = "complete -c tunygarop -n __fish_use_subcommand -a {} -d '{}'"
    return FISH % {
        "commands": "\n".join(row.format(it.name, fish_text(short(it.about))) for it in commands),
        "names": " ".join(it.name for it in commands),
        "options": "\n".join(fish_options()),
    }


# ---- the man page


def roff(text):
    """A text with its options in bold, on lines that begin with no mark of roff."""
    text = OPTION.sub(lambda it: rf"\fB{it[0].replace('-', chr(92) + '-')}\fR", text.replace("\\", r"\e"))
    lines = textwrap.wrap(text, COLUMNS, break_on_hyphens=False, break_long_words=False)
    return "\n".join(rf"\&{it}" if it[0] in ".'" else it for it in lines)


def roff_head(name, word, is_alone):
    if is_alone:
        return f".I {word}"
    option = f"--{name}".replace("-", r"\-")
    return f'.BI {option} " {word}"' if word else f".B {option}"


def roff_entry(name, of_commands):
    """An option: its head, and what help says of it, with the commands that it is one of."""
    word, is_alone = next(iter(of_commands))[:2]
    parts = []
    for (_, _, text), commands in of_commands.items():
        listed = ' ", " '.join(commands)
        parts.append(f"{roff(text)}\n.RB ( {listed} ).")
    return f".TP\n{roff_head(name, word, is_alone)}\n" + "\n.br\n".join(parts)


def parted(texts):
    """The texts of an option that is a word alone, and those of one with a name: both may have the same."""
    parts = [{parts: names for parts, names in texts.items() if parts[1] == is_alone} for is_alone in (True, False)]
    return [some for some in parts if some]


def man_page():
    """The man page, with its section on options as help has these."""
    texts = grouped(lambda it: (it.word, it.is_alone, it.help + without(it)))
    entries = [roff_entry(name, some) for name in sorted(texts) for some in parted(texts[name])]
    before, rest = (TOP / MAN).read_text().split(".SH OPTIONS\n")
    after = rest[rest.index("\n.SH ") :]
    ends = [
        '.TP\n.BR \\-h ", " \\-\\-help\nprints help.',
        '.TP\n.BR \\-V ", " \\-\\-version\nprints the version.',
    ]
    return f"{before}.SH OPTIONS\n" + "\n".join([*entries, *ends]) + after


# ---- the document


PAGE_BEGINS = """# Options

Each command with its options, as `tunygarop COMMAND --help` prints them.
[RELAY](RELAY.md) and [TRYING](TRYING.md) say more of some.

`tools/docs --write` writes this page from what the program declares, and the test of the repository
checks that both say the same."""


def marked(text):
    """A text as a cell has it, with its options as code."""
    return OPTION.sub(lambda it: f"`{it[0]}`", text.replace("|", "\\|"))


def row(option):
    name = option.word if option.is_alone else f"--{option.name} {option.word}".strip()
    absent = "it has to be given" if option.is_required else f"`{option.default}`" if option.default else ""
    return f"| `{name}` | {marked(option.help)} | {absent} |"


def table(options):
    return "| Option | What it is | Without it |\n|---|---|---|\n" + "\n".join(map(row, options))


def options_page():
    parts = [PAGE_BEGINS]
    for command in declared.commands().values():
        parts += [f"## {command.name}", textwrap.fill(f"{command.about}.", COLUMNS)]
        for title, options in command.sections.items():
            parts += [f"### {title}", table(options)] if title else [table(options)]
    return "\n\n".join(parts) + "\n"


# Each file that is made, with what makes it.
PAGES = {
    f"{COMPLETIONS}/tunygarop.bash": bash,
    f"{COMPLETIONS}/_tunygarop": zsh,
    f"{COMPLETIONS}/tunygarop.fish": fish,
    MAN: man_page,
    PAGE: options_page,
}


def faults():
    """What is wrong with what help says: each option has a text, and that of a number has its range, but for a port."""
    for command in declared.commands().values():
        for option in command.options:
            if not option.help:
                yield f"{command.name} --{option.name} has no help"
            elif option.range and option.range not in option.help and option.range != "1 to 65535":
                yield f"{command.name} --{option.name}: its help doesn't say {option.range}"
