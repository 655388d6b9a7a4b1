"""Completion of bash for `contacts`, from the program's help."""

from typing import Dict, List

from helps import Help, choices, flags, value

TEXT = """\
# Completion of bash for contacts. tools/package made it from the program's help.
_contacts() {
    local word=${COMP_WORDS[COMP_CWORD]} before=${COMP_WORDS[COMP_CWORD - 1]}
    local order='' options='' at
    COMPREPLY=()
    # The order is the first word that is no option.
    for ((at = 1; at < COMP_CWORD; at++)); do
        [[ ${COMP_WORDS[at]} == -* ]] || { order=${COMP_WORDS[at]}; break; }
    done
    case "$order $before" in
@VALUES@
    esac
    if [[ $word == -* ]]; then
        case $order in
@OPTIONS@
        esac
        mapfile -t COMPREPLY < <(compgen -W "$options" -- "$word")
    elif [[ -z $order || $order == help ]]; then
        mapfile -t COMPREPLY < <(compgen -W '@ORDERS@' -- "$word")
    fi
    # All else is a file, which is bash's own completion.
}
complete -o bashdefault -o default -F _contacts contacts
"""


def made(helps: Dict[str, Help]) -> str:
    """The file that bash reads."""
    orders = [name for name, _ in helps[""].commands]
    options = [f"        {order or quoted('')}) options={quoted(' '.join(spellings(one)))} ;;"
               for order, one in helps.items() if one.options]
    return (TEXT.replace("@VALUES@", "\n".join(values(helps)))
            .replace("@OPTIONS@", "\n".join(options)).replace("@ORDERS@", " ".join(orders)))


def spellings(one: Help) -> List[str]:
    return [it for term, _ in one.options for it in flags(term)]


def values(helps: Dict[str, Help]) -> List[str]:
    """What follows an option that has a value: words that its text names, a folder, or nothing."""
    lines, nothing = [], []
    for order, one in helps.items():
        for term, said in one.options:
            case = quoted(f"{order} {flags(term)[-1]}")
            if choices(said):
                words = f"compgen -W {quoted(' '.join(choices(said)))}"
            elif value(term) == "DIR":
                words = "compgen -d"
            elif value(term):
                nothing.append(case)
                continue
            else:
                continue
            lines.append(f"    {case}) mapfile -t COMPREPLY < <({words} -- \"$word\"); return ;;")
    # No file is offered in place of a number or a name.
    cases = " | \\\n    ".join(nothing)
    return [*lines, f"    {cases})", "        compopt +o default +o bashdefault 2>/dev/null",
            "        return ;;"]


def quoted(text: str) -> str:
    return "'" + text.replace("'", "'\\''") + "'"
