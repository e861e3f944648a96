"""What completes the words of `pidtabctl` in bash, zsh and fish."""

from collections.abc import Mapping

BASH = """\
# Completes the words of pidtabctl in bash. Written by `pidtabctl completion bash`.
_pidtabctl() {{
    local word=${{COMP_WORDS[COMP_CWORD]}}
    COMPREPLY=()
    case $COMP_CWORD,${{COMP_WORDS[1]}} in
        1,*) COMPREPLY=($(compgen -W '{words} --help --version' -- "$word")) ;;
        2,help) COMPREPLY=($(compgen -W '{words}' -- "$word")) ;;
        2,completion) COMPREPLY=($(compgen -W '{shells}' -- "$word")) ;;
    esac
}}
complete -o default -F _pidtabctl pidtabctl
"""

ZSH = """\
#compdef pidtabctl
# Completes the words of pidtabctl in zsh. Written by `pidtabctl completion zsh`.
_pidtabctl() {{
    local -a commands shells
    commands=(
{lines}
    )
    shells=({shells})
    case $CURRENT,$words[2] in
        2,*|3,help) _describe command commands ;;
        3,completion) _describe shell shells ;;
        *) _files ;;
    esac
}}
if [[ $funcstack[1] == _pidtabctl ]]; then _pidtabctl "$@"; else compdef _pidtabctl pidtabctl; fi
"""

FISH = """\
# Completes the words of pidtabctl in fish. Written by `pidtabctl completion fish`.
{lines}
complete -c pidtabctl -n __fish_use_subcommand -f -l help -d 'shows the commands'
complete -c pidtabctl -n __fish_use_subcommand -f -l version -d 'shows the version'
complete -c pidtabctl -n '__fish_seen_subcommand_from help' -f -a '{words}'
complete -c pidtabctl -n '__fish_seen_subcommand_from completion' -f -a '{shells}'
"""

SHELLS = ("bash", "zsh", "fish")


def complete(shell: str, words: Mapping[str, str]) -> str:
    """The script for a shell, of the words with what they do, in which no sign is one of a shell."""
    joined = {"words": " ".join(words), "shells": " ".join(SHELLS)}
    if shell == "bash":
        return BASH.format(**joined)
    if shell == "zsh":
        return ZSH.format(lines="\n".join(f"        '{word}:{about}'" for word, about in words.items()), **joined)
    lines = "\n".join(f"complete -c pidtabctl -n __fish_use_subcommand -f -a {word} -d '{about}'" for word, about in words.items())
    return FISH.format(lines=lines, **joined)
