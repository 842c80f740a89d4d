"""Completions for bash, zsh and fish, made of the words that `words` read."""

MADE = "# Completion of `uadisc`, made by tools/package from the help that the program prints."


def quoted(text):
    """A word of a shell, in single quotes (bash, zsh)."""
    return "'" + text.replace("'", "'\\''") + "'"


def short_name(command):
    return command.name.split()[-1]


# bash

BASH = r"""_uadisc() {
    local word=${COMP_WORDS[COMP_CWORD]} all=() at piece joined=0 command='' before='' place=0 takes='' options='' values='' files=0 count=0
    # Colons split words at a terminal, as those of an address. They are put together again here.
    for ((at = 1; at <= COMP_CWORD; at++)); do
        piece=${COMP_WORDS[at]}
        if [[ ${#all[@]} -gt 0 && ($joined -eq 1 || $piece =~ ^[:=]+$) ]]; then
            all[${#all[@]} - 1]+=$piece
        else
            all+=("$piece")
        fi
        [[ $piece =~ ^[:=]+$ ]] && joined=1 || joined=0
    done
    [ "${#all[@]}" -gt 1 ] && command=${all[0]}
    COMPREPLY=()
    case $command in
@CASES@
        *) return ;;
    esac
    for ((at = 1; at < ${#all[@]} - 1; at++)); do
        before=''
        case " $takes " in
            *" ${all[at]} "*) before=${all[at]}; ((at++)); continue ;;
        esac
        [[ ${all[at]} == -?* ]] || ((place++))
    done
    # What the option before this word takes, or else what stands at this place.
    [[ -n $before && $at -lt ${#all[@]} ]] && before=''
    case $command/${before:-$place} in
@PLACES@
    esac
    if [ "$files" -eq 1 ]; then
        compopt -o filenames 2> /dev/null
        mapfile -t COMPREPLY < <(compgen -f -- "$word")
    fi
    [[ -z $before && ($word == -* || $place -ge $count) ]] && values="$values $options"
    mapfile -t -O "${#COMPREPLY[@]}" COMPREPLY < <(compgen -W "$values" -- "$word")
}
complete -F _uadisc uadisc
"""


def bash_place(command, key, word):
    values = " ".join(word.values + word.others)
    files = " files=1" if word.is_file else ""
    return f"        {command}/{key}) values='{values}'{files} ;;" if values or files else None


def bash(top, commands):
    """The completion for bash."""
    names = " ".join(name for name, _ in top.commands)
    cases = [f"        '') options='{' '.join(name for option in top.options for name in option.names)}' values='{names}' count=1 ;;",
             "        help) count=1 ;;"]
    places = [f"        help/0) values='{names}' ;;"]
    for command in commands:
        name = short_name(command)
        options = " ".join(name for option in command.options for name in option.names)
        takes = " ".join(name for option in command.options if option.takes_word for name in option.names)
        many = any(argument.many for argument in command.arguments)
        cases.append(f"        {name}) options='{options}' takes='{takes}' count={9999 if many else len(command.arguments)} ;;")
        keyed = [(key, option.word) for option in command.options if option.takes_word for key in option.names]
        keyed += [("*" if argument.many else at, argument.word) for at, argument in enumerate(command.arguments)]
        places += filter(None, (bash_place(name, key, word) for key, word in keyed))
    text = BASH.replace("@CASES@", "\n".join(cases)).replace("@PLACES@", "\n".join(places))
    return f"{MADE}\n{text}"


# zsh

ZSH = """#compdef uadisc
@MADE@
_uadisc_file_or() {
    _alternative 'files:file:_files' "words:word:($*)"
}

_uadisc() {
    local curcontext=$curcontext state line ret=1
    typeset -A opt_args
    _arguments -C @TOP@ \\
        '1: :->command' '*:: :->words' && ret=0
    case $state in
    command)
        local -a commands=(
@NAMES@
        )
        _describe -t commands command commands && ret=0
        ;;
    words)
        curcontext=${curcontext%:*:*}:uadisc-$words[1]:
        case $words[1] in
@CASES@
        esac
        ;;
    esac
    return ret
}

_uadisc "$@"
"""


def zsh_text(text):
    """A text within a specification of `_arguments`."""
    for sign in "\\[]:":
        text = text.replace(sign, "\\" + sign)
    return text


def zsh_action(word):
    """What completes a word: its names, files, or nothing but what it is."""
    if word.values:
        return f"({' '.join(word.values)})"
    if word.is_file:
        return f" _uadisc_file_or {' '.join(word.others)}" if word.others else "_files"
    # An option may stand there as well, which zsh would list and not complete beside a bare message.
    return f'_guard "^-*" {word.name}'


def zsh_option(option):
    told, word = zsh_text(option.word.text), option.word
    takes = f":{word.name}:{zsh_action(word)}" if option.takes_word else ""
    if option.long in ("--help", "--version"):
        return " ".join(quoted(f"(- *){name}[{told}]") for name in option.names)
    # An option that takes a word may stand again, as far as can be seen from its help.
    once = "*" if option.takes_word else ""
    return " ".join(quoted(f"{once}{name}[{told}]{takes}") for name in option.names)


def zsh_command(command):
    specs = [zsh_option(option) for option in command.options]
    for at, argument in enumerate(command.arguments, 1):
        place = "*" if argument.many else f"{at}{'' if argument.required else ':'}"
        specs.append(quoted(f"{place}:{zsh_text(f'{argument.word.name}, {argument.word.text}')}:{zsh_action(argument.word)}"))
    joined = " \\\n                ".join(specs)
    return f"        {short_name(command)})\n            _arguments {joined} && ret=0\n            ;;"


def zsh(top, commands):
    """The completion for zsh."""
    names = [quoted(f"{name}:{text}") for name, text in top.commands]
    cases = [zsh_command(command) for command in commands]
    cases.append(f"        help)\n            _arguments '1:command:({' '.join(name for name, _ in top.commands)})' && ret=0\n            ;;")
    return (ZSH.replace("@MADE@", MADE).replace("@TOP@", " ".join(map(zsh_option, top.options)))
            .replace("@NAMES@", "\n".join(f"            {name}" for name in names)).replace("@CASES@", "\n".join(cases)))


# fish

FISH = r"""@MADE@
# Whether these words stand before the one that is asked for: the command, and so many more that are no options.
function __uadisc_at --argument-names name place
    set -l words (commandline -opc)
    test (count $words) -ge 2; and test "$words[2]" = "$name"; or return 1
    set -l seen 0
    set -l takes 0
    for word in $words[3..-1]
        if test $takes -eq 1
            set takes 0
        else if contains -- $word @TAKES@
            set takes 1
        else if not string match -q -- '-?*' $word
            set seen (math $seen + 1)
        end
    end
    test $seen -eq $place
end

function __uadisc_first
    test (count (commandline -opc)) -eq 1
end

function __uadisc_in --argument-names name
    set -l words (commandline -opc)
    test (count $words) -ge 2; and test "$words[2]" = "$name"
end

complete -c uadisc -f
"""


def fish_quoted(text):
    return "'" + text.replace("\\", "\\\\").replace("'", "\\'") + "'"


def fish_option(condition, option):
    parts = [f"complete -c uadisc -n {fish_quoted(condition)}"]
    parts += [f"-s {option.short[1:]}"] * bool(option.short) + [f"-l {option.long[2:]}"] * bool(option.long)
    if option.takes_word:
        parts.append("-r -F" if option.word.is_file else "-x")
        if option.word.values or option.word.others:
            parts.append(f"-a {fish_quoted(' '.join(option.word.values + option.word.others))}")
    return " ".join(parts + [f"-d {fish_quoted(option.word.text)}"])


def fish_argument(name, place, argument):
    word = argument.word
    values = " ".join(word.values + word.others)
    if not values and not word.is_file:
        return None
    condition = f"__uadisc_in {name}" if argument.many else f"__uadisc_at {name} {place}"
    parts = [f"complete -c uadisc -n {fish_quoted(condition)}"] + ["-F"] * word.is_file
    return " ".join(parts + [f"-a {fish_quoted(values)}"] * bool(values) + [f"-d {fish_quoted(word.name)}"])


def fish(top, commands):
    """The completion for fish."""
    takes = sorted({name for command in commands for option in command.options if option.takes_word for name in option.names})
    lines = [fish_option("__uadisc_first", option) for option in top.options]
    lines += [f"complete -c uadisc -n __uadisc_first -a {name} -d {fish_quoted(text)}" for name, text in top.commands]
    lines += [f"complete -c uadisc -n '__uadisc_at help 0' -a {name} -d {fish_quoted(text)}" for name, text in top.commands]
    for command in commands:
        name = short_name(command)
        lines += [fish_option(f"__uadisc_in {name}", option) for option in command.options]
        lines += filter(None, (fish_argument(name, place, argument) for place, argument in enumerate(command.arguments)))
    return FISH.replace("@MADE@", MADE).replace("@TAKES@", " ".join(takes) or "''") + "\n".join(lines) + "\n"
