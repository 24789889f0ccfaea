#!/usr/bin/env python3
"""completions.py bash|zsh|fish   Prints a shell's completion of the arguments of subst, from the options in its source,
crates/subst_options/src/table.rt. The options of its library, -h and -V, are added here.
"""
import re
import sys
from typing import NamedTuple

sys.dont_write_bytecode = True
from building import CRATES

SOURCE = CRATES / 'subst_options/src/table.rt'
# A row of that table, and the value in it.
ROW = re.compile(r'^    Row \{\n(.*?)^    \},', re.MULTILINE | re.DOTALL)
TAKES = re.compile(r'takes: Some\(\("([^"]+)", Uses::(\w+)\)\)')


class Option(NamedTuple):
    """An option. Its letter and its value are empty if it has none. A value in lower case lists all choices, as a|b."""
    letter: str
    name: str
    value: str
    text: str
    conflicts: tuple = ()
    repeats: bool = False

    def has_choices(self):
        return self.value.islower()


# The options that the command-line library handles.
OF_LIBRARY = [Option('h', 'help', '', 'Print help'), Option('V', 'version', '', 'Print version')]


def options():
    """Returns the options, in order."""
    found = []
    for row in ROW.findall(SOURCE.read_text(encoding='utf-8')):
        name, text = (re.search(rf'{field}: "([^"]*)"', row)[1] for field in ('long', 'help'))
        letter = ''.join(re.findall(r"short: Some\('(\w)'\)", row))
        value, uses = TAKES.search(row).groups() if TAKES.search(row) else ('', '')
        conflicts = tuple(re.findall(r'"([^"]+)"', re.search(r'conflicts: &\[(.*?)\]', row, re.DOTALL)[1]))
        found.append(Option(letter, name, value, text, conflicts, uses == 'Many'))
    return found + OF_LIBRARY


def words(some_options):
    return [word for it in some_options for word in (f'-{it.letter}', f'--{it.name}') if word != '-']


def excluded(option):
    """Returns the words of the options that can't follow an option."""
    return words(it for it in options() if it.name in option.conflicts or option.name in it.conflicts
                 or it == option and not option.repeats)


def quoted(text, quote=r"'\''"):
    """Returns a text in single quotes, with each quote in it replaced."""
    return "'" + text.replace("'", quote) + "'"


# The shells


BASH = r'''# Completes arguments of subst in bash: its options, nothing where a variable is named, and files, which
# bash completes itself where nothing is offered here.

_subst() {
  local at=$COMP_CWORD before given word
  COMPREPLY=()
  # Each `=` and `:` splits a word of the command line into several.
  while ((at > 1)) && [[ ${COMP_WORDS[at]} == [=:]* || ${COMP_WORDS[at - 1]} == *[=:] ]]; do
    ((at--))
  done
  printf -v word %s "${COMP_WORDS[@]:at:COMP_CWORD - at + 1}"
  before=${COMP_WORDS[at - 1]}
  for given in "${COMP_WORDS[@]:1:at - 1}"; do
    [[ $given == -- ]] && return
  done
  if [[ $before =~ ^(@FOLDER_LONG@|-[@FLAG_SHORT@]*[@FOLDER_SHORT@])$ || $word =~ ^(@FOLDER_LONG@)= ]]; then
    compopt +o bashdefault +o default -o dirnames
@CHOICES@  elif [[ $before =~ ^(@LONG@|-[@FLAG_SHORT@]*[@SHORT@])$ || $word =~ ^((@LONG@)=|-[@FLAG_SHORT@]*[@SHORT@].) ]]; then
    compopt +o bashdefault +o default
  elif [[ $word == -* && ! $before =~ ^(@FILE_LONG@|-[@FLAG_SHORT@]*[@FILE_SHORT@])$ ]]; then
    mapfile -t COMPREPLY < <(compgen -W '@WORDS@' -- "$word")
  fi
}

complete -o bashdefault -o default -F _subst subst
'''


def bash():
    kinds = {'FILE_': [it for it in options() if it.value == 'FILE'],
             'FOLDER_': [it for it in options() if it.value == 'FOLDER'],
             'FLAG_': [it for it in options() if not it.value and it not in OF_LIBRARY],
             '': [it for it in options() if it.value not in ('', 'FILE', 'FOLDER') and not it.has_choices()]}
    choices = ''.join(f'  elif [[ $before == --{it.name} || $word == --{it.name}=* ]]; then\n'
                      f'    compopt +o bashdefault +o default\n'
                      f"    mapfile -t COMPREPLY < <(compgen -W '{it.value.replace('|', ' ')}' -- \"${{word#*=}}\")\n"
                      for it in options() if it.has_choices())
    meant = {'WORDS': ' '.join(words(options())), 'CHOICES': choices}
    for kind, chosen in kinds.items():
        meant[f'{kind}LONG'] = '|'.join(f'--{it.name}' for it in chosen)
        meant[f'{kind}SHORT'] = ''.join(it.letter for it in chosen)
    return re.sub('@([A-Z_]+)@', lambda match: meant[match[1]], BASH)


def zsh_words(option):
    """Returns an option in zsh's form: the options that it excludes, its names, its help and its value."""
    others = '- *' if option in OF_LIBRARY else ' '.join(excluded(option))
    before = (f'({others})' if others else '') + '*' * option.repeats
    offered = {'FILE': '_files', 'FOLDER': '_files -/'}.get(option.value, ' ')
    if option.has_choices():
        offered = f"({option.value.replace('|', ' ')})"
    takes = f':{option.value.lower()}:{offered}' if option.value else ''
    letter, name = option.letter + '+' * bool(takes), option.name + '=' * bool(takes)
    after = f'[{option.text}]{takes}'
    if not option.letter:
        return quoted(f'{before}--{name}{after}')
    return f'{quoted(before)}{{-{letter},--{name}}}{quoted(after)}'


def zsh():
    made = ''.join(f'  {zsh_words(option)} \\\n' for option in options())
    return f"#compdef subst\n# Completes arguments of subst in zsh.\n\n_arguments -s -S \\\n{made}  '*:file:_files'\n"


def fish():
    made = '# Completes arguments of subst in fish.\n\n'
    for option in options():
        letter = f' -s {option.letter}' if option.letter else ''
        takes = {'': '', 'FILE': ' -r -F', 'FOLDER': " -x -a '(__fish_complete_directories)'"}.get(option.value, ' -x')
        if option.has_choices():
            takes = f" -x -a '{option.value.replace('|', ' ')}'"
        text = quoted(option.text, r"\'")
        made += f'complete -c subst{letter} -l {option.name}{takes} -d {text}\n'
    return made


SHELLS = {'bash': bash, 'zsh': zsh, 'fish': fish}


if __name__ == '__main__':
    if sys.argv[1:] not in [[shell] for shell in SHELLS]:
        sys.exit('usage: tools/completions.py bash|zsh|fish')
    print(SHELLS[sys.argv[1]](), end='')
