"""A second reader of other tools' texts, written from the grammar alone, to compare the program's answers with.

A text is bytes. Its forms are `OWN`, `ENVSUBST` or `SHELL`. Its names are all (`None`), or chosen by a function of a
name and of whether it has an operator. The forms:

    text      = { byte | variable | dollars | braces }
    variable  = '$' name | '${' name '}' | '${' name operator text '}' | '${' name question message '}'
    OWN       operator = ':', but before '-', '=', '?' and '+', and the form '${' name '?}'
    ENVSUBST  has no operator
    SHELL     operator = ':-' | '-' | ':+' | '+'    question = ':?' | '?'
    dollars   = '$$', one dollar, of all names of a shell
    braces    = '{' text '}', in the text of an operator alone, of a shell
    message   = { byte that is no brace | '{' message '}' }

- A name is the longest run of letters, digits and '_'; that of ENVSUBST and SHELL begins with no digit.
- A dollar that begins no form of a chosen name is text. With all names of a shell '${' has to begin a form; else it is
  refused by what follows, and reading continues after '${' and the name.
- The text of an operator ends at the first '}' that closes neither a variable nor a brace in it. If it never ends, it
  is refused at its dollar: the outermost alone, after all else. A message that never ends is refused at once, and
  nothing after it is read.
- A brace in the text of an operator of OWN is refused if it begins no variable; reading continues after it.
"""
import re
from typing import NamedTuple, Optional, Union

OWN, ENVSUBST, SHELL = 'own', 'envsubst', 'shell'
# Expansions of an unset plain variable.
FAULT, NOTHING = 'fault', 'nothing'
# The kinds of variables.
PLAIN, OPTIONAL, DEFAULT, ALTERNATIVE, REQUIRED = 'plain', 'optional', 'default', 'alternative', 'required'

NAMES = {OWN: re.compile(rb'[0-9A-Za-z_]+'), SHELL: re.compile(rb'[A-Za-z_][0-9A-Za-z_]*')}
NAMES[ENVSUBST] = NAMES[SHELL]
# The kind of a variable by its operator, and whether an empty value counts as unset.
OPERATORS = {
    OWN: {b'}': (PLAIN, False), b'?}': (OPTIONAL, False), b':': (DEFAULT, False)},
    ENVSUBST: {b'}': (PLAIN, False)},
    SHELL: {b'}': (PLAIN, False), b':-': (DEFAULT, True), b'-': (DEFAULT, False), b':+': (ALTERNATIVE, True),
            b'+': (ALTERNATIVE, False), b':?': (REQUIRED, True), b'?': (REQUIRED, False)},
}
# Beginnings of other tools' defaults, which OWN leaves as text.
OF_OTHERS = (b'-', b'=', b'?', b'+')
# The refused forms of a shell, by the text after the name, and other refused forms.
REFUSED = {b':=': 'ColonEquals', b':': 'Colon', b'=': 'Equals', b'#': 'Hash', b'%': 'Percent', b'/': 'Slash'}
OTHER, NO_NAME, UNCLOSED, BRACE = 'Other', 'NoName', 'Unclosed', 'Brace'


class Refusal(NamedTuple):
    """A refused form, and the byte offset of its dollar or of its brace."""
    at: int
    form: str


class Tree(NamedTuple):
    """A parsed text: bytes and variables."""
    items: list


class Message(NamedTuple):
    """A message, and its tree as a text, or nothing if it is refused."""
    text: bytes
    tree: Optional[Tree]


class Variable(NamedTuple):
    """A variable: the byte offset of its name, the name, its kind, whether an empty value counts as unset, and the
    operand."""
    at: int
    name: bytes
    kind: str
    is_empty_none: bool
    operand: Union[Tree, Message, None]


class Fault(NamedTuple):
    """A variable that must have a value: the byte offset of its name, the name, whether it is empty rather than unset,
    and the reported message, or nothing."""
    at: int
    name: bytes
    is_empty: bool
    message: bytes


class Reader:
    """A reader of one text, which collects the refused forms."""

    def __init__(self, text, forms, names):
        self.text, self.forms, self.names = text, forms, names
        self.is_compose = forms == SHELL and names is None
        self.refusals = []

    def refuse(self, at, form):
        self.refusals.append(Refusal(at, form))

    def items(self, at, is_inside):
        """Reads to the end of the text, or inside of an operator's text to its closing brace. Returns the tree and the
        offset after it, or nothing as the tree if that brace is missing."""
        items, braces = [], 0
        while at < len(self.text):
            byte = self.text[at:at + 1]
            if byte == b'$':
                item, at = self.dollar(at, is_inside)
                items.append(item)
                continue
            if is_inside and byte == b'}':
                if braces == 0:
                    return Tree(items), at + 1
                braces -= 1
            elif is_inside and byte == b'{':
                if self.forms == OWN:
                    self.refuse(at, BRACE)
                else:
                    braces += 1
            items.append(byte)
            at += 1
        return Tree(items), None

    def dollar(self, at, is_inside):
        """Reads the variable at a dollar, or the dollar as text. Returns it and the offset after it."""
        if self.is_compose and self.text.startswith(b'$$', at):
            return b'$', at + 2
        if self.text.startswith(b'${', at):
            return self.braced(at, is_inside)
        name = self.name(at + 1)
        if self.counts(name, PLAIN):
            return Variable(at + 1, name, PLAIN, False, None), at + 1 + len(name)
        return b'$', at + 1

    def braced(self, at, is_inside):
        """Reads the variable at a dollar before a brace, or refuses it. Returns it and the offset after it."""
        name = self.name(at + 2)
        after = at + 2 + len(name)
        operator = self.operator(after) if name else None
        if operator is None:
            if not self.is_compose:
                return b'$', at + 1
            self.refuse(at, self.refused_form(after) if name else NO_NAME)
            return self.text[at:after], after
        kind, is_empty_none = OPERATORS[self.forms][operator]
        if not self.counts(name, kind):
            return b'$', at + 1
        start = after + len(operator)
        if kind == REQUIRED:
            operand, end = self.message(at, start)
        elif kind in (DEFAULT, ALTERNATIVE):
            operand, end = self.operand(at, start, is_inside)
        else:
            operand, end = None, start
        return Variable(at + 2, name, kind, is_empty_none, operand), end

    def name(self, at):
        """Returns the name at an offset, which is empty if there is none."""
        found = NAMES[self.forms].match(self.text, at)
        return found[0] if found else b''

    def counts(self, name, kind):
        return name != b'' and (self.names is None or self.names(name, kind != PLAIN))

    def operator(self, at):
        """Returns the operator at an offset, or the brace that closes a plain variable, or nothing if it is no form."""
        found = next((it for it in OPERATORS[self.forms] if self.text.startswith(it, at)), None)
        is_of_others = found == b':' and self.text.startswith(OF_OTHERS, at + 1)
        return None if is_of_others else found

    def refused_form(self, at):
        """Returns the refused form for the text at an offset, after a name."""
        if at == len(self.text):
            return UNCLOSED
        return next((form for sign, form in REFUSED.items() if self.text.startswith(sign, at)), OTHER)

    def operand(self, dollar, start, is_inside):
        """Reads a default or an alternative. Returns its tree and the offset after its closing brace."""
        tree, end = self.items(start, True)
        if end is None and not is_inside:
            self.refuse(dollar, UNCLOSED)
        return tree, len(self.text) if end is None else end

    def message(self, dollar, start):
        """Reads a message. Returns it and the offset after its closing brace, or the end of the text."""
        depth = 0
        for at in range(start, len(self.text)):
            byte = self.text[at:at + 1]
            if byte == b'}' and depth == 0:
                text = self.text[start:at]
                read_so = read(text, self.forms, self.names)
                return Message(text, read_so if isinstance(read_so, Tree) else None), at + 1
            depth += {b'{': 1, b'}': -1}.get(byte, 0)
        self.refuse(dollar, UNCLOSED)
        return None, len(self.text)


def read(text, forms, names=None):
    """Reads a text. Returns its tree, or its refused forms in the order of their reports."""
    assert forms in (ENVSUBST, SHELL) or names is not None, 'the own forms of all names are the language'
    reader = Reader(text, forms, names)
    tree, _ = reader.items(0, False)
    return reader.refusals or tree


def value(tree, variables, missing):
    """Expands a tree. Returns the output, or the faults. Only what is used is expanded."""
    faults = []
    output = b''.join(values(tree, variables, missing, faults))
    return faults or output


def values(tree, variables, missing, faults):
    """Yields the outputs of items, and appends the faults."""
    for item in tree.items:
        if isinstance(item, bytes):
            yield item
            continue
        found = variables.get(item.name)
        has_value = found is not None and not (item.is_empty_none and found == b'')
        if item.kind == ALTERNATIVE:
            if has_value:
                yield from values(item.operand, variables, missing, faults)
        elif has_value:
            yield found
        elif item.kind == DEFAULT:
            yield from values(item.operand, variables, missing, faults)
        elif item.kind == REQUIRED or item.kind == PLAIN and missing == FAULT:
            message = expanded_message(item.operand, variables, missing) if item.operand else b''
            faults.append(Fault(item.at, item.name, found is not None, message))


def expanded_message(message, variables, missing):
    """Expands a message, or returns it as it is if it is refused or has faults."""
    output = value(message.tree, variables, missing) if message.tree else message.text
    return output if isinstance(output, bytes) else message.text


def answer(text, forms, names, variables, missing):
    """Returns the output of a text, or its refused forms, or its faults."""
    tree = read(text, forms, names)
    return value(tree, variables, missing) if isinstance(tree, Tree) else tree


def known(variables):
    """Returns the choice of names that have a value, and of any name with an operator."""
    return lambda name, is_operated: is_operated or name in variables


def only(chosen):
    """Returns the choice of these names; one that ends in an asterisk chooses all names with this prefix."""
    starts = tuple(name[:-1] for name in chosen if name.endswith(b'*'))
    return lambda name, _: name in chosen or name.startswith(starts)
