"""Reads the images of cdbg, by docs/image.md alone.

`read` gives the sections as lists of named tuples, with the numbers as they are stored. Places and changes are numbered
from 1, all else from 0: `image.place(1)` is `image.places[0]`.
"""

import re
import struct
from collections import namedtuple

CODE_START = 0x00010000         # where the code stands in the machine
NO_FUNCTION = 0xFFFFFFFF        # the function of a static variable and of a string literal
TYPES = ('unsigned char', 'signed char', 'unsigned short', 'short', 'unsigned', 'int', 'pointer')
STORAGES = ('static', 'frame', 'register', 'slot')
KINDS = ('removed', 'moved', 'reused', 'replaced', 'sunk')
VERDICTS = ('home', 'recovered', 'noncurrent', 'nonresident')
OPERATIONS = ('constant variable home + - * / /u % %u << >>u >> & | ^ < <u'.split()
              + ['low 8 bits', 'low 16 bits signed', 'low 16 bits', 'low 8 bits signed'])
REGISTERS = ('zero ra sp gp tp t0 t1 t2 s0 s1 a0 a1 a2 a3 a4 a5 a6 a7 s2 s3 s4 s5 s6 s7 s8 s9 s10 s11 t3 t4 t5 '
             't6').split()

ROWS = {1: 6, 2: 6, 3: 7, 4: 7}  # how many numbers a visible row has, in the versions that are read

# `first` and `end` are addresses, `frame` is a size in bytes, `entry` the number of a place.
Function = namedtuple('Function', 'name first end frame entry')
Place = namedtuple('Place', 'position line function address')
# `type` is an index of TYPES, `storage` one of STORAGES; a string literal has no name, a scalar the count 0.
Variable = namedtuple('Variable', 'name function position type storage value count')
# `name` is that of the pass, `kind` an index of KINDS.
Change = namedtuple('Change', 'name kind place variable')
# `op` is an index of OPERATIONS.
Node = namedtuple('Node', 'op a b')


class NotAnImage(ValueError):
    """The bytes are no image of these versions, or not as many as their header says."""


class Row(namedtuple('Row', 'place variable verdict change a b c', defaults=(0,))):
    """`verdict` is an index of VERDICTS; what `a` and `b` are depends on it. At `c` the current path starts, if one does."""

    def word(self):
        """How the variable is shown: one of VERDICTS, or `suspect`, which a variable is that has a current path."""
        return 'suspect' if self.c else VERDICTS[self.verdict]


class Image(namedtuple('Image', 'mode words initial functions places owners variables changes flow assigned rows '
                                'nodes')):
    """The sections: `words` are the code's, `initial` is bytes, `flow` and `assigned` are pairs."""

    def place(self, number):
        """The place of this number."""
        return self.places[number - 1]

    def change(self, number):
        """The change of this number."""
        return self.changes[number - 1]

    def owner(self, address):
        """The number of the place that the word at an address of the code belongs to, or 0."""
        return self.owners[(address - CODE_START) // 4]


def read(data):
    """The image that these bytes are."""
    offset = 0

    def take(length):
        nonlocal offset
        offset += length
        if offset > len(data):
            raise NotAnImage('the image is cut off')
        return data[offset - length:offset]

    def records(count, size):
        return list(struct.iter_unpack('<%dI' % size, take(4 * size * count)))

    def numbers(count):
        return [number for number, in records(count, 1)]

    def named(kind, record):
        return kind(take(record[0]).decode('latin-1'), *record[1:1 + len(kind._fields) - 1])

    version = numbers(1)[0] if take(4) == b'CDBG' else 0
    if version not in ROWS:
        raise NotAnImage('no image of version 1 to 4')
    (length, mode, words, initial, functions, places, variables, changes, flow, assigned, rows, nodes, names,
     _) = numbers(14)
    words = numbers(words)
    initial = take(initial)
    functions = records(functions, 5)
    places = [Place(*record) for record in records(places, 4)]
    owners = numbers(len(words))
    variables = records(variables, 8)
    changes = records(changes, 5)
    flow = records(flow, 2)
    assigned = records(assigned, 2)
    rows = [Row(*record) for record in records(rows, ROWS[version])]
    nodes = [Node(*record) for record in records(nodes, 3)]
    if not length == len(data) == offset + names:
        raise NotAnImage('the image is not as long as its header says')
    functions = [named(Function, record) for record in functions]
    variables = [named(Variable, record) for record in variables]
    changes = [named(Change, record) for record in changes]
    return Image(mode, words, initial, functions, places, owners, variables, changes, flow, assigned, rows, nodes)


def column(source, position):
    """How many bytes of its line stand before a position of the source."""
    return position - source.rfind(b'\n', 0, position) - 1


# Literals and comments, which are passed over whole, and single characters.
_PARTS = re.compile(rb'"(?:\\.|[^"\\])*"|\'(?:\\.|[^\'\\])*\'|/\*.*?(?:\*/|$)|//.*|.')


def place_text(image, source, number):
    """The source of a place as far as it stands on its line: to where its statement ends or the next place begins."""
    start = image.place(number).position
    end = image.place(number + 1).position if number < len(image.places) else len(source)
    depth = 0
    text = b''
    for part in _PARTS.findall(source[start:end].split(b'\n', 1)[0]):
        depth += (part in (b'(', b'[')) - (part in (b')', b']'))
        if depth < 0 or depth == 0 and (part == b';' or part == b'{' and not text.rstrip().endswith(b'=')):
            break
        text += b'' if part.startswith((b'/*', b'//')) else part
    return text.rstrip(b' \t\r,*') or source[start:start + 1]


def recipe(image, number):
    """What a node computes, in the manner of C; `u` marks an operator of unsigned numbers."""
    op, a, b = image.nodes[number]
    if op == 0:
        return str(a - (a >> 31 << 32))
    if op == 1:
        return image.variables[a].name
    if op == 2:
        return REGISTERS[a] if a < 32 else 'the slot at %d' % (a - 32)
    if op >= 18:
        return '%s of (%s)' % (OPERATIONS[op], recipe(image, a))
    return '(%s %s %s)' % (recipe(image, a), OPERATIONS[op], recipe(image, b))
