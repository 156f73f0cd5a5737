#!/usr/bin/env python3
"""A toy compiler, `toy.py SOURCE IMAGE`, made after docs/image.md alone; docs/own-compiler.md says what it takes."""
import struct
import sys

with open(sys.argv[1]) as file:
    lines = file.readlines()
assigned = [line.split()[0] if '=' in line else '' for line in lines]
first = {name: assigned.index(name) + 1 for name in assigned if name}           # where each name is assigned first
names = list(first)
registers = dict(zip(names, [9, *range(18, 32)]))
constants = {name: int(lines[place - 1].split()[2]) for name, place in first.items()
             if assigned.count(name) == 1 and '+' not in lines[place - 1]}
values = sorted(set(constants.values()))
marks = {name: (1, change, values.index(constants[name]), 0) for change, name in enumerate(constants, 1)}
code, owners, places, flow, rows = [], [], [], [], []


def addi(result, register, number):
    """The instruction that adds a number to a register."""
    return (number & 0xFFF) << 20 | register << 15 | result << 7 | 0x13


for place, words in enumerate(map(str.split, lines), 1):
    places.append((sum(map(len, lines[:place - 1])), place, 0, 0x10000 + 4 * len(code)))
    if words[0] == 'program':
        code.append(addi(4, 0, 1023))                   # tp: of 1,024 functions that may be active, one is
    elif words[0] == 'put':
        code += [addi(10, registers[words[1]], 0), addi(17, 0, 2), 0x73]
    elif words[0] == 'while':
        target = int(words[3])
        way = places[target - 1][3] - places[-1][3]
        code.append((way & 0x1000) << 19 | (way & 0x7E0) << 20 | registers[words[1]] << 15 | (way & 0x1E) << 7
                    | (way & 0x800) >> 4 | 0x1063)
        flow.append((place, target))
    elif words[0] in constants:
        code.append(addi(0, 0, 0))
    elif '+' in words:
        code.append(addi(registers[words[0]], registers[words[2]], constants[words[4]]))
    else:
        code.append(addi(registers[words[0]], 0, int(words[2])))
    owners += [place] * (len(code) - len(owners))
    flow += [(place - 1, place)] if place > 1 else []
    rows += [(place, names.index(name)) + marks.get(name, (0, 0, 0, 0)) for name in names if first[name] < place]
code += [addi(10, 0, 0), addi(17, 0, 10), 0x73]         # the end, with status 0
owners += [0, 0, 0]

title = lines[0].split()[1]
function = (len(title), 0x10000, 0x10000 + 4 * len(code), 16, 1)
variables = [(len(name), 0, places[place - 1][0], 5, 2, registers[name], 0, 0) for name, place in first.items()]
changes = [(4, 0, first[name], names.index(name), 0) for name in constants]
pairs = [(place, names.index(name)) for place, name in enumerate(assigned, 1) if name]
nodes = [(0, value & 0xFFFFFFFF, 0) for value in values]
letters = (title + ''.join(names) + 'fold' * len(changes)).encode()
parts = [code, function, *places, owners, *variables, *changes, *sorted(flow), *pairs, *rows, *nodes]
body = b''.join(struct.pack('<%dI' % len(part), *part) for part in parts) + letters
counts = map(len, (places, variables, changes, flow, pairs, rows, nodes, letters))
with open(sys.argv[2], 'wb') as file:
    file.write(struct.pack('<4s15I', b'CDBG', 1, 64 + len(body), 1, len(code), 0, 1, *counts, 0) + body)
