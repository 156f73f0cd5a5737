"""Spells the words of code of an image as instructions of RV32IM, as an assembler takes them; tells what they write."""

from image import REGISTERS

LOADS = {0: 'lb', 1: 'lh', 2: 'lw', 4: 'lbu', 5: 'lhu'}
STORES = {0: 'sb', 1: 'sh', 2: 'sw'}
BRANCHES = {0: 'beq', 1: 'bne', 4: 'blt', 5: 'bge', 6: 'bltu', 7: 'bgeu'}
IMMEDIATE = {0: 'addi', 2: 'slti', 3: 'sltiu', 4: 'xori', 6: 'ori', 7: 'andi'}
SHIFTS = {(1, 0): 'slli', (5, 0): 'srli', (5, 32): 'srai'}
COMPUTES = {0: 'add sll slt sltu xor srl or and'.split(),
            1: 'mul mulh mulhsu mulhu div divu rem remu'.split(),
            32: ['sub', None, None, None, None, 'sra', None, None]}
RESULTS = (0x03, 0x13, 0x17, 0x33, 0x37, 0x67, 0x6F)    # the lowest bits of instructions that have a result
LUI_T0 = 0x2B7          # the lowest 12 bits of `lui t0`
ADD_SP = 0x002282B3     # `add t0, t0, sp`


def _signed(value, bits):
    """A number of so many bits, as two's complement has it."""
    return value - (1 << bits) if value >> (bits - 1) else value


def _add_immediate(rd, rs, value):
    """ADDI, under the name that its use has."""
    if (rd, rs, value) == ('zero', 'zero', 0):
        return 'nop'
    if rs == 'zero':
        return 'li %s, %d' % (rd, value)
    if value == 0:
        return 'mv %s, %s' % (rd, rs)
    return 'addi %s, %s, %d' % (rd, rs, value)


def _immediate(word, rd, rs, kind, value):
    """An instruction with a register and an immediate number."""
    if kind in (1, 5):
        name = SHIFTS.get((kind, word >> 25))
        return name and '%s %s, %s, %d' % (name, rd, rs, word >> 20 & 31)
    return '%s %s, %s, %d' % (IMMEDIATE[kind], rd, rs, value) if kind else _add_immediate(rd, rs, value)


def _compute(word, rd, rs, other, kind):
    """An instruction with two registers."""
    name = COMPUTES.get(word >> 25, [None] * 8)[kind]
    return name and '%s %s, %s, %s' % (name, rd, rs, other)


def _branch(word, address, rs, other, kind):
    """A conditional branch."""
    offset = (word >> 31) << 12 | (word >> 7 & 1) << 11 | (word >> 25 & 63) << 5 | (word >> 8 & 15) << 1
    target = address + _signed(offset, 13)
    return BRANCHES.get(kind) and '%s %s, %s, 0x%05x' % (BRANCHES[kind], rs, other, target)


def _jump(word, address, rd, names):
    """JAL, with the name of the function at its target if it has one."""
    offset = (word >> 31) << 20 | (word >> 12 & 255) << 12 | (word >> 20 & 1) << 11 | (word >> 21 & 1023) << 1
    target = address + _signed(offset, 21)
    shown = names.get(target, '0x%05x' % target)
    return 'j ' + shown if rd == 'zero' else 'jal %s, %s' % (rd, shown)


def _known(word, address, names):
    """The instruction that a word is, or None."""
    rd, rs, other = (REGISTERS[word >> low & 31] for low in (7, 15, 20))
    kind = word >> 12 & 7
    value = _signed(word >> 20, 12)
    offset = _signed((word >> 25) << 5 | (word >> 7 & 31), 12)
    return {
        0x37: lambda: 'lui %s, 0x%x' % (rd, word >> 12),
        0x17: lambda: 'auipc %s, 0x%x' % (rd, word >> 12),
        0x6F: lambda: _jump(word, address, rd, names),
        0x67: lambda: 'ret' if word == 0x8067 else not kind and 'jalr %s, %d(%s)' % (rd, value, rs),
        0x63: lambda: _branch(word, address, rs, other, kind),
        0x03: lambda: kind in LOADS and '%s %s, %d(%s)' % (LOADS[kind], rd, value, rs),
        0x23: lambda: kind in STORES and '%s %s, %d(%s)' % (STORES[kind], other, offset, rs),
        0x13: lambda: _immediate(word, rd, rs, kind, value),
        0x33: lambda: _compute(word, rd, rs, other, kind),
        0x73: lambda: {0x73: 'ecall', 0x100073: 'ebreak'}.get(word),
    }.get(word & 127, lambda: None)()


def result(word):
    """The number of the register in which an instruction has its result, or None."""
    return word >> 7 & 31 if word & 127 in RESULTS and _known(word, 0, {}) else None


def _stored(word, base):
    """The offset behind a register at which an instruction stores a word, or None."""
    if word & 127 == 0x23 and word >> 12 & 7 == 2 and word >> 15 & 31 == base:
        return _signed((word >> 25) << 5 | (word >> 7 & 31), 12)
    return None


def slot(words, index):
    """How far behind sp the word of an index stores a word, if it does: at once, or behind t0, set by the two before."""
    near, far = (_stored(words[index], base) for base in (2, 5))
    if near is not None:
        return near % 2 ** 32
    if far is None or index < 2 or words[index - 1] != ADD_SP or words[index - 2] & 0xFFF != LUI_T0:
        return None
    return ((words[index - 2] & 0xFFFFF000) + far) % 2 ** 32


def spell(word, address, names=None):
    """The instruction at an address, or `.word` where it is none; `names` has the names of functions by their addresses."""
    return _known(word, address, names or {}) or '.word 0x%08x' % word
