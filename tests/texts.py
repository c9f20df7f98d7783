"""Texts to attack the schedule program with, well-formed, damaged, at limits or noise, and the shape of an output."""
import functools
import glob
import os
import re

from model import CALL_NAMES
from programs import ROOT
from schedules import MOST_BYTES

KINDS = ('well-formed', 'damaged', 'limits', 'damaged twice', 'noise', 'largest')
KEYS = (0, 1, 2, 3, 5, 8, 255, 256, 2147483647, 2147483648, 4294967294, 4294967295)


# ---- texts

def make(chance, kind):
    """A text of a kind; chance is a random.Random."""
    if kind == 'well-formed':
        return well_formed(chance)
    if kind == 'noise':
        return noise(chance)
    if kind == 'largest':
        return largest(chance)
    if kind == 'limits':
        return limits(chance)
    text = chance.choice(stored()) if chance.random() < 0.3 else well_formed(chance)
    for _ in range(1 if kind == 'damaged' else 2):
        text = chance.choice(DAMAGES)(chance, text)
    return text


def well_formed(chance):
    parties = chance.choice((1, 2, 2, 3, 4, 8, 16, chance.randint(1, 16)))
    nodes = chance.choice((0, 4, 5, 6, 8, 16, 64, 4096, chance.randint(4, 4096)))
    order = chance.choice(('big', 'little'))
    keys = chance.sample(KEYS, chance.randint(1, 4)) if chance.random() < 0.8 else [chance.getrandbits(32) for _ in range(9)]
    count = chance.choice((0, chance.randint(1, 20), chance.randint(20, 200), chance.randint(200, 1500)))
    lines = [line(chance, parties, order, keys) for _ in range(count)]
    return text_of(['parties=%d' % parties, 'nodes=%d' % nodes, 'order=' + order] + lines + ['end=%d' % count])


@functools.lru_cache
def stored():
    """The shorter ones of the schedules that the project keeps, to be damaged."""
    texts = [b'']
    patterns = ('schedules', '*.txt'), ('crates', 'vectors', 'data', '*.in')
    for file in sorted(file for pattern in patterns for file in glob.glob(os.path.join(ROOT, *pattern))):
        if os.path.getsize(file) < 5000:
            with open(file, 'rb') as text:
                texts.append(text.read())
    return texts


def line(chance, parties, order, keys):
    """A call or a step; now and then of a party that is not there."""
    party = chance.randrange(parties) if chance.random() < 0.97 else chance.choice((parties, 16, 99))
    if chance.random() < 0.75:
        return 'step=%d' % party
    digits = chance.choice(keys).to_bytes(4, order).hex()
    digits = ''.join(chance.choice((digit, digit.upper())) for digit in digits)
    return 'call=%d %s %s' % (party, chance.choice(CALL_NAMES), digits)


def text_of(lines):
    return ''.join(line + '\n' for line in lines).encode()


def noise(chance):
    alphabet = chance.choice((bytes(range(256)), bytes(range(32, 127)) + b'\n', b'0123456789=\n', b'parties=nodorcl0123 \n'))
    start = chance.choice((b'', b'parties=2\n', b'parties=2\nnodes=0\norder=big\n'))
    return start + bytes(chance.choice(alphabet) for _ in range(chance.choice((0, 1, 5, 80, 400))))


def largest(chance):
    """A well-formed text of about the most bytes that are read, some of them one too long or damaged at the end."""
    size = MOST_BYTES + chance.choice((-1, 0, 0, 1))
    head = b'parties=%d\nnodes=%d\norder=big\ncall=0 add 00000005\n' % (chance.randint(1, 16), chance.choice((0, 4, 4096)))
    filling = size - len(head) - len(b'end=9999\n')
    steps = chance.randint(-(-filling // 8), filling // 7)
    longer = filling - 7 * steps  # `step=10` has a byte more than `step=0`
    lines = ['step=10'] * longer + ['step=0'] * (steps - longer)
    chance.shuffle(lines)
    text = head + text_of(lines + ['end=%d' % (steps + 1)])
    return text if chance.random() < 0.7 else text[:-1] + chance.choice((b'', b' ', b'\n\n', b'\x00'))


# What stands at and over the limits of each line's number, and what would be right if it were cut to 8, 16 or 32 bits.
LIMITS = {b'parties': (0, 1, 16, 17, 256 + 2, 65536 + 2, 2**32 + 2),
          b'nodes': (0, 1, 2, 3, 4, 4096, 4097, 65536 + 64, 2**32 + 64),
          b'call': (0, 16, 99, 100, 256, 65536, 2**32), b'step': (0, 16, 99, 100, 256, 65536, 2**32)}
ASIDE = (-1, 1, 256, 65536, 2**32, 2**64)


def limits(chance):
    """A well-formed text with one number at a limit, or an `end=` that is aside of the count."""
    text = well_formed(chance)
    name = chance.choice((*LIMITS, b'end'))
    spots = [found.span(1) for found in re.finditer(rb'^%b=([0-9]+)' % name, text, re.MULTILINE)]
    if not spots:
        return text
    start, end = chance.choice(spots)
    other = chance.choice(LIMITS[name]) if name in LIMITS else max(0, int(text[start:end]) + chance.choice(ASIDE))
    return text[:start] + b'%d' % other + text[end:]


# ---- damages

def flip(chance, text):
    at = chance.randrange(len(text) + 1)
    return text[:at] + bytes([chance.randrange(256)]) + text[at + 1:]


def cut(chance, text):
    at = chance.randrange(len(text) + 1)
    return chance.choice((text[:at], text[at:], text[:at] + text[at + chance.randint(1, 9):]))


def no_last_lf(chance, text):
    return text[:-1]


def insert(chance, text):
    """A byte or word that has no business there."""
    at = chance.choice((0, len(text), chance.randrange(len(text) + 1)))
    piece = chance.choice((b'\x00', b'\r', b'\n', b' ', b'\t', b'\xff', b'\xc3\xa9', b'0', b'+', b'-1', b'step=0\n'))
    return text[:at] + piece + text[at:]


def crlf(chance, text):
    return text.replace(b'\n', b'\r\n', chance.choice((1, -1)))


def number(chance, text):
    """Another number in the place of one: near a limit, huge, or badly written."""
    spots = [found.span() for found in re.finditer(rb'[0-9]+', text)]
    if not spots:
        return text
    start, end = chance.choice(spots[:3] + spots[-1:] + [chance.choice(spots)])
    other = chance.choice((b'0', b'1', b'3', b'4', b'16', b'17', b'99', b'100', b'4096', b'4097', b'65536', b'65537',
                           b'00', b'01', b'4294967295', b'4294967296', b'4294967297', b'18446744073709551616', b'9' * 400,
                           b'', b'1e1', b'0x1'))
    return text[:start] + other + text[end:]


def lines_changed(chance, text):
    """A line doubled, dropped, exchanged with another, in capitals, or with a space behind it."""
    lines = text.split(b'\n')
    at, other = chance.randrange(len(lines)), chance.randrange(len(lines))
    choice = chance.randrange(5)
    if choice == 0:
        lines.insert(at, lines[other])
    elif choice == 1:
        del lines[at]
    elif choice == 2:
        lines[at], lines[other] = lines[other], lines[at]
    else:
        lines[at] = lines[at].upper() if choice == 3 else lines[at] + b' '
    if chance.random() < 0.5 and len(lines) > 4:
        lines[-2] = b'end=%d' % (len(lines) - 5)  # the right count, so that the run is reached
    return b'\n'.join(lines)


def padded(chance, text):
    """So many bytes behind it that the text is of the largest length or over it."""
    size = MOST_BYTES + chance.choice((-1, 0, 1, 2, 5000))
    return (text + chance.choice((b'\n', b'step=0\n', b'\x00', b'x')) * size)[:size]


DAMAGES = (flip, flip, cut, no_last_lf, insert, crlf, number, number, lines_changed, lines_changed, padded)


# ---- outputs

N = rb'(?:0|[1-9][0-9]*)'
BAD = re.compile(rb'bad=%b\n' % N)
WHOLE = re.compile(rb'((?:answer=N (?:add|remove|contains) N (?:yes|no)\n|refused=N N\n)*)((?:key=N\n)*)'
                   rb'moves=(N)\nwon=(N)\nlost=(N)\ntaken=(N)\n'.replace(b'N', N))


def misshapen(text, output):
    """What is wrong with the form of an output, told without the model; '' if nothing is."""
    if BAD.fullmatch(output):
        return ''
    found, head = WHOLE.fullmatch(output), re.match(rb'parties=([0-9]+)\nnodes=([0-9]+)\n', text)
    if not found or not head:
        return 'neither a bad= line nor a whole output'
    keys = [int(key[4:]) for key in found[2].split()]
    moves, won, lost, taken = map(int, found.groups()[2:])
    parties, nodes = int(head[1]), int(head[2]) or 64
    if any(low >= high for low, high in zip(keys, keys[1:])) or keys and keys[-1] > 4294967295:
        return 'the keys do not rise'
    if lost > (parties - 1) * won or won + lost > moves:
        return 'more swaps lost than parties and won swaps allow, or more swaps than moves'
    if not 4 + len(keys) <= taken <= nodes:
        return 'taken is below what the keys need or over what there is'
    return ''
