"""The schedule program's side of the model: what it reads, and its whole output for any text."""
import re

from model import CALL_NAMES, State, begin, call_refusal, live_keys, make_move, move_refusal

MOST_BYTES = 65536
# No number in a schedule that keeps the rules has more than five digits, so a longer one breaks them wherever it stands.
NUMBER = rb'(0|[1-9][0-9]{0,4})'
LINES = {b'parties': rb'parties=#', b'nodes': rb'nodes=#', b'order': rb'order=(big|little)',
         b'call': rb'call=# (add|remove|contains) ([0-9a-fA-F]{8})', b'step': rb'step=#', b'end': rb'end=#'}
LINES = {name: re.compile(form.replace(b'#', NUMBER)) for name, form in LINES.items()}
RIGHT = {b'parties': range(1, 17), b'nodes': (0, *range(4, 4097)), b'call': range(100), b'step': range(100)}
HEAD_LINES, LATER_LINES = (b'parties', b'nodes', b'order'), (b'call', b'step', b'end')


def read(text):
    """(parties, rows, order, lines) of a schedule, or the number of its first bad line."""
    whole = text.split(b'\n')
    loose = whole.pop()  # what follows the last LF is no line
    head, lines = [], []
    for number, line in enumerate(whole, 1):
        name = line.split(b'=')[0]
        due = name == HEAD_LINES[number - 1] if number <= 3 else name in LATER_LINES
        found = LINES[name].fullmatch(line) if due else None
        if not found or name in RIGHT and int(found[1]) not in RIGHT[name]:
            return number
        if name == b'end':
            if int(found[1]) != len(lines):
                return number
            return number + 1 if loose or number < len(whole) else (*read_head(head), lines)
        (head if number <= 3 else lines).append(found.groups())
    return len(whole) + 1


def read_head(head):
    (parties,), (nodes,), (order,) = head
    return int(parties), int(nodes) or 64, order.decode()


def replay(text):
    """What the schedule program writes for a text."""
    schedule = 0 if len(text) > MOST_BYTES else read(text)
    if isinstance(schedule, int):
        return b'bad=%d\n' % schedule
    parties, rows, order, lines = schedule
    state, said = State(rows, parties), []
    for number, line in enumerate(lines, 4):
        run_line(state, order, number, line, said)
    said += ['key=%d' % key for key in live_keys(state)]
    said += ['moves=%d' % state.moves, 'won=%d' % state.won, 'lost=%d' % state.lost, 'taken=%d' % state.T]
    return ''.join(line + '\n' for line in said).encode()


def run_line(state, order, number, line, said):
    """One call or step line. Good form is not asked for: set-up has it, and nothing that is accepted loses it."""
    party = int(line[0])
    if len(line) == 3:
        call = CALL_NAMES.index(line[1].decode())
        refusal = call_refusal(state, party, call)
        if not refusal:
            begin(state, state.parties[party], call, int.from_bytes(bytes.fromhex(line[2].decode()), order))
    else:
        refusal = move_refusal(state, party)
        if not refusal:
            me = state.parties[party]
            asked = CALL_NAMES[me.call], me.key  # an answer leaves the party idle, without them
            answer = make_move(state, me)
            if answer:
                said.append('answer=%d %s %d %s' % (party, *asked, answer))
    if refusal:
        said.append('refused=%d %d' % (number, refusal))
