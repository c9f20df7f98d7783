"""States and questions for the probe: noise, damaged, of plausible shape, nearly and wholly of good form, and grown."""
from model import (ADD, BACK, CALL_NAMES, CLEAN, CONTAINS, IDLE, ITEM, LOOK, MARK, MOST_MOVES, REACHED, REMOVE, REREAD,
                   SPLICE, VALUES, Party, State, begin, call_refusal, make_move, move_refusal)
from probe_layout import CALL, LISTING, MOVE, SET_UP, Question, pack

KINDS = ('noise', 'damaged', 'plausible', 'nearly good form', 'good form', 'grown', 'chain')
KEYS = (0, 1, 2, 3, 4, 5, 2147483647, 2147483648, 4294967295)
HUGE = (17, 255, 256, 65536, 4294967295)


def questions(chance, kind):
    """The bytes of some questions of a kind; chance is a random.Random."""
    if kind == 'noise':
        return [noise(chance) for _ in range(4)]
    state = make(chance, kind)
    asked = [pack(question) for question in four(chance, state)]
    return [damaged(chance, data) for data in asked] if kind == 'damaged' else asked


def make(chance, kind):
    """A state of a kind."""
    if kind == 'plausible':
        return plausible(chance)
    if kind == 'grown' or chance.random() < 0.3:
        state = grown(chance)
    else:
        state = good_form(chance)
    if kind == 'nearly good form':
        for _ in range(chance.choice((1, 1, 1, 2))):
            nudge(chance, state)
    return state


# ---- questions

def four(chance, state):
    """Each of the four questions once."""
    busy = [number for number, party in enumerate(state.parties) if party.place != IDLE]
    idle = [number for number in range(min(state.P, 16)) if number not in busy]
    places = chance.choice((0, 1, 2, len(state.kind) % 4201, chance.randint(0, 30)))
    key = chance.choice(KEYS)
    return [Question(SET_UP, chance.choice((0, 1, 2, 15, 16) + HUGE), 0, key, chance.randint(0, 3), state),
            Question(CALL, someone(chance, idle, state), chance.choice((0, 0, 1, 1, 2, 2, 3) + HUGE[3:]), key, 0, state),
            Question(MOVE, someone(chance, busy, state), chance.randint(0, 3), key, chance.randint(0, 3), state),
            Question(LISTING, chance.choice((0, state.P)), 0, key, places, state)]


def someone(chance, likely, state):
    """Mostly one of the likely parties, else any party, else any number."""
    if likely and chance.random() < 0.85:
        return chance.choice(likely)
    return chance.choice((chance.randrange(max(1, min(state.P, 16))),) * 4 + (chance.randrange(16), state.P, chance.choice(HUGE)))


# ---- bytes

def noise(chance):
    size = chance.choice((0, 1, 15, 43, 362, 363, 363 + 36, chance.randint(0, 600)))
    if chance.random() < 0.5:
        return chance.randbytes(size)
    data = bytearray(size)  # zeros are nearer to a question
    for _ in range(chance.randint(0, 8) if size else 0):
        data[chance.randrange(size)] = chance.randrange(256)
    return bytes(data)


def damaged(chance, data):
    data = bytearray(data)
    for _ in range(chance.randint(1, 3)):
        choice = chance.randrange(8)
        if choice == 0:
            del data[chance.randrange(len(data) + 1):]
        elif choice == 1:
            data += chance.randbytes(chance.choice((1, 2, 9)))
        elif data:
            data[chance.randrange(len(data))] = chance.choice((0, 1, 2, 3, 4, 255, chance.randrange(256)))
    return bytes(data)


# ---- states not of good form

def plausible(chance):
    """Small random numbers everywhere; the columns mostly agree."""
    rows = chance.choice((0, 3, 4, 5, 8, 12))
    state = State(rows, chance.choice((0, 1, 2, 3, 16, 17, 255)))
    state.T = chance.choice((0, 3, 4, rows, rows + 1, 65535))
    for row in range(rows):
        if row >= 4 or chance.random() < 0.1:
            state.kind[row], state.key[row] = chance.randrange(5), chance.choice(KEYS)
            state.next[row], state.back[row] = chance.randrange(rows + 1), chance.randrange(rows + 1)
    state.moves, state.won, state.lost = (chance.choice((0, 1, 9, MOST_MOVES, 4294967295)) for _ in range(3))
    for number in range(16):
        if chance.random() < 0.3:
            place = chance.randrange(9)
            numbers = [chance.choice((0, 0, chance.randint(0, 12))) for _ in range(6)]
            call, key = (chance.randrange(3), chance.choice(KEYS)) if place else (0, 0)
            state.parties[number] = Party(place, call, key, *numbers, chance.randrange(2))
    if chance.random() < 0.2:
        column = chance.choice(state.columns())
        column.append(0) if chance.random() < 0.5 or not column else column.pop()
    return state


def nudge(chance, state):
    """One number of a state changed a little, or to a limit."""
    choice = chance.randrange(4)
    if choice == 0:
        name = chance.choice(('P', 'T', 'moves', 'won', 'lost'))
        most = {'P': 255, 'T': 65535}.get(name, 4294967295)
        near = getattr(state, name) + chance.choice((-1, 1))
        wrapped = 2**32 - max(1, state.lost if name == 'won' else state.won)  # with the other it makes 0 in 32 bits
        setattr(state, name, max(0, min(most, chance.choice((near, near, 0, 3, 17, MOST_MOVES + 1, most, wrapped)))))
    elif choice == 1:
        name, row = chance.choice(('kind', 'key', 'next', 'back')), chance.randrange(len(state.kind))
        getattr(state, name)[row] = chance.choice((0, 1, 2, 3, 4, state.T - 1, state.T)) % (256 if name == 'kind' else 65536)
    else:
        number = chance.choice((chance.randrange(16), chance.randrange(max(1, min(state.P, 16)))))
        nudge_party(chance, state, state.parties[number])


def nudge_party(chance, state, party):
    name = chance.choice(('place', 'call', 'unpublished', 'own') + VALUES)
    if name == 'place':
        party.place = chance.randrange(9)
    elif name == 'call':
        party.call = chance.randrange(3)
    elif name == 'unpublished':
        party.unpublished ^= 1
    else:
        setattr(party, name, chance.choice((0, 1, 3, 4, state.T - 1, state.T)) % 65536)
    if party.place == IDLE:
        party.call = party.key = 0  # else it would be no question


# ---- states of good form

def good_form(chance):
    """Good form and nothing more: nexts, backs and party records point anywhere below T."""
    rows = chance.choice((4, 5, 6, 8, 12, 12, 24, 24, 100) + (4096,) * (chance.random() < 0.05))
    state = State(rows, chance.choice((1, 2, 3, 5, 16)))
    state.T = chance.choice((rows, chance.randint(4, rows), min(rows, chance.randint(4, 24))))
    for row in range(4, state.T):
        state.kind[row], state.key[row] = chance.choice((ITEM, ITEM, SPLICE)), chance.choice(KEYS + (chance.getrandbits(32),))
        state.back[row] = chance.choice((0, chance.randrange(state.T)))
    for row in range(state.T):
        state.next[row] = chance.randrange(state.T)
    if chance.random() < 0.6:
        string_up(chance, state)
    for number in range(state.P):
        state.parties[number] = party_of_good_form(chance, state.T)
    state.moves = chance.choice((0, 7, 1000, MOST_MOVES - 1, MOST_MOVES))
    state.won = chance.choice((0, state.moves, chance.randint(0, state.moves)))
    state.lost = chance.choice((0, state.moves - state.won))
    return state


def string_up(chance, state):
    """Makes the chain from row 1 rise to row 2, here and there through a splice."""
    items = sorted({state.key[row]: row for row in range(4, state.T) if state.kind[row] == ITEM}.items())
    splices = [row for row in range(4, state.T) if state.kind[row] == SPLICE]
    row = 1
    for following in [row for _, row in items if chance.random() < 0.8] + [2]:
        if splices and chance.random() < 0.3:
            splice = splices.pop()
            state.next[row], state.next[splice] = splice, following
        else:
            state.next[row] = following
        row = following


def party_of_good_form(chance, T):
    """A party at a random place with random values where the place keeps them."""
    if T == 4 or chance.random() < 0.3:
        party = Party(*chance.choice(((IDLE,), (LOOK, CONTAINS, chance.choice(KEYS)))))
    else:
        call = chance.choice((ADD, ADD, REMOVE, REMOVE, REMOVE, CONTAINS))
        party = Party(chance.choice(REACHED[call]), call, chance.choice(KEYS))
    if T > 4 and (party.place not in (IDLE, LOOK) or chance.random() < 0.5):
        party.own, party.unpublished = chance.randrange(4, T), 1
        if party.call == REMOVE and party.place not in (MARK, REREAD):
            party.unpublished = 0 if party.place in (CLEAN, BACK) else chance.randrange(2)
    for name in VALUES:
        if party.keeps(name):
            setattr(party, name, chance.randrange(T))
    return party


def grown(chance):
    """What a random history makes of set-up, few keys and many meetings."""
    state = State(chance.choice((4, 5, 6, 8, 16, 40)), chance.choice((1, 2, 3, 4, 16)))
    keys = chance.sample(KEYS, chance.randint(1, 4))
    for _ in range(chance.choice((0, 5, 30, 120))):
        number = chance.randrange(state.P)
        call = chance.randrange(len(CALL_NAMES))
        if not move_refusal(state, number):
            make_move(state, state.parties[number])
        elif not call_refusal(state, number, call):
            begin(state, state.parties[number], call, chance.choice(keys))
    return state
