"""A model of document 01 in plain Python: the list, with good form, calls, moves, listing and refusals.

It was written from the document and shares nothing with the crates, so that the two can be held against each other.
schedules.py has the schedule program's side of it, probe_layout.py the probe's.
"""
import copy

UNUSED, END, ITEM, SPLICE = range(4)
HEAD, HEAD_NEXT, TAIL, TAIL_NEXT = range(4)
CALLS = ADD, REMOVE, CONTAINS = 0, 1, 2
PLACES = IDLE, WALK, SKIP, ADDSWAP, MARK, REREAD, CLEAN, BACK, LOOK = tuple(range(9))
CALL_NAMES = ('add', 'remove', 'contains')
PLACE_NAMES = ('idle', 'WALK', 'SKIP', 'ADDSWAP', 'MARK', 'REREAD', 'CLEAN', 'BACK', 'LOOK')
MOST_PARTIES, LEAST_ROWS, MOST_ROWS, MOST_MOVES = 16, 4, 4096, 16777216

VALUES = ('p', 'n', 'c', 's', 'r')
# Which of these values each place keeps; a REMOVE that is marked keeps r everywhere besides.
KEPT = {IDLE: '', WALK: 'pnc', SKIP: 'pnc', ADDSWAP: 'pn', MARK: 'pncs', REREAD: 'pnc', CLEAN: 'pnr', BACK: 'p', LOOK: 'c'}
REACHED = {ADD: (WALK, SKIP, ADDSWAP, BACK), REMOVE: (WALK, MARK, REREAD, CLEAN, BACK), CONTAINS: (LOOK,)}


class Party:
    """One party record; unpublished is 0 or 1 and speaks of own."""
    def __init__(self, place=IDLE, call=0, key=0, p=0, n=0, c=0, s=0, r=0, own=0, unpublished=0):
        self.place, self.call, self.key = place, call, key
        self.p, self.n, self.c, self.s, self.r = p, n, c, s, r
        self.own, self.unpublished = own, unpublished

    def marked(self):
        return self.place != IDLE and self.call == REMOVE and not self.unpublished

    def keeps(self, value):
        return self.place in KEPT and value in KEPT[self.place] or value == 'r' and self.marked()


class State:
    """The four columns, the number of parties P, of rows taken T, the tallies, and the party table."""
    def __init__(self, rows, parties):
        self.kind, self.key, self.next, self.back = ([0] * rows for _ in range(4))
        for row, following in enumerate((HEAD_NEXT, TAIL, TAIL_NEXT, TAIL_NEXT)[:rows]):
            self.kind[row], self.next[row] = END, following
        self.P, self.T = parties, 4
        self.moves = self.won = self.lost = 0
        self.parties = [Party() for _ in range(MOST_PARTIES)]

    def columns(self):
        return self.kind, self.key, self.next, self.back

    def copy(self):
        other = copy.copy(self)
        other.kind, other.key, other.next, other.back = (list(column) for column in self.columns())
        other.parties = [copy.copy(party) for party in self.parties]
        return other

    def splice(self, row):
        return self.kind[row] == SPLICE

    def order(self, row):
        """Something that compares as document 01 orders rows: splices, rows 0 and 1, items by key, rows 2 and 3."""
        if self.splice(row):
            return (0, 0)
        if self.kind[row] == ITEM:
            return (3, self.key[row])
        return ((1, 0), (2, 0), (4, 0), (5, 0))[row]

    def below(self, row, key):
        return self.order(row) < (3, key)

    def equals(self, row, key):
        return self.order(row) == (3, key)


# ---- good form

def form_faults(state):
    """The parts of the good-form sentence that a state with equal columns breaks, each by a short name."""
    rows, T = len(state.kind), state.T
    if not 4 <= T <= rows:
        return {'T'}  # the parts on rows mean nothing without it
    faults = set()

    def need(part, holds):
        if not holds:
            faults.add(part)
    need('ends', all(kind == END for kind in state.kind[:4]))
    need('taken', all(kind in (ITEM, SPLICE) for kind in state.kind[4:T]))
    need('untaken', not any(any(column[T:]) for column in state.columns()))
    need('next', all(row < T for row in state.next))
    need('back', all(row < T for row in state.back))
    need('P', 1 <= state.P <= MOST_PARTIES)
    need('tallies', state.won + state.lost <= state.moves)
    need('limit', state.moves <= MOST_MOVES)
    for number, party in enumerate(state.parties):
        need('numbers', all(getattr(party, name) < T for name in VALUES + ('own',)))
        need('kept', all(party.keeps(name) or getattr(party, name) == 0 for name in VALUES))
        own_faults(party, need)
        # P itself may be out of range, and then says nothing about who is beyond it
        need('beyond', number < state.P or 'P' in faults or party.place == IDLE and party.own == 0)
    return faults


def own_faults(party, need):
    """What good form asks of the place, the call and own together."""
    if party.place != IDLE:
        need('reach', party.place in REACHED[party.call])
    if party.place in (IDLE, LOOK):
        need('spare', (party.own >= 4 and party.unpublished) or (party.own == 0 and not party.unpublished))
    if party.place != IDLE and party.call in (ADD, REMOVE):
        need('own', party.own >= 4)
    if party.place == CLEAN or (party.place == BACK and party.call == REMOVE):
        need('published', not party.unpublished)
    if party.place in (MARK, REREAD) or party.place not in (IDLE, CLEAN) and party.call == ADD:
        need('unpublished', party.unpublished)


# ---- one call, one move

def begin(state, me, call, key):
    """A call: no access. An ADD or REMOVE works with its spare, or with the next row."""
    me.call, me.key = call, key
    if call == CONTAINS:
        me.place, me.c = LOOK, HEAD_NEXT
        return
    if not me.own:
        me.own, me.unpublished = state.T, 1
        state.T += 1
    write_row(state, me.own, ITEM, key, 0, 0)
    me.place, me.p, me.n, me.c = WALK, HEAD, HEAD_NEXT, HEAD_NEXT


def write_row(state, row, kind, key, following, back):
    state.kind[row], state.key[row], state.next[row], state.back[row] = kind, key, following, back


def swap(state, row, expected, new):
    """Whether the swap on the row's next was won; a lost one writes nothing but its tally."""
    if state.next[row] != expected:
        state.lost += 1
        return False
    state.next[row] = new
    state.won += 1
    return True


def make_move(state, me):
    """One access and the local work behind it; the answer, or None while there is none."""
    answer = (None, walk, skip, addswap, mark, reread, clean, go_back, look)[me.place](state, me)
    state.moves += 1
    if answer is not None:
        me.place, me.call, me.key = IDLE, 0, 0
        if not me.unpublished:
            me.own = 0
    for name in VALUES:
        if not me.keeps(name):
            setattr(me, name, 0)
    return answer


def walk(state, me):
    me.s = state.next[me.c]
    if not state.below(me.c, me.key):
        return land(state, me)
    if state.splice(me.s):
        me.c = state.next[me.s]
    else:
        me.p, me.n, me.c = me.c, me.s, me.s


def land(state, me):
    if me.call == ADD:
        if state.splice(me.s):
            me.c, me.place = state.next[me.s], SKIP
        elif state.equals(me.c, me.key):
            return 'no'
        else:
            prepare(state, me)
    elif me.marked():
        if me.s != me.own:
            return 'yes'
        me.place = CLEAN
    else:
        if not state.equals(me.c, me.key) or state.splice(me.s):
            return 'no'
        write_row(state, me.own, SPLICE, 0, me.s, me.p)
        me.place = MARK


def prepare(state, me):
    state.next[me.own], me.place = me.c, ADDSWAP


def skip(state, me):
    me.s = state.next[me.c]
    if state.splice(me.s):
        me.c = state.next[me.s]
    else:
        prepare(state, me)


def addswap(state, me):
    if swap(state, me.p, me.n, me.own):
        me.unpublished = 0
        return 'yes'
    me.place = BACK


def mark(state, me):
    if swap(state, me.c, me.s, me.own):
        me.unpublished, me.r, me.place = 0, me.s, CLEAN
    else:
        me.place = REREAD


def reread(state, me):
    me.s = state.next[me.c]
    if state.splice(me.s):
        return 'no'
    state.next[me.own], me.place = me.s, MARK


def clean(state, me):
    if swap(state, me.p, me.n, me.r):
        return 'yes'
    me.place = BACK


def go_back(state, me):
    me.n = state.next[me.p]
    if state.splice(me.n):
        me.p = state.back[me.n]
    else:
        me.c, me.place = me.n, WALK


def look(state, me):
    me.s = state.next[me.c]
    if state.below(me.c, me.key):
        me.c = state.next[me.s] if state.splice(me.s) else me.s
        return None
    return 'yes' if state.equals(me.c, me.key) and not state.splice(me.s) else 'no'


def live_keys(state):
    """The live keys on the chain from row 1, or None where it does not rise strictly to row 2."""
    keys, row = [], HEAD_NEXT
    while row != TAIL:
        following = state.next[row]
        if state.kind[row] == ITEM and not state.splice(following):
            keys.append(state.key[row])
        if state.splice(following):
            following = state.next[following]
        if state.order(following) <= state.order(row):
            return None
        row = following
    return keys


# ---- refusals, in the order of each entry

def column_refusal(state):
    lengths = {len(column) for column in state.columns()}
    return 0 if len(lengths) == 1 and LEAST_ROWS <= lengths.pop() <= MOST_ROWS else 1


def form_refusal(state):
    return column_refusal(state) or (3 if form_faults(state) else 0)


def call_refusal(state, number, code):
    """What a call on a state of good form is refused with, or 0."""
    if number >= state.P:
        return 4
    me = state.parties[number]
    if me.place != IDLE:
        return 5
    if code not in CALLS:
        return 6
    return 7 if code != CONTAINS and not me.own and state.T == len(state.kind) else 0


def move_refusal(state, number):
    """What a move on a state of good form is refused with, or 0."""
    if number >= state.P:
        return 4
    if state.parties[number].place == IDLE:
        return 8
    return 9 if state.moves == MOST_MOVES else 0


def set_up_refusal(state, parties):
    return column_refusal(state) or (0 if 1 <= parties <= MOST_PARTIES else 2)


def list_refusal(state, places):
    refusal = form_refusal(state)
    if refusal:
        return refusal
    keys = live_keys(state)
    return 3 if keys is None else 10 if places < len(keys) else 0
