"""The probe's side of the model: its byte layout, the whole answer to any bytes, and what must hold of every answer."""
import struct

from model import (CALLS, IDLE, PLACES, Party, State, begin, call_refusal, form_refusal, list_refusal, live_keys,
                   make_move, move_refusal, set_up_refusal)

ASK_FORMAT, NUMBERS_FORMAT, RECORD_FORMAT = '<BIIIH', '<4H5I', '<BBIHHHHHHBB'
STATE_AT, RECORDS_AT, TABLE_AT, MOST_LENGTH = 15, 43, 363, 4200
COLUMN_CODES = 'BIHH'
UNTOUCHED = 0xEEEEEEEE
NO_QUESTION = b'\xff'
SET_UP, CALL, MOVE, LISTING = range(4)
ANSWERS = (None, 'yes', 'no')


class Question:
    """What the probe is asked, and the state it is asked on."""
    def __init__(self, what, number, code, key, places, state):
        self.what, self.number, self.code, self.key, self.places, self.state = what, number, code, key, places, state


# ---- bytes

def pack_state(state):
    """Everything from offset 15 on."""
    lengths = [len(column) for column in state.columns()]
    parts = [struct.pack(NUMBERS_FORMAT, *lengths, state.P, state.T, state.moves, state.won, state.lost)]
    for party in state.parties:
        parts.append(struct.pack(RECORD_FORMAT, party.place, party.call, party.key, party.p, party.n, party.c,
                                 party.s, party.r, party.own, party.unpublished, 0))
    for code, column in zip(COLUMN_CODES, state.columns()):
        parts.append(struct.pack('<%d%s' % (len(column), code), *column))
    return b''.join(parts)


def pack(asked):
    return struct.pack(ASK_FORMAT, asked.what, asked.number, asked.code, asked.key, asked.places) + pack_state(asked.state)


def unpack(data):
    """The question in these bytes, or None where they do not fit the layout."""
    if len(data) < TABLE_AT:
        return None
    what, number, code, key, places = struct.unpack_from(ASK_FORMAT, data)
    *lengths, P, T, moves, won, lost = struct.unpack_from(NUMBERS_FORMAT, data, STATE_AT)
    state = State(0, P)
    state.T, state.moves, state.won, state.lost = T, moves, won, lost
    state.parties = unpack_parties(data)
    if what > LISTING or places > MOST_LENGTH or P > 255 or T > 65535 or not state.parties:
        return None
    return Question(what, number, code, key, places, state) if unpack_columns(data, lengths, state) else None


def unpack_parties(data):
    """The sixteen records, or None where one of them does not fit."""
    parties = []
    for *fields, zero in struct.iter_unpack(RECORD_FORMAT, data[RECORDS_AT:TABLE_AT]):
        party = Party(*fields)
        idle_at_work = party.place == IDLE and (party.call or party.key)
        if party.place not in PLACES or party.call not in CALLS or idle_at_work or party.unpublished > 1 or zero:
            return None
        parties.append(party)
    return parties


def unpack_columns(data, lengths, state):
    """Puts the columns into the state; whether they fit, and end where the bytes do."""
    table = '<' + ''.join('%d%s' % pair for pair in zip(lengths, COLUMN_CODES))
    if max(lengths) > MOST_LENGTH or len(data) != TABLE_AT + struct.calcsize(table):
        return False
    numbers = iter(struct.unpack_from(table, data, TABLE_AT))
    state.kind, state.key, state.next, state.back = ([next(numbers) for _ in range(length)] for length in lengths)
    return True


# ---- answers

def probe(data):
    """The whole answer of the probe to these bytes."""
    asked = unpack(data)
    if asked is None:
        return NO_QUESTION
    refusal, answer, keys, state = put(asked)
    places = keys + [UNTOUCHED] * (asked.places - len(keys))
    said = struct.pack('<BBH', refusal, ANSWERS.index(answer), len(keys))
    return said + struct.pack('<%dI' % len(places), *places) + pack_state(state)


def put(asked):
    """The refusal or 0, the answer, the keys listed, and the state afterwards; the question's own state stays."""
    state = asked.state
    if asked.what == SET_UP:
        refusal = set_up_refusal(state, asked.number)
        return (refusal, None, [], state) if refusal else (0, None, [], State(len(state.kind), asked.number))
    if asked.what == LISTING:
        refusal = list_refusal(state, asked.places)
        return refusal, None, [] if refusal else live_keys(state), state
    refusal = form_refusal(state)
    if not refusal:
        by_call = asked.what == CALL
        refusal = call_refusal(state, asked.number, asked.code) if by_call else move_refusal(state, asked.number)
    if refusal:
        return refusal, None, [], state
    state = state.copy()
    me = state.parties[asked.number]
    if asked.what == CALL:
        begin(state, me, asked.code, asked.key)
        return 0, None, [], state
    return 0, make_move(state, me), [], state


class Answer:
    """The parts of an answer of the right length: the state stands behind four bytes and the places asked for."""
    def __init__(self, question, data):
        count = int.from_bytes(question[13:15], 'little')
        self.refusal, self.said, self.listed = struct.unpack_from('<BBH', data)
        self.places = [number for number, in struct.iter_unpack('<I', data[4:4 + 4 * count])]
        self.state_bytes = data[4 + 4 * count:]


def again(question, answer, what, number):
    """The question that puts the state of an answer in once more."""
    return struct.pack('<BI', what, number) + question[5:STATE_AT] + answer.state_bytes


def wrong_with(question, data):
    """What is wrong with an answer for any question, told without the model; '' if nothing is."""
    if data == NO_QUESTION:
        return ''
    if len(question) < TABLE_AT:
        return 'an answer to bytes that are no question'
    due = 4 + 4 * int.from_bytes(question[13:15], 'little') + len(question) - STATE_AT
    if len(data) != due:
        return '%d bytes where %d are due' % (len(data), due)
    answer = Answer(question, data)
    if answer.refusal and answer.state_bytes != question[STATE_AT:]:
        return 'refused with %d, and the state is not as it came' % answer.refusal
    if answer.refusal and (answer.said or answer.listed):
        return 'refused with %d, and yet there is an answer or a listing' % answer.refusal
    if question[0] == LISTING and answer.state_bytes != question[STATE_AT:]:
        return 'a listing has changed the state'
    if answer.listed > len(answer.places) or any(place != UNTOUCHED for place in answer.places[answer.listed:]):
        return 'places written beyond the %d keys listed' % answer.listed
    return ''


def first_difference(got, due):
    if got == due:
        return ''
    if len(got) != len(due):
        return 'not what the model says: %d bytes where %d are due' % (len(got), len(due))
    at = next(i for i in range(len(due)) if got[i] != due[i])
    return 'not what the model says: byte %d is %d and should be %d' % (at, got[at], due[at])
