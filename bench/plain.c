/* A plain version of the schedule program, for comparing speed: it reads a schedule on standard input and
   writes what came of it. It is written from document 01 with nothing proved and no test of good form.

   plain           replays the schedule once
   plain N         replays it N times into the same buffer and writes the last output
   plain make N    writes the benchmark's schedule, with nodes=N */

/* What it takes of the C library, declared here and not by headers, so that the toolchain's own clang, which has
   no headers, compiles it too. */
typedef unsigned char uint8_t;
typedef unsigned short uint16_t;
typedef unsigned int uint32_t;
typedef unsigned long size_t;
long read(int, void *, size_t);
long write(int, const void *, size_t);
void *memcpy(void *, const void *, size_t);
void *memset(void *, int, size_t);
int memcmp(const void *, const void *, size_t);
int strcmp(const char *, const char *);
size_t strlen(const char *);
int atoi(const char *);

enum { MOST_TEXT = 65536, MOST_ROWS = 4096, MOST_PARTIES = 16, MOST_MOVES = 16777216 };

/* ---- the list and the parties */

enum { UNUSED, END, ITEM, SPLICE };
enum { HEAD, HEAD_NEXT, TAIL, TAIL_NEXT };
enum { ADD, REMOVE, CONTAINS };
enum place { IDLE, WALK, SKIP, ADDSWAP, MARK, REREAD, CLEAN, BACK, LOOK };
enum said { NOTHING, YES, NO };

static uint8_t kind[MOST_ROWS];
static uint32_t key[MOST_ROWS];
static uint16_t next[MOST_ROWS];
static uint16_t back[MOST_ROWS];

struct party {
    enum place place;
    int call;
    uint32_t key;
    uint16_t p, n, c, s, r, own;
    int unpublished;
};

static struct party party[MOST_PARTIES];
static unsigned parties, rows, taken, moves, won, lost;

static void set_up(unsigned p, unsigned n) {
    memset(kind, 0, n * sizeof kind[0]);
    memset(key, 0, n * sizeof key[0]);
    memset(next, 0, n * sizeof next[0]);
    memset(back, 0, n * sizeof back[0]);
    memset(party, 0, sizeof party);
    for (int i = HEAD; i <= TAIL_NEXT; i++) kind[i] = END;
    next[HEAD] = HEAD_NEXT;
    next[HEAD_NEXT] = TAIL;
    next[TAIL] = TAIL_NEXT;
    next[TAIL_NEXT] = TAIL_NEXT;
    parties = p;
    rows = n;
    taken = 4;
    moves = won = lost = 0;
}

/* Whether a row comes before a key: splices, then the head rows, then the items with a lower key. */
static int below(unsigned row, uint32_t k) {
    if (kind[row] == ITEM) return key[row] < k;
    return kind[row] == SPLICE || row < TAIL;
}

static int equals(unsigned row, uint32_t k) { return kind[row] == ITEM && key[row] == k; }

static int splice(unsigned row) { return kind[row] == SPLICE; }

/* A swap of one row's next. */
static int swap(unsigned row, uint16_t from, uint16_t to) {
    if (next[row] != from) {
        lost++;
        return 0;
    }
    next[row] = to;
    won++;
    return 1;
}

/* Starts a call, and answers 0 or the number of the refusal. */
static int start(unsigned who, int call, uint32_t k) {
    if (who >= parties) return 4;
    struct party *a = &party[who];
    if (a->place != IDLE) return 5;
    if (call != CONTAINS) {
        if (!a->unpublished) {
            if (taken == rows) return 7;
            a->own = taken++;
            a->unpublished = 1;
        }
        kind[a->own] = ITEM;
        key[a->own] = k;
        next[a->own] = 0;
        back[a->own] = 0;
    }
    a->call = call;
    a->key = k;
    a->p = HEAD;
    a->n = HEAD_NEXT;
    a->c = HEAD_NEXT;
    a->place = call == CONTAINS ? LOOK : WALK;
    return 0;
}

/* The end of a call: the party is idle, and keeps its row if nobody else has seen it. */
static enum said answer(struct party *a, int yes) {
    a->place = IDLE;
    if (!a->unpublished) a->own = 0;
    return yes ? YES : NO;
}

/* Ready to put the party's own row in front of row c. */
static void prepare(struct party *a) {
    next[a->own] = a->c;
    a->place = ADDSWAP;
}

/* One move of a party that is at work. */
static enum said move(struct party *a) {
    unsigned s;
    moves++;
    switch (a->place) {
    case WALK:
        s = next[a->c];
        if (below(a->c, a->key)) {
            if (splice(s)) {
                a->c = next[s];
            } else {
                a->p = a->c;
                a->n = s;
                a->c = s;
            }
        } else if (a->call == ADD) {
            if (splice(s)) {
                a->c = next[s];
                a->place = SKIP;
            } else if (equals(a->c, a->key)) {
                return answer(a, 0);
            } else {
                prepare(a);
            }
        } else if (a->unpublished) {
            if (!equals(a->c, a->key) || splice(s)) return answer(a, 0);
            kind[a->own] = SPLICE;
            key[a->own] = 0;
            next[a->own] = s;
            back[a->own] = a->p;
            a->s = s;
            a->place = MARK;
        } else {
            if (s != a->own) return answer(a, 1);
            a->place = CLEAN;
        }
        return NOTHING;
    case SKIP:
        s = next[a->c];
        if (splice(s)) a->c = next[s];
        else prepare(a);
        return NOTHING;
    case ADDSWAP:
        if (swap(a->p, a->n, a->own)) {
            a->unpublished = 0;
            return answer(a, 1);
        }
        a->place = BACK;
        return NOTHING;
    case MARK:
        if (swap(a->c, a->s, a->own)) {
            a->unpublished = 0;
            a->r = a->s;
            a->place = CLEAN;
        } else {
            a->place = REREAD;
        }
        return NOTHING;
    case REREAD:
        s = next[a->c];
        if (splice(s)) return answer(a, 0);
        next[a->own] = s;
        a->s = s;
        a->place = MARK;
        return NOTHING;
    case CLEAN:
        if (swap(a->p, a->n, a->r)) return answer(a, 1);
        a->place = BACK;
        return NOTHING;
    case BACK:
        s = next[a->p];
        if (splice(s)) {
            a->p = back[s];
        } else {
            a->n = s;
            a->c = s;
            a->place = WALK;
        }
        return NOTHING;
    case LOOK:
        s = next[a->c];
        if (!below(a->c, a->key)) return answer(a, equals(a->c, a->key) && !splice(s));
        a->c = splice(s) ? next[s] : s;
        return NOTHING;
    default:
        return NOTHING;
    }
}

/* Makes a move, and answers 0 or the number of the refusal. */
static int step(unsigned who, enum said *said) {
    if (who >= parties) return 4;
    if (party[who].place == IDLE) return 8;
    if (moves == MOST_MOVES) return 9;
    *said = move(&party[who]);
    return 0;
}

/* ---- reading a schedule */

enum { STEP = 3 };
struct line {
    int what; /* ADD, REMOVE, CONTAINS or STEP */
    unsigned who;
    uint32_t key;
};

static struct line lines[MOST_TEXT];
static unsigned count, head_parties, head_nodes;
static int low_first;

static const char *at, *end;

static int word(const char *w) {
    size_t n = strlen(w);
    if ((size_t)(end - at) < n || memcmp(at, w, n) != 0) return 0;
    at += n;
    return 1;
}

/* A decimal number without leading zeros that is at most the given one. */
static int number(unsigned most, unsigned *value) {
    const char *from = at;
    unsigned v = 0;
    while (at < end && *at >= '0' && *at <= '9') {
        if (at > from && *from == '0') return 0;
        v = v * 10 + (unsigned)(*at++ - '0');
        if (v > most) return 0;
    }
    *value = v;
    return at > from;
}

static int hex(char c) {
    if (c >= '0' && c <= '9') return c - '0';
    if (c >= 'a' && c <= 'f') return c - 'a' + 10;
    if (c >= 'A' && c <= 'F') return c - 'A' + 10;
    return -1;
}

/* A field: eight hex digits, the bytes as stored. */
static int field(uint32_t *value) {
    uint32_t v = 0;
    if (end - at < 8) return 0;
    for (int i = 0; i < 4; i++) {
        int high = hex(at[0]), low = hex(at[1]);
        if (high < 0 || low < 0) return 0;
        uint32_t byte = (uint32_t)(high * 16 + low);
        v |= byte << (low_first ? 8 * i : 24 - 8 * i);
        at += 2;
    }
    *value = v;
    return 1;
}

static int call_line(struct line *l) {
    if (!number(99, &l->who)) return 0;
    if (word(" add ")) l->what = ADD;
    else if (word(" remove ")) l->what = REMOVE;
    else if (word(" contains ")) l->what = CONTAINS;
    else return 0;
    return field(&l->key);
}

/* Reads the whole text, and answers 0 or the number of the first line that breaks the rules. */
static unsigned read_text(const char *text, size_t n) {
    at = text;
    end = text + n;
    count = 0;
    if (!word("parties=") || !number(16, &head_parties) || head_parties == 0 || !word("\n")) return 1;
    if (!word("nodes=") || !number(MOST_ROWS, &head_nodes) || !word("\n")) return 2;
    if (head_nodes == 0) head_nodes = 64;
    if (head_nodes < 4) return 2;
    if (!word("order=")) return 3;
    if (word("big\n")) low_first = 0;
    else if (word("little\n")) low_first = 1;
    else return 3;
    for (;;) {
        struct line *l = &lines[count];
        if (word("step=")) {
            l->what = STEP;
            if (!number(99, &l->who) || !word("\n")) return count + 4;
        } else if (word("call=")) {
            if (!call_line(l) || !word("\n")) return count + 4;
        } else {
            unsigned said;
            if (!word("end=") || !number(MOST_TEXT, &said) || said != count || !word("\n")) return count + 4;
            return at == end ? 0 : count + 5;
        }
        count++;
    }
}

/* ---- writing what came of it */

static char out[786432];
static char *to;

static void put(const char *w) {
    size_t n = strlen(w);
    memcpy(to, w, n);
    to += n;
}

static void put_number(uint32_t v) {
    char digits[10];
    int n = 0;
    do {
        digits[n++] = (char)('0' + v % 10);
        v /= 10;
    } while (v != 0);
    while (n > 0) *to++ = digits[--n];
}

static void put_line(const char *name, uint32_t v) {
    put(name);
    put_number(v);
    *to++ = '\n';
}

static void put_answer(unsigned who, enum said said) {
    static const char *const names[] = { " add ", " remove ", " contains " };
    put("answer=");
    put_number(who);
    put(names[party[who].call]);
    put_number(party[who].key);
    put(said == YES ? " yes\n" : " no\n");
}

static void put_refused(unsigned line, int why) {
    put("refused=");
    put_number(line);
    *to++ = ' ';
    put_number((uint32_t)why);
    *to++ = '\n';
}

/* The live keys along the chain. */
static void put_keys(void) {
    unsigned row = HEAD_NEXT;
    while (row != TAIL) {
        unsigned s = next[row];
        if (kind[row] == ITEM && !splice(s)) put_line("key=", key[row]);
        row = splice(s) ? next[s] : s;
    }
}

/* A whole schedule: its output is left in out, and ends at to. */
static void replay(const char *text, size_t n) {
    to = out;
    if (n > MOST_TEXT) {
        put("bad=0\n");
        return;
    }
    unsigned bad = read_text(text, n);
    if (bad != 0) {
        put_line("bad=", bad);
        return;
    }
    set_up(head_parties, head_nodes);
    for (unsigned i = 0; i < count; i++) {
        const struct line *l = &lines[i];
        enum said said = NOTHING;
        int why = l->what == STEP ? step(l->who, &said) : start(l->who, l->what, l->key);
        if (why != 0) put_refused(i + 4, why);
        else if (said != NOTHING) put_answer(l->who, said);
    }
    put_keys();
    put_line("moves=", moves);
    put_line("won=", won);
    put_line("lost=", lost);
    put_line("taken=", taken);
}

/* ---- the benchmark's schedule */

static uint32_t seed = 1;

static unsigned draw(unsigned choices) {
    seed = seed * 1664525 + 1013904223;
    return (seed >> 8) % choices;
}

static void put_field(uint32_t v) {
    for (int i = 28; i >= 0; i -= 4) *to++ = "0123456789abcdef"[v >> i & 15];
}

/* Eight parties take turns by lot. An idle one starts a call, any other makes a step, so no line is refused. The rows
   from 28 to 64 are handed out evenly along the text, whatever the number of nodes. */
static void make(unsigned nodes) {
    enum { PARTIES = 8, FIRST = 28, ROWS = 64, KEYS = 48, SIZE = MOST_TEXT - 64 };
    static const char *const names[] = { " add ", " remove ", " contains " };
    static const int mix[] = { ADD, ADD, ADD, REMOVE, CONTAINS, CONTAINS };
    set_up(PARTIES, ROWS);
    to = out;
    put_line("parties=", PARTIES);
    put_line("nodes=", nodes);
    put("order=big\n");
    const char *body = to;
    unsigned n = 0;
    while (to - body < SIZE) {
        unsigned who = draw(PARTIES);
        if (party[who].place != IDLE) {
            enum said said;
            step(who, &said);
            put_line("step=", who);
        } else {
            int call = mix[draw(6)];
            uint32_t k = draw(KEYS) * 89478485u;
            size_t handed = FIRST + (ROWS - FIRST) * (size_t)(to - body) / SIZE;
            if (!party[who].unpublished && taken >= handed) call = CONTAINS;
            start(who, call, k);
            put("call=");
            put_number(who);
            put(names[call]);
            put_field(k);
            put("\n");
        }
        n++;
    }
    put_line("end=", n);
}

/* Reads until the input ends or the room is full. */
static size_t take(char *room, size_t most) {
    size_t n = 0;
    while (n < most) {
        long got = read(0, room + n, most - n);
        if (got <= 0) break;
        n += (size_t)got;
    }
    return n;
}

int main(int argc, char **argv) {
    static char text[MOST_TEXT + 1];
    if (argc == 3 && strcmp(argv[1], "make") == 0) {
        make((unsigned)atoi(argv[2]));
    } else {
        int rounds = argc == 2 ? atoi(argv[1]) : 1;
        size_t n = take(text, sizeof text);
        for (int i = 0; i < rounds; i++) replay(text, n);
    }
    for (const char *from = out; from < to;) {
        long put_out = write(1, from, (size_t)(to - from));
        if (put_out <= 0) return 1;
        from += put_out;
    }
    return 0;
}
