// How C calls the proved box. The compiler hands every struct and slice by its address, a result that is a struct to the
// address that comes first, and lays all of them out as on a 64-bit machine: usize has 64 bits also on Arm, and so has the
// room of a slice's address.
enum { STATE = 2245 };                          // printer::state::STATE
struct clock { u8 second, minute, hour, day, month, year; };
struct time { u8 hour, minute; };               // calendar::date_change::TimeOfDay
struct where { u8 tag; u64 at; };               // frame::given::Where: Nowhere, At(at)
struct given { u8 number; struct where place; };
struct answered { u8 number; struct where place; u64 consumed, answer, strips[4]; };
struct holding { u8 tag; u64 n; };              // frame::holding::Holding: Held(n), Dropping
struct taken { struct answered answered; struct holding holding; };    // printer::single::Taken
struct slice { union { const void *p; u64 room; }; u64 n; };
struct built { u8 tag; union { struct given given; u64 n; }; };    // frame::build::Built: Refused(given), Written(n)
struct box { u8 state[STATE]; };
struct single { struct holding holding; u8 buffer[1024]; };     // what the caller keeps between single bytes: frame::holding::HOLDING

u8 box_fresh(const struct slice *state, u8 model, const struct clock *);
u8 box_set_clock(const struct slice *state, const struct clock *);
u8 box_set_date_change(const struct slice *state, const struct time *);
u8 box_tick(const struct slice *state);
void box_receive(struct answered *, const struct slice *state, const struct slice *store, const struct slice *s, const struct slice *answer, const struct slice *strips);
void box_take_byte(struct taken *, const struct slice *state, const struct slice *store, const struct holding *, const struct slice *buffer, u8 byte, const struct slice *answer, const struct slice *strips);
void box_silence(struct holding *, const struct holding *);
void box_shown(struct slice *, const struct slice *store, const struct slice *current, u8 n, u8 *refused);
void box_test(struct given *, const struct slice *s);
void box_build(struct built *, const struct slice *out, u8 identifier, const struct slice *bytes);

static struct taken got; static struct given tested; static struct built made; static u64 number; static long place; static const u8 *shown; static size shown_n;
static struct slice s0, s1, s2, s3, s4;
static const struct clock CLOCK = {58, 59, 23, 29, 2, 24}, NIGHT = {0, 0, 1, 1, 3, 24};
static const struct time CHANGE = {6, 30};
static inline const struct slice *lend(struct slice *s, const u8 *p, u64 n) { s->room = 0; s->p = p; s->n = n; return s; }
static inline void say(u8 n, const struct where *w) { number = n; place = w && w->tag ? (long)w->at : -1; }
static inline u64 api_number(void) { return number; }
static inline long api_place(void) { return place; }    // -1: none
static inline u64 api_count(int i) { return i == 0 ? got.answered.consumed : i == 1 ? got.answered.answer : got.answered.strips[i - 2]; }
static inline void api_receive(struct box *b, u8 *r, size rn, u8 *s, size n, u8 *a, size an, u8 *t, size tn)
{ box_receive(&got.answered, lend(&s0, b->state, STATE), lend(&s4, r, rn), lend(&s1, s, n), lend(&s2, a, an), lend(&s3, t, tn)); say(got.answered.number, &got.answered.place); }
static inline void api_take_byte(struct box *b, u8 *r, size rn, struct single *h, u8 byte, u8 *a, size an, u8 *t, size tn)
{ box_take_byte(&got, lend(&s0, b->state, STATE), lend(&s4, r, rn), &h->holding, lend(&s1, h->buffer, sizeof h->buffer), byte, lend(&s2, a, an), lend(&s3, t, tn)); h->holding = got.holding; say(got.answered.number, &got.answered.place); }
static inline void api_silence(struct single *h) { box_silence(&got.holding, &h->holding); h->holding = got.holding; say(0, 0); }
static inline void api_hold(struct single *h, const u8 *s, size n) { h->holding = (struct holding){0, n}; memcpy(h->buffer, s, n); }
static inline void api_drop(struct single *h) { h->holding = (struct holding){1, 0}; }
static inline int api_drops(const struct single *h) { return h->holding.tag == 1; }
static inline size api_held(const struct single *h) { return (size)h->holding.n; }
static inline const u8 *api_bytes(const struct single *h) { return h->buffer; }
static inline void api_shown(u8 *r, size rn, u8 *s, size n, u8 k)
{ u8 refused; box_shown(&s2, lend(&s0, r, rn), lend(&s1, s, n), k, &refused); say(refused, 0); shown = s2.p; shown_n = (size)s2.n; }
static inline void api_fresh(struct box *b, u8 model) { say(box_fresh(lend(&s0, b->state, STATE), model, &CLOCK), 0); }
static inline void api_tick(struct box *b) { say(box_tick(lend(&s0, b->state, STATE)), 0); }
static inline void api_set_clock(struct box *b) { say(box_set_clock(lend(&s0, b->state, STATE), &CLOCK), 0); }
static inline void api_set_date_change(struct box *b) { say(box_set_date_change(lend(&s0, b->state, STATE), &CHANGE), 0); }
static inline void api_night(struct box *b) { box_set_clock(lend(&s0, b->state, STATE), &NIGHT); api_set_date_change(b); }
static inline void api_test(u8 *s, size n) { box_test(&tested, lend(&s1, s, n)); say(tested.number, &tested.place); }
static inline void api_build(u8 *o, size on, u8 id, u8 *s, size n)
{ box_build(&made, lend(&s1, o, on), id, lend(&s2, s, n)); if (made.tag == 1) say(0, 0); else say(made.given.number, &made.given.place); }
