#include "twin.h"
struct box { struct printer p; };
struct single { struct holding h; };
static struct outcome got; static u64 number; static int place; static size_t wrote, shown_n; static const u8 *shown;
static const struct clock CLOCK = {58, 59, 23, 29, 2, 24}, NIGHT = {0, 0, 1, 1, 3, 24};
static const struct time CHANGE = {6, 30};
static inline u64 api_number(void) { return number; }
static inline long api_place(void) { return place; }    // -1: none
static inline u64 api_count(int i) { return i == 0 ? got.consumed : i == 1 ? got.answer : got.strips[i - 2]; }
static inline void api_receive(struct box *b, u8 *r, size rn, u8 *s, size n, u8 *a, size an, u8 *t, size tn)
{ got = box_receive(&b->p, r, rn, s, n, a, an, t, tn); number = got.number; place = got.place; }
static inline void api_take_byte(struct box *b, u8 *r, size rn, struct single *h, u8 byte, u8 *a, size an, u8 *t, size tn)
{ got = box_take_byte(&b->p, r, rn, &h->h, byte, a, an, t, tn); number = got.number; place = got.place; }
static inline void api_silence(struct single *h) { box_silence(&h->h); number = 0; place = -1; }
static inline void api_hold(struct single *h, const u8 *s, size n) { h->h.n = (u16)n; h->h.dropping = false; memcpy(h->h.bytes, s, n); }
static inline void api_drop(struct single *h) { h->h.n = 0; h->h.dropping = true; }
static inline int api_drops(const struct single *h) { return h->h.dropping; }
static inline size api_held(const struct single *h) { return h->h.n; }
static inline const u8 *api_bytes(const struct single *h) { return h->h.bytes; }
static inline void api_shown(u8 *r, size rn, u8 *s, size n, u8 k) { number = box_shown(r, rn, s, n, k, &shown, &shown_n); place = -1; }
static inline void api_fresh(struct box *b, u8 kind) { number = box_fresh(&b->p, kind, CLOCK); place = -1; }
static inline void api_tick(struct box *b) { number = box_tick(&b->p); place = -1; }
static inline void api_set_clock(struct box *b) { number = box_set_clock(&b->p, CLOCK); place = -1; }
static inline void api_set_date_change(struct box *b) { number = box_set_date_change(&b->p, CHANGE); place = -1; }
static inline void api_night(struct box *b) { box_set_clock(&b->p, NIGHT); api_set_date_change(b); }
static inline void api_test(u8 *s, size n) { number = box_test(s, n, &place); }
static inline void api_build(u8 *o, size on, u8 id, u8 *s, size n) { number = box_build(o, on, id, s, n, &wrote); place = -1; }
