// Scenarios over a box: instructions (counted by the plugin between two marks) and stack (painted) of each call.
#include "sys.h"
#include "api.h"     // struct box; api_fresh, api_receive, ..

#define PAINT 0x5A
#define DEEP 32768
static __attribute__((noinline)) void paint(void) { volatile u8 a[DEEP]; for (size i = 0; i < DEEP; i++) a[i] = PAINT; }
static __attribute__((noinline)) size depth(void) { volatile u8 a[DEEP]; size i = 0; while (i < DEEP && a[i] == PAINT) i++; return DEEP - i; }

static struct box box, saved;
static struct single single;                                   // what the receiver for single bytes holds
static u8 store[8192], in[1024], answer[554], strips[6144];    // what documents 01 and 02 ask the caller for
static u8 lent[sizeof store];                                  // the store that each call begins with
static size n_in;
static u8 asked;                                               // the number that the approval screen asks for
static u8 byte;                                                // the single byte that comes
static size floor_stack;

static u32 sum(const u8 *s, size n) { u32 c = 0; for (size i = 0; i < n; i++) c = 31 * c + s[i]; return c; }
// what a call said: its number, and behind a colon its place where it has one; of a receive also consumed, the lengths of the answer and
// the four strips, and a sum over the store; of a single byte that too, and behind it how many bytes are held and a sum over them; of
// silence what is held; of what is shown also its length and a sum over it
static void report(const char *name, int what, size stack)
{
    put("call "); put(name); put(" stack "); num(stack > floor_stack ? stack - floor_stack : 0); put(" said "); num(api_number());
    if (api_place() >= 0) { put(":"); num((u64)api_place()); }
    if (what == 0 || what == 8) { for (int i = 0; i < 6; i++) { put(","); num(api_count(i)); } put(","); num(sum(store, sizeof store)); }
    if (what == 8 || what == 9) { put(","); if (api_drops(&single)) put("dropping"); else { num(api_held(&single)); put(","); num(sum(api_bytes(&single), api_held(&single))); } }
    if (what == 6) { put(","); num(shown_n); put(","); num(sum(shown, shown_n)); }
    put("\n");
}

static __attribute__((noinline)) void perform(int what)
{
    switch (what) {
    case 0: api_receive(&box, store, sizeof store, in, n_in, answer, sizeof answer, strips, sizeof strips); break;
    case 1: api_tick(&box); break;
    case 2: api_set_clock(&box); break;
    case 3: api_fresh(&box, 4); break;
    case 4: api_test(in, n_in); break;
    case 5: api_build(strips, sizeof strips, 0x0A, in, n_in); break;
    case 6: api_shown(store, sizeof store, in, n_in, asked); break;
    case 7: api_set_date_change(&box); break;
    case 8: api_take_byte(&box, store, sizeof store, &single, byte, answer, sizeof answer, strips, sizeof strips); break;
    case 9: api_silence(&single); break;
    default: break;
    }
}
static void measure(const char *name, int what)
{
    size d;
    paint(); MARK(0); perform(what); MARK(1); d = depth();
    if (what == 99) { floor_stack = d; return; }
    report(name, what, d);
}
static void frame(u8 id, const u8 *d, size n)
{
    u8 c = 0;
    in[0] = id; in[1] = (u8)(n >> 8); in[2] = (u8)n;
    for (size i = 0; i < n; i++) in[3 + i] = d[i];
    for (size i = 0; i < n + 3; i++) c ^= in[i];
    in[n + 3] = c; n_in = n + 4;
}
static u8 d[600];
static const u8 PARAM[37] = {1,2,3,4,5,6,7,8,9,10,11, 0x89, '8','9','9','9','9','9','9','9','8', '9','0','0','0','0','0','1','0','0', '0','2', 0,0,2, 0,0};
// plain characters, of a given number of bytes, of 512 and of 61
static size letters(u8 *o, size end) { size n = 0; o[n++] = 0x0A; o[n++] = 1; o[n++] = 0x54; while (n < end - 1) { o[n] = (u8)('A' + n % 26); n++; } o[n++] = 0x0D; return n; }
static size plain(u8 *o) { return letters(o, 512); }
static size small(u8 *o) { return letters(o, 61); }
// 512 bytes: counters as many as fit (the longest strip, 9 for 3)
static size counters(u8 *o) { size n = 0; o[n++] = 0x0A; o[n++] = 1; o[n++] = 0x54; while (n + 3 <= 511) { o[n++] = 0x1C; o[n++] = 1; o[n++] = 0x1C; } while (n < 511) o[n++] = 'x'; o[n++] = 0x0D; return n; }
// 512 bytes: one date item of codes
static size dates(u8 *o) { size n = 0; o[n++] = 0x0A; o[n++] = 1; o[n++] = 0x54; o[n++] = 0x1B; while (n < 510) { o[n] = (u8)(n % 2 ? 0x55 : 0x62); n++; } o[n++] = 0x1B; o[n++] = 0x0D; return n; }
// 512 bytes: ten fields
static size fields(u8 *o) { size n = 0; o[n++] = 0x0A; o[n++] = 1; o[n++] = 0x54; for (int f = 0; f < 10; f++) { o[n++] = 0x12; for (int k = 0; k < 48; k++) o[n++] = 'f'; o[n++] = 0x12; } while (n < 511) o[n++] = 'x'; o[n++] = 0x0D; return n; }
// 512 bytes: a mix of everything in four lines
static size mixed(u8 *o)
{
    size n = 0;
    for (int l = 0; l < 4; l++) {
        o[n++] = 0x0A; o[n++] = 1; o[n++] = 0x54;
        while (n < (size)(127 * (l + 1) - 30)) {
            o[n++] = 'B'; o[n++] = 'E'; o[n++] = 'S'; o[n++] = 'T'; o[n++] = ' ';
            o[n++] = 0x1C; o[n++] = 1; o[n++] = 0x1C; o[n++] = 0x1E; o[n++] = 13; o[n++] = 0x1E;
            o[n++] = 0x1B; o[n++] = 0x61; o[n++] = 0x62; o[n++] = 0x71; o[n++] = 0x5B; o[n++] = 0x5C; o[n++] = 0x5D; o[n++] = 0x1B;
        }
        o[n++] = 0x12; for (int k = 0; k < 8; k++) o[n++] = 'f'; o[n++] = 0x12;
    }
    while (n < 511) o[n++] = 'x';
    o[n++] = 0x0D; return n;
}
static void accepted(const char *what) { if (api_number()) { put("refused "); put(what); put(" with number "); num(api_number()); put("\n"); } }
static void take(const char *what) { perform(0); accepted(what); }
static void start(u8 model) { api_fresh(&box, model); accepted("a fresh printer"); saved = box; }
static void fill(size (*make)(u8 *))    // four full jets
{
    start(4);
    for (u8 j = 1; j <= 4; j++) {
        d[0] = j; memcpy(d + 1, PARAM, 37); size n = make(d + 38); frame(0x0C, d, 38 + n);
        take("a message with parameters");
    }
    saved = box;
}
// 1Ch: a content whose first font is the number, so that no two messages are the same
static void message(u8 number, size (*make)(u8 *)) { d[0] = number; memcpy(d + 1, PARAM, 37); size n = make(d + 38); d[40] = number; frame(0x1C, d, 38 + n); }
static void keep(u8 last, size (*make)(u8 *))    // a store with messages of the numbers from 1 on
{
    start(1); memset(store, 0, sizeof store);
    for (u8 k = 1; k <= last; k++) { message(k, make); take("a message for the store"); }
    memcpy(lent, store, sizeof store);
}
static void update(size n) { in[0] = 2; memset(in + 1, 'u', n); in[n + 1] = 3; n_in = n + 2; }
static void again(void) { box = saved; memcpy(store, lent, sizeof store); }
// so many bytes of what stands in the input are held, and the one behind them comes
static void behind(size held) { again(); api_hold(&single, in, held); byte = in[held]; }
static const u8 A[] = {0x01, 0x0A, 0x02, 0x38, 'I','M','A','J','E',' ', 0x01, 0x54, 'F','R','A','N','C','E', 0x0D};

static void alone(void)     // the calls that are lent no store
{
    size n;
    again(); measure("tick", 1);
    again(); measure("set_clock", 2);
    again(); measure("set_date_change", 7);
    again(); measure("fresh", 3);
    n = plain(in); n_in = n; measure("test-512", 4);
    n = mixed(in); n_in = n; measure("test-512-mixed", 4);
    n = mixed(in); n_in = n; in[n - 2] = 0x7F; measure("test-512-10", 4);
    memset(in, 7, 550); n_in = 550; measure("build-550", 5);
    update(1022); behind(1023); measure("silence", 9);
}
static void with_store(void)
{
    size n;
    again(); n_in = 0; measure("none", 0);
    again(); in[0] = 0x0A; n_in = 1; measure("part-1", 0);
    again(); d[0] = 1; n = plain(d + 1); frame(0x0A, d, 1 + n); n_in--; measure("part-516", 0);
    again(); in[0] = 0x05; n_in = 1; measure("05", 0);
    again(); frame(0x0A, A, sizeof A); measure("0A-small", 0);
    again(); d[0] = 1; n = plain(d + 1); frame(0x0A, d, 1 + n); measure("0A-512", 0);
    again(); d[0] = 1; n = mixed(d + 1); frame(0x0A, d, 1 + n); measure("0A-512-mixed", 0);
    again(); d[0] = 1; n = mixed(d + 1); d[n - 1] = 0x7F; frame(0x0A, d, 1 + n); measure("0A-512-10", 0);
    again(); d[0] = 1; memcpy(d + 1, PARAM, 37); frame(0x0B, d, 38); measure("0B", 0);
    again(); d[0] = 1; memcpy(d + 1, PARAM, 37); n = plain(d + 38); frame(0x0C, d, 38 + n); measure("0C-512", 0);
    // number 1 is the first record and 79 none: the new one takes its place or goes behind the last, or has no room, 16
    again(); message(1, plain); measure("1C-1-512", 0);
    again(); message(1, small); measure("1C-1-61", 0);
    again(); message(79, plain); measure("1C-79-512", 0);
    again(); message(79, small); measure("1C-79-61", 0);
    again(); d[0] = 1; frame(0x39, d, 1); measure("39", 0);
    again(); d[0] = 1; d[1] = 14; frame(0x40, d, 2); measure("40-14", 0);
    again(); d[0] = 1; d[1] = 78; frame(0x40, d, 2); measure("40-78", 0);
    again(); d[0] = 1; d[1] = 0; d[2] = 5; d[3] = 'I'; d[4] = 'T'; frame(0x42, d, 5); measure("42-2", 0);
    again(); d[0] = 1; d[1] = 0; d[2] = 3; memset(d + 3, 'Q', 508); frame(0x42, d, 511); measure("42-508", 0);
    // only one of the states has characters from 3 on up to the 0Dh at 511: elsewhere the first two get 12 early, or 11
    again(); d[0] = 1; d[1] = 0; d[2] = 4; memset(d + 3, 'Q', 508); frame(0x42, d, 511); measure("42-508-12", 0);
    again(); d[0] = 1; d[1] = 0; d[2] = 3; memset(d + 3, 'Q', 507); d[510] = 0x7F; frame(0x42, d, 511); measure("42-508-13", 0);
    again(); d[0] = 1; d[1] = 0xFF; d[2] = 0xFF; d[3] = 'I'; d[4] = 'T'; frame(0x42, d, 5); measure("42-far-12", 0);
    again(); d[0] = 1; frame(0x43, d, 1); measure("43", 0);
    again(); frame(0x52, d, 0); measure("52", 0);
    again(); frame(0x94, d, 0); measure("94", 0);
    again(); api_night(&box); frame(0x94, d, 0); measure("94-night", 0);
    again(); frame(0xD6, d, 0); measure("D6", 0);
    // head 1 has 960 field positions in one of the states and 64 in another: elsewhere these get 18, or 11 where there is none
    again(); update(1022); measure("update-1022", 0);
    again(); update(960); measure("update-960", 0);
    again(); update(960); in[960] = 0x7F; measure("update-960-13", 0);
    again(); update(64); measure("update-64", 0);
    again(); update(10); measure("update-10", 0);
    again(); frame(0x0A, A, sizeof A); in[n_in - 1] ^= 1; measure("check-wrong", 0);
    again(); in[0] = 0x0A; in[1] = 9; in[2] = 9; n_in = 3; measure("too-long", 0);
    again(); store[sizeof store - 1] = 1; in[0] = 0x05; n_in = 1; measure("05-unformed", 0);
    // single bytes: the last number says which one it is of the frame or update
    d[0] = 1; n = plain(d + 1); frame(0x0A, d, 1 + n);
    behind(0); measure("byte-0A", 8);
    behind(258); measure("byte-0A-259", 8);
    behind(516); measure("byte-0A-517", 8);
    in[0] = 0x05; behind(0); measure("byte-05", 8);
    frame(0x94, d, 0); behind(3); measure("byte-94-4", 8);
    update(960); behind(961); measure("byte-02-962", 8);
    update(1022); behind(1022); measure("byte-02-1023", 8);
    in[1023] = 'u'; behind(1023); measure("byte-02-1024", 8);
    again(); api_drop(&single); byte = 0x05; measure("byte-dropped", 8);
    in[0] = 0x05; behind(1); measure("byte-unheld", 8);
    again(); n_in = plain(in); asked = 14; measure("shown-14", 6);
    again(); n_in = plain(in); asked = 78; measure("shown-78", 6);
    again(); n_in = plain(in); asked = 80; measure("shown-80", 6);
}
static void group(const char *state, const char *stored, void (*calls)(void)) { put("state "); put(state); put(" "); put(stored); put("\n"); calls(); }
static void each(const char *stored, void (*calls)(void))    // the calls in six states of the printer
{
    start(1); group("empty-type-1", stored, calls);
    fill(plain); group("four-plain", stored, calls);
    fill(mixed); group("four-mixed", stored, calls);
    fill(counters); group("four-counters", stored, calls);
    fill(dates); group("four-dates", stored, calls);
    fill(fields); group("four-fields", stored, calls);
}
int bench_main(void)
{
    put("size state "); num(sizeof box); put(" store "); num(sizeof store); put(" answer "); num(sizeof answer); put(" strips "); num(sizeof strips);
    put(" input "); num(sizeof in); put(" holding "); num(sizeof single); put("\n");
    measure("empty", 99);
    keep(0, plain); each("none", alone); each("empty", with_store);
    keep(14, plain); each("14-plain", with_store);
    keep(14, fields); each("14-fields", with_store);
    keep(78, small); each("78-small", with_store);
    return 0;
}
