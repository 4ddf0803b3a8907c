/* Counts instructions of the proved code on an emulated Cortex-M. `-icount shift=0` makes an instruction a nanosecond of the emulated
   time, and SysTick counts that at 25 MHz, 40 instructions to a tick. Each count is of many turns, less those of an empty loop. */
typedef unsigned char byte;
typedef unsigned int word;
typedef unsigned long long wide;

/* The exported functions; a length is a number of 64 bits, as in the module. */
byte zifqarell_draw(const byte *text, const byte *glyph, const byte *graphic, const byte *control, byte *frame, wide frame_length,
                    const byte *half, wide half_length, const byte *full, wide full_length, _Bool phase);

/* The loop of the program `timing`, so many turns as tools/cortex put in place of its million. */
word on_lent(byte what) __asm__("timing::on_lent");

/* The plain Rust of the bench. */
void blocks_draw(const byte *screen, byte *frame, const byte *half, const byte *full);
void bytewise_draw(const byte *screen, byte *frame, const byte *half, const byte *full);
word plain_turns(byte what, word times);

/* Put in by screens.s: screens of text, glyph, graphic, controls and picture; the fonts. */
#define SCREENS 5
#define CONTROL_AT (128 + 128 + 2048)
#define PICTURE_AT (CONTROL_AT + 27)
extern const byte screens[SCREENS][PICTURE_AT + 1024], half[2048], full[281600];

static byte frame[1024];

static volatile word *const systick = (volatile word *)0xE000E010; /* control, reload, current */

static word say(word operation, const void *argument) {
    register word r0 __asm__("r0") = operation;
    register const void *r1 __asm__("r1") = argument;
    __asm__ volatile("bkpt 0xab" : "+r"(r0) : "r"(r1) : "memory");
    return r0;
}

static void print(const char *text) { say(4, text); }

static void print_number(word number) {
    char digits[11], *at = digits + 10;
    *at = 0;
    do {
        *--at = '0' + number % 10;
        number /= 10;
    } while (number);
    print(at);
}

static word begun;
static void start(void) { begun = systick[2]; }
/* The instructions of one of so many turns. */
static word stop(word turns) { return (((begun - systick[2]) & 0xFFFFFF) * 40 + turns / 2) / turns; }

static void report(word count) {
    print(" | ");
    print_number(count);
}

/* The three drawings of a screen, each held to its picture. */
static void proved(const byte *s) {
    zifqarell_draw(s, s + 128, s + 256, s + CONTROL_AT, frame, 1024, half, 2048, full, sizeof full, 1);
}
static void bytewise(const byte *s) { bytewise_draw(s, frame, half, full); }
static void blocks(const byte *s) { blocks_draw(s, frame, half, full); }

#define DRAWS 8

static void draw(void (*one)(const byte *), const byte *s) {
    start();
    for (word turn = 0; turn < DRAWS; turn++) one(s);
    word count = stop(DRAWS);
    for (word i = 0; i < 1024; i++)
        if (frame[i] != s[PICTURE_AT + i]) {
            print(" | another picture");
            return;
        }
    report(count);
}

static void draw_all(void) {
    static const char *const names[SCREENS] = {"\n| draw, text", "\n| draw, glyph", "\n| draw, graphic", "\n| draw, mixed",
                                               "\n| draw, traditional"};
    for (word k = 0; k < SCREENS; k++) {
        print(names[k]);
        draw(bytewise, screens[k]);
        draw(blocks, screens[k]);
        draw(proved, screens[k]);
        print(" |");
    }
}

static void write_all(void) {
    static const char *const names[3] = {"\n| write, text", "\n| write, glyph", "\n| write, graphic"};
    static const byte what[3] = {'t', 'i', 'g'};
    for (word k = 0; k < 3; k++) {
        print(names[k]);
        start();
        word theirs = plain_turns(what[k], TURNS);
        report(stop(TURNS));
        start();
        word ours = on_lent(what[k]);
        word count = stop(TURNS);
        if (theirs == ours) report(count);
        else print(" | other counts");
        print(" |");
    }
    print("\n");
}

void begin(void) {
    systick[1] = 0xFFFFFF;
    systick[2] = 0;
    systick[0] = 5;
    draw_all();
    write_all();
    say(0x18, (void *)0x20026);
    for (;;) {
    }
}

__attribute__((section(".vectors"), used)) static const void *const vectors[16] = {(void *)0x20400000, (void *)begin};

/* What the modules and the compiler ask for beside libgcc. */
void __aeabi_unwind_cpp_pr0(void) {}
void __aeabi_unwind_cpp_pr1(void) {}
void *memcpy(void *to, const void *from, word n) {
    byte *t = to;
    const byte *f = from;
    if ((((word)t | (word)f) & 3) == 0)
        for (; n >= 4; n -= 4, t += 4, f += 4) *(word *)t = *(const word *)f;
    while (n--) *t++ = *f++;
    return to;
}
void *memmove(void *to, const void *from, word n) {
    byte *t = to;
    const byte *f = from;
    if (t <= f || t >= f + n) return memcpy(to, from, n);
    while (n--) t[n] = f[n];
    return to;
}
void *memset(void *to, int value, word n) {
    byte *t = to;
    if (((word)t & 3) == 0) {
        word four = (byte)value * 0x01010101u;
        for (; n >= 4; n -= 4, t += 4) *(word *)t = four;
    }
    while (n--) *t++ = value;
    return to;
}
void __aeabi_memcpy(void *to, const void *from, word n) { memcpy(to, from, n); }
void __aeabi_memcpy4(void *to, const void *from, word n) { memcpy(to, from, n); }
void __aeabi_memcpy8(void *to, const void *from, word n) { memcpy(to, from, n); }
void __aeabi_memmove(void *to, const void *from, word n) { memmove(to, from, n); }
void __aeabi_memmove4(void *to, const void *from, word n) { memmove(to, from, n); }
void __aeabi_memmove8(void *to, const void *from, word n) { memmove(to, from, n); }
void __aeabi_memset(void *to, word n, int value) { memset(to, value, n); }
void __aeabi_memset4(void *to, word n, int value) { memset(to, value, n); }
void __aeabi_memset8(void *to, word n, int value) { memset(to, value, n); }
void __aeabi_memclr(void *to, word n) { memset(to, 0, n); }
void __aeabi_memclr4(void *to, word n) { memset(to, 0, n); }
void __aeabi_memclr8(void *to, word n) { memset(to, 0, n); }
