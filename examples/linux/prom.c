/* A PROM that boots Linux. The kernel calls it through a vector, whose places are those of the PROM of a DECstation 5000/200
   (Linux's arch/mips/include/asm/dec/prom.h has those that it uses). Its console is serial line 3, as on a real one without a keyboard. */
#include <stdarg.h>

#define SERIAL ((volatile unsigned short *)0xbfe00000)  /* a register each 8 bytes */
#define CLOCK ((volatile unsigned char *)0xbfe80000)    /* a register each 4 bytes */

enum { CSR = 0, RBUF = 4, LPR = 4, TCR = 8, TDR = 12 };
enum { MSE = 0x20, ENABLES = 0x4060, TRDY = 0x8000, DVAL = 0x8000 };
enum { RECEIVER = 0x1000, SPEED_9600 = 0xe00, EIGHT_BITS = 0x18 };
enum { CONSOLE = 3 };

enum { PAGE = 4096, PAGES = 2048 };  /* of RAM */
enum { REX = 0x30464354 };           /* tells a kernel that it gets the vector */
enum { SYSTEM = 0x82020530 };        /* an R3000; 5000/200; versions of the firmware and the board */

/* Linux adds the byte 0x3f of the clock to its year, less 72. So 1972 is 2026. */
enum { YEAR_PLACE = 0x3f, YEAR = 26 };

extern const unsigned boot_entry;  /* in start.S */

static void send(char c)
{
    unsigned short control = SERIAL[CSR], lines = SERIAL[TCR], seen;

    SERIAL[CSR] = MSE;  /* no interrupts, as it waits here */
    SERIAL[TCR] = 1 << CONSOLE;
    do
        seen = SERIAL[CSR];
    while (!(seen & TRDY) || (seen >> 8 & 3) != CONSOLE);
    SERIAL[TDR] = (unsigned char)c;
    SERIAL[TCR] = lines;
    SERIAL[CSR] = control & ENABLES;
}

static void put(char c)
{
    if (c == '\n')
        send('\r');
    send(c);
}

static void print(const char *text)
{
    while (*text)
        put(*text++);
}

static void print_number(unsigned n, unsigned base)
{
    if (n >= base)
        print_number(n / base, base);
    put("0123456789abcdef"[n % base]);
}

/* Knows %s, %c, %d, %u, %x and %p, without widths. */
static int prom_printf(const char *format, ...)
{
    va_list rest;
    int n;

    va_start(rest, format);
    for (; *format; format++) {
        if (*format != '%' || !format[1]) {
            put(*format);
            continue;
        }
        switch (*++format) {
        case 's':
            print(va_arg(rest, const char *));
            break;
        case 'c':
            put(va_arg(rest, int));
            break;
        case 'd':
            n = va_arg(rest, int);
            if (n < 0)
                put('-');
            print_number(n < 0 ? -(unsigned)n : (unsigned)n, 10);
            break;
        case 'u':
            print_number(va_arg(rest, unsigned), 10);
            break;
        case 'x':
        case 'p':
            print_number(va_arg(rest, unsigned), 16);
            break;
        default:
            put(*format);
        }
    }
    va_end(rest);
    return 0;
}

static int prom_getchar(void)
{
    unsigned short word;

    do
        word = SERIAL[RBUF];
    while (!(word & DVAL) || (word >> 8 & 3) != CONSOLE);
    return word & 0xff;
}

static const char *prom_getenv(const char *name)
{
    static const char *const variables[][2] = { { "console", "3" }, { "boot", "ram" } };

    for (unsigned i = 0; i < sizeof variables / sizeof *variables; i++) {
        const char *a = variables[i][0], *b = name;

        while (*a && *a == *b)
            a++, b++;
        if (*a == *b)
            return variables[i][1];
    }
    return 0;
}

struct memory {
    int page;
    unsigned char bitmap[PAGES / 8];  /* a bit for each page that can be used */
};

static int prom_getbitmap(struct memory *memory)
{
    memory->page = PAGE;
    for (int i = 0; i < PAGES / 8; i++)
        memory->bitmap[i] = 0xff;
    return PAGES / 8;
}

static unsigned prom_getsysid(void)
{
    return SYSTEM;
}

static unsigned prom_slot_address(int slot)
{
    return 0xbe000000 + slot * 0x400000;
}

static const int *prom_gettcinfo(void)
{
    static const int info[11] = { 0, 40, 4, 10 };  /* of the bus: version, nanoseconds, MiB a slot, time-out */

    return info;
}

/* Nothing was loaded through the data cache. */
static void prom_clear_cache(void)
{
}

__attribute__((noreturn)) static void prom_halt(void)
{
    print("PROM: halted\n");
    for (;;)
        ;
}

/* A function of the vector that Linux does not call. */
#define LACKS(name)                                          \
    __attribute__((noreturn)) static void lacks_##name(void) \
    {                                                        \
        print("PROM: " #name " is not there\n");             \
        prom_halt();                                         \
    }

LACKS(memcpy) LACKS(memset) LACKS(strcat) LACKS(strcmp) LACKS(strcpy) LACKS(strlen) LACKS(strncat) LACKS(strncpy) LACKS(strncmp)
LACKS(gets) LACKS(puts) LACKS(sprintf) LACKS(io_poll) LACKS(strtol) LACKS(signal) LACKS(raise) LACKS(time) LACKS(setjmp) LACKS(longjmp)
LACKS(bootinit) LACKS(bootread) LACKS(bootwrite) LACKS(setenv) LACKS(unsetenv) LACKS(wbflush) LACKS(msdelay) LACKS(leds)
LACKS(disableintr) LACKS(enableintr) LACKS(testintr) LACKS(reserved) LACKS(console_init) LACKS(showfault) LACKS(execute_cmd) LACKS(rex)

static const void *const vector[] = {
    lacks_memcpy, lacks_memset, lacks_strcat, lacks_strcmp,                      /* 0x00 */
    lacks_strcpy, lacks_strlen, lacks_strncat, lacks_strncpy,                    /* 0x10 */
    lacks_strncmp, prom_getchar, lacks_gets, lacks_puts,                         /* 0x20 */
    prom_printf, lacks_sprintf, lacks_io_poll, lacks_strtol,                     /* 0x30 */
    lacks_signal, lacks_raise, lacks_time, lacks_setjmp,                         /* 0x40 */
    lacks_longjmp, lacks_bootinit, lacks_bootread, lacks_bootwrite,              /* 0x50 */
    lacks_setenv, prom_getenv, lacks_unsetenv, prom_slot_address,                /* 0x60 */
    lacks_wbflush, lacks_msdelay, lacks_leds, prom_clear_cache,                  /* 0x70 */
    prom_getsysid, prom_getbitmap, lacks_disableintr, lacks_enableintr,          /* 0x80 */
    lacks_testintr, lacks_reserved, lacks_console_init, prom_halt,               /* 0x90 */
    lacks_showfault, prom_gettcinfo, lacks_execute_cmd, lacks_rex,               /* 0xa0 */
};

/* An exception that came while no kernel had vectors of its own. */
__attribute__((noreturn)) void fault(const char *what, unsigned cause, unsigned epc, unsigned address)
{
    prom_printf("\nPROM: %s, Cause 0x%x, EPC 0x%x, BadVAddr 0x%x\n", what, cause, epc, address);
    prom_halt();
}

void boot(void)
{
    static const char *const words[] = { "boot", "ram", "console=ttyS3" };
    void (*kernel)(int, const char *const *, unsigned, const void *const *) = (void *)boot_entry;

    SERIAL[CSR] = MSE;
    SERIAL[LPR] = RECEIVER | SPEED_9600 | EIGHT_BITS | CONSOLE;
    CLOCK[YEAR_PLACE * 4] = YEAR;
    if (!kernel)
        print("PROM: nothing to boot: boot_entry is 0\n");
    else
        kernel(3, words, REX, vector);
    prom_halt();
}
