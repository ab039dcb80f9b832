/* A boot loader. Lines come over serial line 0: an interrupt puts each byte into a ring, and the main loop takes the lines
   out and answers each one. `S1` records are loaded, `R` answers the sum of what is loaded, `?` how many records that were.
   It has a fault, which -DCHECKED mends. */

#define SERIAL ((volatile unsigned *)0xbfe00000)    /* the serial part: two words a register */
#define BOARD (*(volatile unsigned *)0xbff00000)    /* the board's control register */

enum { CSR = 0, RBUF = 2, LPR = 2, TCR = 4, TDR = 6 };
enum { MSE = 0x20, RIE = 0x40, TRDY = 0x8000, DVAL = 0x8000, RECEIVER = 0x1000 };

static struct {
    volatile unsigned head, tail;
    unsigned char bytes[64];
} ring;

static struct {
    char text[96];
    int length;
} line;

struct record {
    unsigned char payload[24];
    void (*store)(const struct record *);
    unsigned address, count;
};

static struct record record;
static unsigned char area[1024];
static unsigned records;

/* Called by start.S for each interrupt. */
void interrupt(void)
{
    unsigned word = SERIAL[RBUF];
    if (word & DVAL) {
        ring.bytes[ring.head % sizeof ring.bytes] = word;
        ring.head++;
    }
}

static void send(char c)
{
    while (!(SERIAL[CSR] & TRDY))
        ;
    SERIAL[TDR] = c;
}

static void print(const char *text)
{
    while (*text)
        send(*text++);
}

static void print_number(unsigned n)
{
    if (n >= 10)
        print_number(n / 10);
    send('0' + n % 10);
}

static int receive(void)
{
    int c;
    while (ring.tail == ring.head)
        ;
    c = ring.bytes[ring.tail % sizeof ring.bytes];
    ring.tail++;
    return c;
}

static void read_line(void)
{
    int c;
    line.length = 0;
    while ((c = receive()) != '\r')
        if (line.length < (int)sizeof line.text - 1)
            line.text[line.length++] = c;
    line.text[line.length] = 0;
}

static int digit(char c)
{
    if (c >= '0' && c <= '9')
        return c - '0';
    if (c >= 'A' && c <= 'F')
        return c - 'A' + 10;
    return -1;
}

/* The byte that two hexadecimal digits are, or -1. */
static int byte_at(const char *text)
{
    int high = digit(text[0]), low = high < 0 ? -1 : digit(text[1]);
    return low < 0 ? -1 : high << 4 | low;
}

static void store_record(const struct record *r)
{
    unsigned i;
    for (i = 0; i < r->count; i++)
        area[(r->address + i) % sizeof area] = r->payload[i];
    records++;
}

/* Reads a record from its count on, and stores what it has. Whether it is a good one. */
static int load_record(const char *text)
{
    int count = byte_at(text), high, low, sum, i, b;
    if (count < 3)
        return 0;
#ifdef CHECKED
    if (count - 3 > (int)sizeof record.payload)
        return 0;
#endif
    high = byte_at(text + 2);
    low = byte_at(text + 4);
    if (high < 0 || low < 0)
        return 0;
    sum = count + high + low;
    record.address = high << 8 | low;
    for (i = 0; i < count - 3; i++) {
        b = byte_at(text + 6 + 2 * i);
        if (b < 0)
            return 0;
        record.payload[i] = b;
        sum += b;
    }
    record.count = count - 3;
    b = byte_at(text + 6 + 2 * i);
    if (b < 0 || ((sum + b) & 0xff) != 0xff)
        return 0;
    record.store(&record);
    return 1;
}

int main(void)
{
    SERIAL[LPR] = RECEIVER;
    SERIAL[TCR] = 1;
    SERIAL[CSR] = MSE | RIE;
    BOARD = 0x00800000;
    record.store = store_record;
    __asm__ volatile("mtc0 %0, $12\n\tnop\n\tnop" : : "r"(0x00400c01));    /* interrupts on; the vectors stay in ROM */
    print("loader\r\n");
    for (;;) {
        read_line();
        if (line.text[0] == 'S' && line.text[1] == '1') {
            print(load_record(line.text + 2) ? "ok\r\n" : "bad record\r\n");
        } else if (line.text[0] == 'R') {
            unsigned sum = 0, i;
            for (i = 0; i < sizeof area; i++)
                sum += area[i];
            print_number(sum);
            print("\r\n");
        } else if (line.text[0] == '?') {
            print_number(records);
            print("\r\n");
        } else {
            print("what?\r\n");
        }
    }
}
