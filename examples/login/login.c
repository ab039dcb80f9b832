/* Asks for a password on serial line 0, and greets who knows it. It has a fault, which docs/DEBUGGING.md finds. */

#define SERIAL ((volatile unsigned *)0xbfe00000)

enum { CSR = 0, RBUF = 2, LPR = 2, TCR = 4, TDR = 6 };  /* the words of the serial part */
enum { MSE = 0x20, TRDY = 0x8000, DVAL = 0x8000, RECEIVER = 0x1000 };

static const char password[] = "sesame";

static struct {
    char user[9];
    char line[23];
    int length;
} session = { "operator", "", 0 };

static void send(char c)
{
    while (!(SERIAL[CSR] & TRDY))
        ;
    SERIAL[TDR] = c;
}

static void print(const char *text)
{
    while (*text)
        send(*text++);
}

static char receive(void)
{
    unsigned word;
    do
        word = SERIAL[RBUF];
    while (!(word & DVAL));
    return word;
}

static void read_line(void)
{
    char c;
    session.length = 0;
    while ((c = receive()) != '\r') {
        if (c == '\b') {
            session.length--;
            print("\b \b");
        } else if (session.length < (int)sizeof session.line - 1) {
            session.line[session.length] = c;
            session.length++;
            send('*');
        }
    }
    session.line[session.length] = 0;
    print("\r\n");
}

static int equal(const char *a, const char *b)
{
    while (*a && *a == *b)
        a++, b++;
    return *a == *b;
}

int main(void)
{
    SERIAL[LPR] = RECEIVER;  /* of line 0 */
    SERIAL[TCR] = 1;
    SERIAL[CSR] = MSE;
    for (;;) {
        print("password: ");
        read_line();
        print(equal(session.line, password) ? "Welcome, " : "Sorry, ");
        print(session.user);
        print(".\r\n");
    }
}
