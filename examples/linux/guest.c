/* A small kernel for the test of the PROM: it makes the calls that Linux makes, and at last one that the PROM lacks. */

enum { GETCHAR = 0x24 / 4, PRINTF = 0x30 / 4, BOOTREAD = 0x58 / 4, GETENV = 0x64 / 4, SLOT_ADDRESS = 0x6c / 4, CLEAR_CACHE = 0x7c / 4,
       GETSYSID = 0x80 / 4, GETBITMAP = 0x84 / 4, GETTCINFO = 0xa4 / 4 };  /* the vector's places, as in Linux's prom.h */

static struct {
    int page;
    unsigned char bitmap[1024];
} memory;

void start(int count, const char **words, unsigned magic, void **vector)
{
    int (*getchar)(void) = vector[GETCHAR];
    int (*printf)(const char *, ...) = vector[PRINTF];
    const char *(*getenv)(const char *) = vector[GETENV];
    unsigned (*slot_address)(int) = vector[SLOT_ADDRESS];
    void (*clear_cache)(void) = vector[CLEAR_CACHE];
    unsigned (*getsysid)(void) = vector[GETSYSID];
    int (*getbitmap)(void *) = vector[GETBITMAP];
    const int *(*gettcinfo)(void) = vector[GETTCINFO];
    void (*bootread)(void) = vector[BOOTREAD];
    int bytes, full = 0, c;

    clear_cache();
    printf("magic %x, %d words, the last is %s\n", magic, count, words[count - 1]);
    printf("system %x\n", getsysid());
    bytes = getbitmap(&memory);
    for (int i = 0; i < bytes; i++)
        full += memory.bitmap[i] == 0xff;
    printf("%u bytes, %d of %d full\n", full * 8 * memory.page, full, bytes);
    printf("console is %s, other is %s\n", getenv("console"), getenv("consol") ? "there" : "not there");
    printf("slot 2 is at %p, %d MiB each; %c%% %d\n", slot_address(2), gettcinfo()[2], '9', -2147483647 - 1);
    while ((c = getchar()) != '.')
        printf("got %c\n", c);
    bootread();
}
