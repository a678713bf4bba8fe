/* A program without a C library: it calls each library that needs memory copied or set, and the others, and its status is 0 if each
 * answer is the worked value. With OWN it has a memcpy, a memmove and a memset of its own, which end it if a call reaches them. */

#include "etherparse.h"
#include "etherparse_filter.h"
#include "etherparse_reassembly.h"
#include "etherparse_rewriting.h"

/* A program can have each of them twice. */
#include "etherparse_rewriting.h"
#include "etherparse_reassembly.h"
#include "etherparse_filter.h"
#include "etherparse.h"

int run(void);

/* The stack is aligned as a call wants it when a program starts. */
__asm__(".globl _start\n_start:\n\txor %ebp, %ebp\n\tcall run\n\tmov %eax, %edi\n\tmov $60, %eax\n\tsyscall\n");

#ifdef OWN
void *memcpy(void *to, const void *from, size_t len);
void *memmove(void *to, const void *from, size_t len);
void *memset(void *to, int byte, size_t len);

void *memcpy(void *to, const void *from, size_t len)
{
    (void)from, (void)len;
    __builtin_trap();
    return to;
}

void *memmove(void *to, const void *from, size_t len)
{
    (void)from, (void)len;
    __builtin_trap();
    return to;
}

void *memset(void *to, int byte, size_t len)
{
    (void)byte, (void)len;
    __builtin_trap();
    return to;
}
#endif

/* A UDP datagram of 12 bytes to port 53: in a packet with an option, the same from another source, and in two fragments that begin
 * with the same header. */
static uint8_t packet[36] = {0x46, 0xb9, 0, 36, 0, 0, 0, 0, 0x40, 17, 0x62, 0xf3, 192, 168, 0, 1, 192, 168, 0, 199, 0x94, 4, 0, 0,
    4, 0, 0, 53, 0, 12, 0x91, 0xae, 't', 'e', 's', 't'};
static const uint8_t PUBLIC[4] = {198, 51, 100, 7};
static const uint8_t REWRITTEN[36] = {0x46, 0xb9, 0, 36, 0, 0, 0, 0, 0x40, 17, 0xf9, 0x61, 198, 51, 100, 7, 192, 168, 0, 199, 0x94,
    4, 0, 0, 4, 0, 0, 53, 0, 12, 0x28, 0x1d, 't', 'e', 's', 't'};
static const uint8_t FIRST[28] = {0x45, 0, 0, 28, 0, 7, 0x20, 0, 0x40, 17, 0, 0, 192, 168, 0, 1, 192, 168, 0, 199,
    4, 0, 0, 53, 0, 12, 0x91, 0xae};
static const uint8_t LAST[24] = {0x45, 0, 0, 24, 0, 7, 0, 1, 0x40, 17, 0, 0, 192, 168, 0, 1, 192, 168, 0, 199, 't', 'e', 's', 't'};
static const uint8_t WHOLE[32] = {0x45, 0, 0, 32, 0, 7, 0, 0, 0x40, 17, 0xf8, 0xad, 192, 168, 0, 1, 192, 168, 0, 199,
    4, 0, 0, 53, 0, 12, 0x91, 0xae, 't', 'e', 's', 't'};

static bool same(const uint8_t *a, const uint8_t *b, size_t len)
{
    for (size_t i = 0; i < len; i++)
        if (a[i] != b[i])
            return false;
    return true;
}

static bool is_read(void)
{
    static struct etherparse_packet seen;
    static char text[ETHERPARSE_ERROR_TEXT_SIZE];
    etherparse_packet_strict_from_link_type(101, packet, sizeof packet, true, &seen);
    return seen.transport.destination_port == 53 && seen.payload_checksum == ETHERPARSE_RIGHT
        && etherparse_error_text(&seen.stop, text, sizeof text) == 0;
}

static bool is_rewritten(void)
{
    struct etherparse_reach_answer reached = etherparse_set_source_ipv4(packet, sizeof packet, PUBLIC);
    return reached.error == 0 && reached.reach == ETHERPARSE_REACH_UPPER && same(packet, REWRITTEN, sizeof packet);
}

static bool is_chosen(void)
{
    static const char TEXT[] = "udp dst port 53 and src net 198.51.100.0/24";
    static struct etherparse_filter filter, none;
    static struct etherparse_filter_refusal refusal, why;
    return etherparse_filter_from_text(TEXT, sizeof TEXT - 1, &filter, &refusal)
        && etherparse_filter_matches(&filter, 101, packet, sizeof packet, sizeof packet)
        && !etherparse_filter_matches(&filter, 101, WHOLE, sizeof WHOLE, sizeof WHOLE)
        && !etherparse_filter_from_text(TEXT, 8, &none, &why) && why.kind == ETHERPARSE_FILTER_INCOMPLETE && why.place == 8
        && !etherparse_filter_matches(&none, 101, packet, sizeof packet, sizeof packet);
}

static bool is_put_together(void)
{
    static uint8_t memory[ETHERPARSE_DEFRAG_SLOT_MEMORY], out[ETHERPARSE_DEFRAG_PACKET_SIZE];
    static struct etherparse_defrag_slot slot;
    static struct etherparse_defrag_pool_state state;
    struct etherparse_defrag_pool pool = {&state};
    etherparse_defrag_slot_new(&slot, memory, sizeof memory);
    etherparse_defrag_pool_new(&state, &slot, 1, ETHERPARSE_DEFRAG_TIMEOUT_SECONDS);
    struct etherparse_defrag_added last = etherparse_defrag_pool_add_packet(&pool, LAST, sizeof LAST, 65536, 65536, 0);
    struct etherparse_defrag_added first = etherparse_defrag_pool_add_packet(&pool, FIRST, sizeof FIRST, 65536, 65536, 1);
    struct etherparse_defrag_written written = etherparse_defrag_pool_write_packet(&pool, 0, out, sizeof out);
    return last.state == ETHERPARSE_DEFRAG_INCOMPLETE && first.state == ETHERPARSE_DEFRAG_COMPLETE && written.len == sizeof WHOLE
        && same(out, WHOLE, sizeof WHOLE);
}

int run(void)
{
    return is_read() && is_rewritten() && is_chosen() && is_put_together() ? 0 : 1;
}
