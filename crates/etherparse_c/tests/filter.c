/* Worked values, by the calls from C: which frames an expression chooses, each kind of refusal with its numbers, and texts. What a
 * call returns is a clause in src/; this tests the way through the header file. The frames have no tag, extension header or padding,
 * and on such ones libpcap 1.10.3 chooses the same for the same expressions. Places of refusals are counted in the text. */

#include "etherparse_filter.h"
#include "compare.h"

enum { COUNT = 5 };

/* From 10.0.0.1 port 1024 to 10.0.0.2 port 53, UDP. */
static const uint8_t question[] = {2, 0, 0, 0, 0, 2, 2, 0, 0, 0, 0, 1, 8, 0, 0x45, 0, 0, 30, 0, 0, 0x40, 0, 64, 17, 0x26, 0xcd, 10, 0, 0,
    1, 10, 0, 0, 2, 4, 0, 0, 53, 0, 10, 0x7f, 0x39, 'h', 'i'};
/* From 192.0.2.1 port 49152 to 192.0.2.2 port 80, TCP with SYN. */
static const uint8_t segment[] = {2, 0, 0, 0, 0, 2, 2, 0, 0, 0, 0, 1, 8, 0, 0x45, 0, 0, 40, 0, 0, 0x40, 0, 64, 6, 0xb6, 0xcc, 192, 0, 2,
    1, 192, 0, 2, 2, 0xc0, 0, 0, 80, 0, 0, 0, 1, 0, 0, 0, 0, 0x50, 2, 0x20, 0, 0x4b, 0x8d, 0, 0};
/* Who has 10.0.0.3, asks 10.0.0.1. */
static const uint8_t arp[] = {2, 0, 0, 0, 0, 2, 2, 0, 0, 0, 0, 1, 8, 6, 0, 1, 8, 0, 6, 4, 0, 1, 2, 0, 0, 0, 0, 1, 10, 0, 0, 1, 0, 0, 0, 0,
    0, 0, 10, 0, 0, 3};
/* From 2001:db8::1 to 2001:db8::2, ICMPv6. */
static const uint8_t echo[] = {2, 0, 0, 0, 0, 2, 2, 0, 0, 0, 0, 1, 0x86, 0xdd, 0x60, 0, 0, 0, 0, 8, 58, 64, 0x20, 1, 0xd, 0xb8, 0, 0, 0,
    0, 0, 0, 0, 0, 0, 0, 0, 1, 0x20, 1, 0xd, 0xb8, 0, 0, 0, 0, 0, 0, 0, 0, 0, 0, 0, 2, 0x80, 0, 0x24, 0x45, 0, 1, 0, 2};
/* From 10.0.0.1 to 10.0.0.2, UDP, a fragment at 24. */
static const uint8_t fragment[] = {2, 0, 0, 0, 0, 2, 2, 0, 0, 0, 0, 1, 8, 0, 0x45, 0, 0, 28, 0, 7, 0, 3, 64, 17, 0x66, 0xc5, 10, 0, 0, 1,
    10, 0, 0, 2, 1, 2, 3, 4, 5, 6, 7, 8};

static const struct etherparse_frame FRAMES[COUNT] = {
    {question, sizeof question, sizeof question},
    {segment, sizeof segment, sizeof segment},
    {arp, sizeof arp, sizeof arp},
    {echo, sizeof echo, sizeof echo},
    {fragment, sizeof fragment, sizeof fragment},
};

/* Which frames an expression chooses: a digit 1 for each that it does. */
static const struct {
    const char *expression;
    const char *chosen;
} CASES[] = {
    {"tcp port 80 or udp port 53", "11000"},
    {"udp", "10001"},
    {"port 53", "10000"},
    {"not port 53", "01111"},
    {"src net 10.0.0.0/8", "10101"},
    {"dst host 10.0.0.2", "10001"},
    {"host 10.0.0.1", "10101"},
    {"tcp[tcpflags] & tcp-syn != 0", "01000"},
    {"icmp6", "00010"},
    {"arp or ip6", "00110"},
    {"not ip", "00110"},
    {"ip[6:2] & 0x1fff != 0", "00001"},
    {"less 43", "00101"},
    {"greater 54", "01010"},
    {"ether src 02:00:00:00:00:01", "11111"},
    {"ether src 02:00:00:00:00:02", "00000"},
    {"portrange 1024-1030", "10000"},
    {"(arp or icmp6) and not host 10.0.0.3", "00010"},
};

static void choices(void)
{
    struct etherparse_filter filter;
    struct etherparse_filter copy;
    struct etherparse_filter_refusal refusal;
    for (size_t i = 0; i < sizeof CASES / sizeof CASES[0]; i++) {
        bool answers[COUNT + 1] = {false, false, false, false, false, true};
        memset(&filter, 0xa5, sizeof filter);
        memset(&refusal, 0xa5, sizeof refusal);
        EXPECT(etherparse_filter_from_text(CASES[i].expression, strlen(CASES[i].expression), &filter, &refusal), true);
        EXPECT(refusal.kind, ETHERPARSE_FILTER_OK);
        EXPECT(refusal.place, 0);
        EXPECT(refusal.expected, 0);
        EXPECT(refusal.found, 0);
        copy = filter;
        memset(&filter, 0x5a, sizeof filter);
        EXPECT(etherparse_filter_matches_batch(&copy, ETHERPARSE_LINKTYPE_ETHERNET, FRAMES, COUNT, answers, COUNT + 1), COUNT);
        EXPECT(answers[COUNT], true);
        for (size_t j = 0; j < COUNT; j++) {
            EXPECT(answers[j], CASES[i].chosen[j] == '1');
            EXPECT(etherparse_filter_matches(&copy, ETHERPARSE_LINKTYPE_ETHERNET, FRAMES[j].at, FRAMES[j].len, FRAMES[j].original_len),
                CASES[i].chosen[j] == '1');
        }
    }
}

/* A length on the wire, other link types, and lists of other lengths. */
static void others(void)
{
    struct etherparse_filter filter;
    struct etherparse_filter_refusal refusal;
    bool answers[COUNT] = {true, true, true, true, true};
    const struct etherparse_frame long_ago[2] = {{question, 40, 1514}, {question, 40, 1515}};
    EXPECT(etherparse_filter_from_text("udp and less 1514", 17, &filter, &refusal), true);
    EXPECT(etherparse_filter_matches_batch(&filter, ETHERPARSE_LINKTYPE_ETHERNET, long_ago, 2, answers, COUNT), 2);
    EXPECT(answers[0], true);
    EXPECT(answers[1], false);
    EXPECT(answers[2], true);
    EXPECT(etherparse_filter_matches_batch(&filter, ETHERPARSE_LINKTYPE_ETHERNET, long_ago + 1, 1, answers, 0), 0);
    EXPECT(answers[0], true);
    EXPECT(etherparse_filter_matches_batch(&filter, ETHERPARSE_LINKTYPE_ETHERNET, NULL, 0, NULL, 0), 0);

    /* LINKTYPE_RAW, a frame that ends within its link header, and a link type that is not read. */
    EXPECT(etherparse_filter_matches(&filter, ETHERPARSE_LINKTYPE_RAW, question + 14, 30, 30), true);
    EXPECT(etherparse_filter_matches(&filter, ETHERPARSE_LINKTYPE_ETHERNET, question, 13, 44), false);
    EXPECT(etherparse_filter_from_text("not udp", 7, &filter, &refusal), true);
    EXPECT(etherparse_filter_matches(&filter, ETHERPARSE_LINKTYPE_RAW, question + 14, 30, 30), false);
    EXPECT(etherparse_filter_matches(&filter, ETHERPARSE_LINKTYPE_ETHERNET, question, 13, 44), true);
    EXPECT(etherparse_filter_matches(&filter, ETHERPARSE_LINKTYPE_ETHERNET, NULL, 0, 0), true);
    EXPECT(etherparse_filter_matches(&filter, 999, question, sizeof question, sizeof question), false);
}

/* The refusal of a text: its kind, its place, what could stand there, the operator there, and its text. */
static void expect_refusal(int line, const char *expression, uint32_t kind, size_t place, uint16_t expected, uint16_t found,
    const char *text)
{
    struct etherparse_filter filter;
    struct etherparse_filter_refusal refusal;
    char buffer[ETHERPARSE_FILTER_ERROR_TEXT_SIZE];
    memset(&refusal, 0xa5, sizeof refusal);
    memset(buffer, 7, sizeof buffer);
    compare(line, expression, etherparse_filter_from_text(expression, strlen(expression), &filter, &refusal), false);
    compare(line, "refusal.kind", refusal.kind, kind);
    compare(line, "refusal.place", refusal.place, place);
    compare(line, "refusal.expected", refusal.expected, expected);
    compare(line, "refusal.found", refusal.found, found);
    compare(line, "the length of its text", etherparse_filter_error_text(&refusal, buffer, sizeof buffer), strlen(text));
    compare(line, text, strcmp(buffer, text) == 0, true);
    /* The filter chooses nothing. */
    for (size_t i = 0; i < COUNT; i++) {
        compare(line, "a choice", etherparse_filter_matches(&filter, 1, FRAMES[i].at, FRAMES[i].len, FRAMES[i].len), false);
    }
}

#define EXPECT_REFUSAL(...) expect_refusal(__LINE__, __VA_ARGS__)

static void refusals(void)
{
    char many[65 * 4];
    EXPECT_REFUSAL("tcp prot 80", ETHERPARSE_FILTER_UNEXPECTED, 4, ETHERPARSE_FILTER_AFTER_TRANSPORT, 0,
        "Expression Error: The word at byte 4 cannot stand there: expected `src`, `dst`, `port`, `portrange`, `[` or an operator.");
    EXPECT_REFUSAL("host 10.0.0.1 and port 65536", ETHERPARSE_FILTER_UNEXPECTED, 23, ETHERPARSE_FILTER_PORT, 0,
        "Expression Error: The word at byte 23 cannot stand there: expected a port, such as `80` or `http`.");
    EXPECT_REFUSAL("udp or tcp and port 22", ETHERPARSE_FILTER_MIXED, 11, 0, ETHERPARSE_FILTER_FOUND_AND,
        "Expression Error: `and` and `or` stand together at byte 11: parentheses have to say which comes first, as in "
        "`(a or b) and c` or `a or (b and c)`.");
    EXPECT_REFUSAL("udp and tcp || arp", ETHERPARSE_FILTER_MIXED, 12, 0, ETHERPARSE_FILTER_FOUND_OR,
        "Expression Error: `and` and `or` stand together at byte 12: parentheses have to say which comes first, as in "
        "`(a and b) or c` or `a and (b or c)`.");
    EXPECT_REFUSAL("ip or mpls", ETHERPARSE_FILTER_UNSUPPORTED, 6, 0, 0,
        "Expression Error: The word of pcap-filter(7) at byte 6 is not part of the language.");
    EXPECT_REFUSAL("not (tcp or arp", ETHERPARSE_FILTER_INCOMPLETE, 15, ETHERPARSE_FILTER_OR_CLOSE, 0,
        "Expression Error: It ends where more words have to follow: expected `or` or `)`.");
    EXPECT_REFUSAL("ether", ETHERPARSE_FILTER_INCOMPLETE, 5, ETHERPARSE_FILTER_AFTER_ETHER, 0,
        "Expression Error: It ends where more words have to follow: expected `src`, `dst`, `host`, `proto`, `broadcast`, "
        "`multicast` or `[`.");
    EXPECT_REFUSAL("", ETHERPARSE_FILTER_INCOMPLETE, 0, ETHERPARSE_FILTER_OPERAND, 0,
        "Expression Error: It ends where more words have to follow: expected `not`, `(` or a primitive, such as `tcp` or `host`.");
    /* `not` 64 times, and a word after them. */
    for (size_t i = 0; i < 65; i++) memcpy(many + 4 * i, i < 64 ? "not " : "arp", 4);
    EXPECT_REFUSAL(many, ETHERPARSE_FILTER_TOO_LONG, 256, 0, 0,
        "Expression Error: It has more than 64 words: the first beyond them is at byte 256.");
}

/* Into a buffer that is too small, into none, and of numbers that no refusal has. */
static void texts(void)
{
    static const char cut[8] = {'E', 'x', 'p', 'r', 0, 7, 7, 7};
    const struct etherparse_filter_refusal none[] = {
        {0, 0, 0, 0}, {6, 6, 0, 0}, {6, 3, 1, 0}, {6, 3, 0, 1}, {6, 1, 0, 0}, {6, 1, 36, 0}, {6, 2, 0, 3}, {6, 2, 1, 1}, {6, 4, 1, 1}};
    const struct etherparse_filter_refusal refusal = {SIZE_MAX, ETHERPARSE_FILTER_UNSUPPORTED, 0, 0};
    const struct etherparse_filter_refusal longest = {SIZE_MAX, ETHERPARSE_FILTER_MIXED, 0, 1};
    char whole[ETHERPARSE_FILTER_ERROR_TEXT_SIZE];
    char text[8];
    EXPECT(etherparse_filter_error_text(&longest, whole, sizeof whole), sizeof whole - 1);
    EXPECT(strlen(whole), sizeof whole - 1);
    memset(text, 7, sizeof text);
    EXPECT(etherparse_filter_error_text(&refusal, text, 5), 102);
    EXPECT(memcmp(text, cut, 8), 0);
    EXPECT(etherparse_filter_error_text(&refusal, NULL, 0), 102);
    for (size_t i = 0; i < sizeof none / sizeof none[0]; i++) {
        text[0] = 'E';
        EXPECT(etherparse_filter_error_text(&none[i], text, sizeof text), 0);
        EXPECT(text[0], 0);
        EXPECT(text[1], 'x');
    }
}

int main(void)
{
    choices();
    others();
    refusals();
    texts();
    printf("%d answers are right, %d are not.\n", right, wrong);
    return wrong != 0;
}
