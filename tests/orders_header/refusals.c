/* Every refusal, alone and before each later one, with its line; a refused call changes no byte. */
#include "trial.h"

static void try_text(const char *text, uint32_t answer, uint32_t line) {
    fill();
    CHECK_NAMED(text, take(text, ORDERS_LENGTH), answer);
    CHECK_NAMED(text, line_of(text), line);
    if (answer != ORDERS_DONE)
        check_bytes("refused", &rooms, &expected, sizeof rooms, AHEAD);
}

/* Lines that are orders, and lines that are none. */
static void try_forms(void) {
    static const char *const good[] = {
        "0\t0\t0\t0", "1\t0\t35999\t20000", "4294967295\t4294967295\t4294967295\t4294967295",
        "9\t10\t10\t0"};
    static const char *const bad[] = {
        "\n",           "\t",           "1",            "1\t0\t9",        "1\t0\t9\t5\t",
        "1\t0\t9\t5\t1", "01\t0\t9\t5", "1\t00\t9\t5",  "1\t0\t09\t5",    "1\t0\t9\t05",
        "1\t0\t9\t",    "\t0\t9\t5",    "1\t\t9\t5",    "1\t0\t\t5",      "1 \t0\t9\t5",
        " 1\t0\t9\t5",  "+1\t0\t9\t5",  "-1\t0\t9\t5",  "1\t0\t9\t5\r",   "1\t0\t9\t5\r\n",
        "1\t0\t9\tA",   "1\t0\t9\t0x5", "1\t0\t9\t5.0", "1\t10\t9\t5",    "4294967296\t0\t9\t5",
        "1\t0\t9\t4294967296", "1\t0\t9\t18446744073709551617", "1,0,9,5", "1\t0\t9\t5 ",
        "1\t0\t4294967296\t5"};
    for (unsigned i = 0; i < sizeof good / sizeof *good; i++)
        try_text(good[i], ORDERS_DONE, 0);
    for (unsigned i = 0; i < sizeof bad / sizeof *bad; i++)
        try_text(bad[i], ORDERS_REFUSED_LINE_FORM, 1);
}

/* Of several lines: the first that is refused, and of what it is refused for the first asked. */
static void try_lines(void) {
    try_text("", ORDERS_DONE, 0);
    try_text("1\t0\t9\t5\n", ORDERS_DONE, 0);
    try_text("1\t0\t9\t5\n2\t0\t9\t5", ORDERS_DONE, 0);
    try_text("1\t0\t9\t5\n\n", ORDERS_REFUSED_LINE_FORM, 2);
    try_text("1\t0\t9\t5\n\n2\t0\t9\t5\n", ORDERS_REFUSED_LINE_FORM, 2);
    try_text("1\t0\t9\t5\n2\t0\t9\t5\n1\t0\t9\t5\n", ORDERS_REFUSED_NUMBER_USED, 3);
    try_text("1\t0\t9\t5\n1\t9\t0\t5\n", ORDERS_REFUSED_LINE_FORM, 2);
    try_text("1\t0\t9\t5\n1\t0\t9\t5\nx\n", ORDERS_REFUSED_NUMBER_USED, 2);
    try_text(numbered(64, ""), ORDERS_DONE, 0);
    try_text(numbered(63, "63\t0\t9\t5"), ORDERS_DONE, 0);
    try_text(numbered(65, ""), ORDERS_REFUSED_LINE_65, 65);
    try_text(numbered(64, "\n"), ORDERS_REFUSED_LINE_65, 65);
    try_text(numbered(64, "x"), ORDERS_REFUSED_LINE_65, 65);
    try_text(numbered(64, "0\t0\t9\t5"), ORDERS_REFUSED_LINE_65, 65);
    try_text(numbered(63, "0\t0\t9\t5\nx"), ORDERS_REFUSED_NUMBER_USED, 64);
    try_text(numbered(63, "x\nx"), ORDERS_REFUSED_LINE_FORM, 64);
}

/* The length is asked before any line; the line named is the text's all the same. */
static void try_lengths(void) {
    static const size_t lengths[] = {0, 1, 16, ORDERS_LENGTH - 1, ORDERS_LENGTH + 1,
                                     ORDERS_LENGTH + ORDERS_PLACE_LENGTH};
    static const char *const texts[] = {"", "1\t0\t9\t5\n", "x", "1\t0\t9\t5\n1\t0\t9\t5\n"};
    for (unsigned i = 0; i < sizeof lengths / sizeof *lengths; i++)
        for (unsigned j = 0; j < sizeof texts / sizeof *texts; j++) {
            about("orders of bytes", lengths[i]);
            fill();
            CHECK(take(texts[j], lengths[i]), ORDERS_REFUSED_LENGTH);
            check_bytes("refused", &rooms, &expected, sizeof rooms, AHEAD);
        }
}

void try_refusals(void) {
    try_forms();
    try_lines();
    try_lengths();
}
