#include "nt2.h"
#include <stdio.h>

#define TABLE heads, NT2_ENTRIES, bytes, NT2_TABLE_BYTES, &count, marks, NT2_CONNECTIONS

int main(void) {
    static nt2_head heads[NT2_ENTRIES];
    static uint8_t bytes[NT2_TABLE_BYTES], marks[NT2_CONNECTIONS], out[NT2_LONGEST_HELLO_ANSWER];
    static const uint8_t name[] = {'t', 'a', 'r', 'e'}, value[] = {1}, hello[] = {NT2_HELLO, 0x02, 0x00};
    uint16_t count;
    nt2_fresh(TABLE);
    nt2_create(TABLE, name, sizeof name, NT2_BOOLEAN, value, sizeof value, out, sizeof out);
    nt2_open(TABLE, 3);
    nt2_answer a = nt2_receive(TABLE, 3, hello, sizeof hello, out, sizeof out);
    printf("answer %d, taken %zu, sent %zu, to %04x\n", a.number, a.taken, a.sent, a.recipients);
    return a.number;
}
