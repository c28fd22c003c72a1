#include <stdio.h>
#include "plate.h"

int main(void)
{
    uint8_t word[7] = {1, 1, 0, 1, 1, 0, 1}, message[4];
    plate_reading r = plate_decode_systematic(7, 11, 1, word, 7, message, 4);
    if (r.number != 0)
        return printf("refused with number %d\n", (int)r.number), 1;
    printf("message %d%d%d%d, %d cell mended\n", message[0], message[1], message[2], message[3], (int)r.mended);
}
