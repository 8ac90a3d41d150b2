/* Confirms the form on standard input and writes the confirmed form to standard output; include/wiring.h has the meaning of each number. */
#include "wiring.h"

#include <stdio.h>

int main(void) {
    uint8_t image[WIRING_FORM_MAX + 1], form[WIRING_FORM_MAX], wiring[WIRING_RUNS_MAX];
    uint16_t segments[WIRING_PLACES_MAX];
    size_t len = fread(image, 1, sizeof image, stdin);
    wiring_reply reply = wiring_filter(image, len, form, sizeof form, wiring, sizeof wiring, segments, WIRING_PLACES_MAX);
    if (reply.number != 0) {
        fprintf(stderr, "refused %d %d\n", reply.number, reply.place);
        return 1;
    }
    fprintf(stderr, "ok %d %d\n", reply.struck, reply.pinned);
    return fwrite(form, 1, len, stdout) != len; /* a confirmed form is as long as the form was */
}
