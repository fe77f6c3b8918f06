/* A queue in C: a transaction is admitted, stored, selected for a block, opened again and
 * cancelled. */

#include <pokerbox.h>
#include <stdint.h>
#include <stdio.h>
#include <stdlib.h>
#include <string.h>

enum { P = 2, B = 10, T = 1, K = 1 };

static void expect(const char *what, uint64_t given, uint64_t expected) {
    if (given != expected) {
        printf("%s: %llu and not %llu\n", what, (unsigned long long)given,
               (unsigned long long)expected);
        exit(1);
    }
}

int main(void) {
    static uint8_t cur[POKERBOX_AREA_LEN(P, B, T, K)];
    static uint8_t next[POKERBOX_AREA_LEN(P, B, T, K)];
    static uint8_t image[POKERBOX_MAX_IMAGE_LEN(P, B, T, K)];
    static uint8_t older[POKERBOX_MAX_IMAGE_LEN(P, B, T, K)];
    uint8_t id[32], other[32], input[32], output[32], read[32], out[400];
    const uint8_t signed_bytes[3] = {1, 2, 3};
    const uint8_t none[1] = {0};
    /* Caller 0 may have all, caller 15 one, and the others nothing. */
    uint8_t shares[POKERBOX_SHARES_LEN] = {0}, got[POKERBOX_SHARES_LEN];
    uint64_t length, older_length, start, empty, p, b, t, k, need;

    memset(id, 0x11, sizeof id);
    memset(input, 0x21, sizeof input);
    memset(output, 0x31, sizeof output);
    memset(read, 0x41, sizeof read);
    memset(other, 0x12, sizeof other);
    expect("P 0", pokerbox_fresh(0, B, T, K, shares, sizeof shares, cur, sizeof cur),
           POKERBOX_LIMIT_OUT_OF_RANGE);
    expect("63 bytes of shares", pokerbox_fresh(P, B, T, K, shares, 63, cur, sizeof cur),
           POKERBOX_MALFORMED);
    expect("need under P 0", pokerbox_need(0, B, T, K, &need), POKERBOX_LIMIT_OUT_OF_RANGE);
    expect("need", pokerbox_need(P, B, T, K, &need), POKERBOX_ANSWERED);
    expect("its bytes", need, sizeof cur);
    /* All to caller 0: an image of kind 01 can hold that. */
    shares[3] = P;
    expect("fresh", pokerbox_fresh(P, B, T, K, shares, sizeof shares, cur, sizeof cur),
           POKERBOX_ANSWERED);
    expect("image", pokerbox_image(cur, sizeof cur, image, sizeof image, &length),
           POKERBOX_ANSWERED);
    expect("convert into 84 bytes", pokerbox_convert(image, length, older, 84, &older_length),
           POKERBOX_OUTPUT_TOO_SHORT);
    expect("convert", pokerbox_convert(image, length, older, sizeof older, &older_length),
           POKERBOX_ANSWERED);
    expect("its length", older_length, 85);
    expect("its kind", (uint64_t)memcmp(older, "01", 2), 0);
    expect("convert kind 01",
           pokerbox_convert(older, older_length, image, sizeof image, &length),
           POKERBOX_NOT_AN_IMAGE);
    shares[63] = 1;
    expect("fresh", pokerbox_fresh(P, B, T, K, shares, sizeof shares, cur, sizeof cur),
           POKERBOX_ANSWERED);
    expect("cancel in empty",
           pokerbox_cancel(cur, sizeof cur, next, sizeof next, id, sizeof id, out, sizeof out),
           POKERBOX_NOT_FOUND);
    expect("admit without a share",
           pokerbox_admit(cur, sizeof cur, next, sizeof next, id, sizeof id, 1, input, sizeof input,
                          output, sizeof output, none, 0, signed_bytes, sizeof signed_bytes, 5, 0,
                          0, 0, 0, 7, 0, none, 0, 1000, 9, 6, 0, none, 0, out, sizeof out),
           POKERBOX_SHARE_EXHAUSTED);
    expect("admit",
           pokerbox_admit(cur, sizeof cur, next, sizeof next, id, sizeof id, 15, input,
                          sizeof input, output, sizeof output, read, sizeof read, signed_bytes,
                          sizeof signed_bytes, 5, 0, 0, 0, 0, (1ULL << 32) + 7, 0, none, 0, 1000, 9,
                          6, 0, none, 0, out, sizeof out),
           POKERBOX_ANSWERED_WHOLE);
    expect("caller", out[32], 15);
    expect("state", out[33], POKERBOX_STATE_QUEUED);
    /* Its priority has eight bytes: 2^32 + 7. */
    expect("priority", (uint64_t)out[48] * 256 + out[52], 256 + 7);
    /* The entry's end: one input, then one read id. */
    expect("read count", (uint64_t)out[109] * 256 + out[110], 1);
    expect("read id", (uint64_t)memcmp(out + 111, read, sizeof read), 0);

    /* A write is due: the image of the next area would go to a file here. */
    expect("image", pokerbox_image(next, sizeof next, image, sizeof image, &length),
           POKERBOX_ANSWERED);
    expect("settle",
           pokerbox_settle(cur, sizeof cur, next, sizeof next, POKERBOX_KIND_WHOLE,
                           POKERBOX_OUTCOME_KEPT),
           POKERBOX_ANSWERED);
    expect("what is read is not spent",
           pokerbox_admit(next, sizeof next, cur, sizeof cur, other, sizeof other, 0, read,
                          sizeof read, output, sizeof output, none, 0, signed_bytes,
                          sizeof signed_bytes, 5, 0, 0, 0, 0, 7, 0, none, 0, 1000, 9, 6, 0, none, 0,
                          out, sizeof out),
           POKERBOX_READ_AND_SPENT);
    expect("what is spent is not read",
           pokerbox_admit(next, sizeof next, cur, sizeof cur, other, sizeof other, 0, none, 0, output,
                          sizeof output, input, sizeof input, signed_bytes, sizeof signed_bytes, 5,
                          0, 0, 0, 0, 7, 0, none, 0, 1000, 9, 6, 0, none, 0, out, sizeof out),
           POKERBOX_READ_AND_SPENT);
    expect("select", pokerbox_selection_entries_at(next, sizeof next, 5, 6, out, sizeof out),
           POKERBOX_ANSWERED);
    expect("selected", out[3], 1);
    expect("parents first",
           pokerbox_selection_parents_first(next, sizeof next, 5, 6, out, 36), POKERBOX_ANSWERED);
    expect("listed", out[3], 1);
    expect("listed id", (uint64_t)memcmp(out + 4, id, sizeof id), 0);
    expect("short output",
           pokerbox_selection_parents_first(next, sizeof next, 5, 6, out, 35),
           POKERBOX_OUTPUT_TOO_SHORT);
    expect("best fees",
           pokerbox_best_fees(next, sizeof next, 3, POKERBOX_MAX_BUDGET, 5, 6, out, 56),
           POKERBOX_ANSWERED);
    expect("fee", (uint64_t)out[6] * 256 + out[7], 1000);
    expect("steps", out[11], 3);
    expect("distance", out[19], 0);
    expect("taken", out[23], 1);
    expect("taken id", (uint64_t)memcmp(out + 24, id, sizeof id), 0);
    expect("budget 0", pokerbox_best_fees(next, sizeof next, 3, 0, 5, 6, out, 56),
           POKERBOX_MALFORMED);
    expect("short output", pokerbox_best_fees(next, sizeof next, 3, 9, 5, 6, out, 55),
           POKERBOX_OUTPUT_TOO_SHORT);

    expect("image_limits",
           pokerbox_image_limits(image, length, &p, &b, &t, &k, got, sizeof got, &need),
           POKERBOX_ANSWERED);
    expect("its shares", (uint64_t)memcmp(got, shares, sizeof shares), 0);
    expect("its P", p, P);
    expect("its B", b, B);
    expect("its T", t, T);
    expect("its K", k, K);
    expect("its need", need, sizeof cur);
    expect("convert what kind 01 cannot hold",
           pokerbox_convert(image, length, older, sizeof older, &older_length),
           POKERBOX_NOT_CONVERTIBLE);
    expect("open", pokerbox_open(image, length, cur, sizeof cur), POKERBOX_ANSWERED);
    expect("opened", (uint64_t)memcmp(cur, next, sizeof cur), 0);
    expect("signed bytes",
           pokerbox_signed_bytes(cur, sizeof cur, id, sizeof id, &start, &length),
           POKERBOX_ANSWERED);
    expect("their place", (uint64_t)memcmp(cur + start, signed_bytes, length), 0);

    expect("cancel",
           pokerbox_cancel(cur, sizeof cur, next, sizeof next, id, sizeof id, out, sizeof out),
           POKERBOX_ANSWERED_WHOLE);
    expect("caller", out[32], 15);
    expect("state", out[33], POKERBOX_STATE_CANCELLED);
    expect("reason", out[34], POKERBOX_REASON_CANCELLED);
    expect("settle as failed",
           pokerbox_settle(cur, sizeof cur, next, sizeof next, POKERBOX_KIND_WHOLE,
                           POKERBOX_OUTCOME_FAILED),
           POKERBOX_WRITE_FAILED);
    expect("after it", (uint64_t)memcmp(cur, next, sizeof cur), 0);
    expect("is_empty", pokerbox_is_empty(next, sizeof next, &empty), POKERBOX_ANSWERED);
    expect("empty", empty, 0);
    puts("all answers as expected");
    return 0;
}
