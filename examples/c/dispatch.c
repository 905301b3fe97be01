/* A dispatcher's list, a foreman's plan, and the short tree between them.
 *
 * The dispatcher hands out one permit (a1), one gasket (a2) and one visit slot (a3). With a permit and a gasket a seal can be fitted (a1 -o (a2 -o a4));
 * with the fitted seal and the slot the job is signed off (a4 -o (a3 -o a5)). The foreman claims the job: a5. His phone searches for a tree and sends it
 * short; the office expands it against its own question, and believes what expands: that is a proof of the question. A plan that uses the permit twice
 * finds no tree, and no bytes pass for one. */
#include <stdio.h>
#include <stdlib.h>
#include <string.h>
#include "vakelumba.h"

enum { PERMIT = 1, GASKET = 2, SLOT = 3, SEAL = 4, JOB = 5 };
enum { ATOM = 4, TENSOR = 6, LOLLI = 10, TWO_SIDED = 2 };

/* The phone's, and the office's. */
static uint16_t phone[VK_MEMORY_WORDS], office[VK_MEMORY_WORDS];
static uint64_t work[VK_MAX_BUDGET];
static uint8_t tree[VK_MESSAGE_BYTES], sent[VK_MESSAGE_BYTES], expanded[VK_MESSAGE_BYTES];

/* Bytes under construction. */
struct bytes {
    uint8_t at[256];
    size_t len;
};

static void put(struct bytes *b, unsigned x) { b->at[b->len++] = (uint8_t)x; }

static void put_two(struct bytes *b, unsigned x) { put(b, x >> 8); put(b, x & 255); }

static void put_atom(struct bytes *b, unsigned name) { put(b, ATOM); put_two(b, name); }

/* from -o (also -o to) */
static void put_step(struct bytes *b, unsigned from, unsigned also, unsigned to) {
    put(b, LOLLI); put_atom(b, from);
    put(b, LOLLI); put_atom(b, also); put_atom(b, to);
}

static void put_zone(struct bytes *b, const struct bytes *zone) {
    put_two(b, (unsigned)zone->len);
    memcpy(b->at + b->len, zone->at, zone->len);
    b->len += zone->len;
}

/* have |- want, as a two-sided question */
static struct bytes question_of(const struct bytes *have, const struct bytes *want) {
    struct bytes body = {{0}, 0}, q = {{0}, 0};
    put(&body, TWO_SIDED); put_zone(&body, have); put_zone(&body, want);
    put(&q, 1); put_zone(&q, &body);
    return q;
}

/* The office's side: bytes that came over the air, and its own question. */
static const char *believed(const struct bytes *q, const uint8_t *s, size_t s_len, size_t *n) {
    switch (vk_expand(q->at, q->len, s, s_len, office, VK_MEMORY_WORDS, expanded, sizeof expanded, n)) {
        case VK_OK: return "believed";
        case VK_NO_STEP: return "no plan for this question";
        default: return "not a short tree";
    }
}

/* The phone's side. */
static uint8_t search(const char *what, const struct bytes *q, size_t *written) {
    struct vk_counters c;
    uint8_t answer = vk_prove_into(&c, q->at, q->len, 32, VK_MAX_BUDGET, true, phone, VK_MEMORY_WORDS, work, VK_MAX_BUDGET, tree, sizeof tree, written);
    printf("%s: answer %u, explored %zu hits %zu depth %zu, %zu bytes\n", what, answer, c.explored, c.hits, c.reached, *written);
    return answer;
}

int main(void) {
    struct bytes list = {{0}, 0}, job = {{0}, 0}, twice = {{0}, 0};
    size_t n, m, back, depth;
    struct vk_fault fault;

    put_atom(&list, PERMIT); put_atom(&list, GASKET); put_atom(&list, SLOT);
    put_step(&list, PERMIT, GASKET, SEAL);
    put_step(&list, SEAL, SLOT, JOB);
    put_atom(&job, JOB);
    put(&twice, TENSOR); put_atom(&twice, JOB); put_atom(&twice, PERMIT);

    if (vk_memory_words() != VK_MEMORY_WORDS) return EXIT_FAILURE;
    if (vk_reset(phone, VK_MEMORY_WORDS) != VK_OK || vk_reset(office, VK_MEMORY_WORDS) != VK_OK) return EXIT_FAILURE;

    struct bytes asked = question_of(&list, &job);
    if (search("the job", &asked, &n) != VK_OK) return EXIT_FAILURE;
    if (vk_shorten(asked.at, asked.len, tree, n, phone, VK_MEMORY_WORDS, sent, sizeof sent, &m) != VK_OK) return EXIT_FAILURE;
    printf("over the air: %zu bytes\n", m);

    const char *word = believed(&asked, sent, m, &back);
    if (back != n || memcmp(tree, expanded, n) != 0 || vk_depth(expanded, back, &depth) != VK_OK) return EXIT_FAILURE;
    printf("at the office, a tree of %zu bytes and depth %zu: %s\n", back, depth, word);
    printf("strict mode: %s\n", vk_verify(expanded, back, true, &fault) == VK_OK ? "accepted" : "refused");

    struct bytes more = question_of(&list, &twice);
    printf("the same bytes for the job and the permit: %s\n", believed(&more, sent, m, &back));
    sent[m - 1] ^= 1;
    printf("the bytes with one bit changed: %s\n", believed(&asked, sent, m, &back));
    printf("the tree in place of the short tree: %s\n", believed(&asked, tree, n, &back));

    search("the job and the permit", &more, &n);
    if (vk_well_formed(phone, VK_MEMORY_WORDS) != VK_OK) return EXIT_FAILURE;
    return vk_well_formed(office, VK_MEMORY_WORDS) == VK_OK ? EXIT_SUCCESS : EXIT_FAILURE;
}
