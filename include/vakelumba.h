/* Vakelumba for C: a linear-logic prover and verifier. Link libvakelumba.a (rt lib in crates/vakelumba writes it to out/).
 *
 * Every call is total: any bytes, words and settings may be lent, and every place lent for a value is written on every answer, with 0 where
 * there is nothing to say. A call returns one number of vk_answer. What each call promises is proved; docs/PROMISES.md says where.
 *
 * The caller's part, which no proof can see: a pointer is not null and is aligned, it points to as many elements as the length beside it says
 * (any address will do where that is 0), and what is lent for writing overlaps nothing else that is lent to the same call. There are no other
 * conditions, no allocation, no global state and no thread: calls over different buffers may run at the same time.
 *
 * Byte forms (numbers big-endian). A formula: a tag, then its parts: 0 One, 1 Bottom, 2 Top, 3 Zero, 4 Atom, 5 NegAtom (each with a two-byte
 * name number), 6 Tensor, 7 Par, 8 With, 9 Plus, 10 Lolli (two formulas), 11 OfCourse, 12 WhyNot (one). A zone: a two-byte length and that many
 * bytes of formulas. A question: 1, the two-byte length of what follows, a kind (1: linear zone, unrestricted zone; 2: antecedent, succedent),
 * two zones. A tree: 1, the two-byte length of what follows, one node. A node: rule, argument, two zones, a one-byte premise count, premises.
 * A short tree: 2, the two-byte length of what follows, nodes in preorder. Such a node: rule, the principal formula's place in its zone (0 at
 * Axiom and OneIntro), and at TensorIntro a four-byte mask: bit i is 1 where the i-th other formula goes right, and spare bits are 0. */
#ifndef VAKELUMBA_H
#define VAKELUMBA_H

#include <stdbool.h>
#include <stddef.h>
#include <stdint.h>

#ifdef __cplusplus
extern "C" {
#endif

/* What a call answers. */
enum vk_answer {
    VK_OK = 0,              /* tree found; tree accepted; written */
    VK_NO_TREE = 1,         /* the search ended without a tree; never: there is none */
    VK_WRONG_NUMBER = 2,    /* wrong version, kind or rule number; in a short tree also a rule without short form */
    VK_WRONG_LENGTH = 3,    /* a length or end does not agree */
    VK_WRONG_TAG = 4,       /* formula tag above 12 */
    VK_TOO_HIGH = 5,        /* formula higher than 64, or tree higher than 65 */
    VK_TOO_MANY = 6,        /* a sequent of more than 31 formulas */
    VK_HELD_FULL = 7,       /* more than 2,048 distinct formulas would be held */
    VK_BUDGET_SPENT = 8,    /* a sequent is to be visited and the budget is spent */
    VK_FAILURES_FULL = 9,   /* a new failure is to be recorded and 1,000 are held */
    VK_OUTPUT_SHORT = 10,   /* output longer than its buffer, or a tree body over 65,535 bytes */
    VK_WRONG_SETTING = 11,  /* depth limit over 64; budget 0 or over 16,384; work slice shorter than the budget */
    VK_WRONG_MEMORY = 12,   /* lent memory has the wrong length or is not well-formed */
    VK_INVALID_RULE = 13,   /* the rule does not fit its sequent */
    VK_WRONG_PREMISES = 14, /* wrong premise count: see expected and got */
    VK_CONTEXT_MISMATCH = 15, /* not a legal step (strict mode only) */
    VK_NO_STEP = 15         /* of short trees: no step that the search's rules take */
};

/* The first byte of a message: questions and trees, and short trees. A reader of the first answers 2 to the second. */
enum {
    VK_VERSION = 1,
    VK_SHORT_VERSION = 2
};

/* Lengths: the words of a lent memory, the longest question, tree or short tree, and the greatest settings of a search. */
enum {
    VK_MEMORY_WORDS = 45290,
    VK_MESSAGE_BYTES = 65538,
    VK_MAX_DEPTH = 64,
    VK_MAX_BUDGET = 16384
};

/* Where a tree is wrong: the rule's number, the node's number in preorder (the root is 0), the steps below the root, and for answer 14 how many
 * premises were expected and got. */
struct vk_fault {
    uint8_t rule;
    size_t node;
    size_t wrappers;
    size_t expected;
    size_t got;
};

/* What a search did: sequents visited, recorded failures met again, and the greatest depth reached. */
struct vk_counters {
    size_t explored;
    size_t hits;
    size_t reached;
};

/* The negation of the one formula in s, in bytes, to the front of out; its length, that of s, to *written. Answers 0, 3, 4, 5, 10. On any
 * answer but 0, out stays as it is and *written is 0. At an implication negation is not its own inverse. */
uint8_t vk_negate(const uint8_t *s, size_t s_len, uint8_t *out, size_t out_len, size_t *written);

/* The one formula in s with every implication A -o B spelled as (A negated) par B, in bytes; otherwise as vk_negate. */
uint8_t vk_desugar(const uint8_t *s, size_t s_len, uint8_t *out, size_t out_len, size_t *written);

/* The one formula in s as UTF-8 text, not ended by a zero byte; otherwise as vk_negate. */
uint8_t vk_pretty(const uint8_t *s, size_t s_len, uint8_t *out, size_t out_len, size_t *written);

/* The one formula in s as ASCII text, not ended by a zero byte; otherwise as vk_negate. */
uint8_t vk_pretty_ascii(const uint8_t *s, size_t s_len, uint8_t *out, size_t out_len, size_t *written);

/* Whether the one formula in s is positive: 1 or 0 to *positive. Answers 0, 3, 4, 5. */
uint8_t vk_is_positive(const uint8_t *s, size_t s_len, uint8_t *positive);

/* The question in s as a one-sided question, in bytes; its length, that of s, to *written. Answers 0, 2 to 6, 10; otherwise as vk_negate. */
uint8_t vk_to_one_sided(const uint8_t *s, size_t s_len, uint8_t *out, size_t out_len, size_t *written);

/* The depth of the tree in s, a leaf being 1, to *depth. Answers 0, 2 to 6. */
uint8_t vk_depth(const uint8_t *s, size_t s_len, size_t *depth);

/* Verifies the tree in s: in shape mode the tests of lolli's verify_proof, in strict mode also that every step is legal, so that an accepted
 * tree is a proof. Answers 0, 2 to 6, 13, 14 and, in strict mode, 15; *fault says where for 13 to 15 and is all 0 otherwise. Which sequent the
 * tree concludes is for the caller to compare: it stands at the front of the tree's bytes. */
uint8_t vk_verify(const uint8_t *s, size_t s_len, bool strict, struct vk_fault *fault);

/* How many 16-bit words a lent memory has: VK_MEMORY_WORDS. */
size_t vk_memory_words(void);

/* Makes any mem_len words a memory that holds nothing. Answers 0, or 12 where mem_len is not VK_MEMORY_WORDS; then the words stay as they are. */
uint8_t vk_reset(uint16_t *mem, size_t mem_len);

/* Whether the words are a well-formed memory. Answers 0 or 12. */
uint8_t vk_well_formed(const uint16_t *mem, size_t mem_len);

/* Searches for a tree of the question: the tree, in bytes, to the front of out, its length to *written, and what the search did to *counters.
 * limit is the depth up to which it searches, budget how many sequents it may visit; work lends one word for each. With cache, sequents that
 * failed are recorded in mem and not searched again; they stay from call to call until vk_reset, and were recorded without the depth left at
 * the time, so that a larger limit alone does not bring them back. Answers 0, 1 and 2 to 12. On any answer but 0, out stays as it is and
 * *written is 0. On 11, 12 and refusals of the question, mem and work stay as they are and the counters are 0. */
uint8_t vk_prove_into(struct vk_counters *counters, const uint8_t *question, size_t question_len, size_t limit, size_t budget, bool cache,
                 uint16_t *mem, size_t mem_len, uint64_t *work, size_t work_len, uint8_t *out, size_t out_len, size_t *written);

/* Shortens the tree of the question: the short tree to the front of out, its length to *written. The tree is one that the search's rules build
 * for this question, formula for formula in their order, as every found tree is; anything else is 15. Where several places or masks fit, the
 * least place, then the least mask, is written. Answers 0, 2 to 7, 10, 12, 15. No depth, budget or mode is named. On any answer but 0, out stays
 * as it is and *written is 0. On 12 and refusals of the question or of the tree's bytes, mem stays as it is; otherwise it holds what a search
 * enters, the question's formulas and each implication spelled out by then. Failures in mem are neither read nor written. */
uint8_t vk_shorten(const uint8_t *question, size_t question_len, const uint8_t *tree, size_t tree_len,
                   uint16_t *mem, size_t mem_len, uint8_t *out, size_t out_len, size_t *written);

/* Expands the short tree against the question: the tree, in bytes, to the front of out, its length to *written. Each step must be one that the
 * search's rules can take there, or the answer is 15; a place or mask need not be the least. What expands passes vk_verify in strict mode and
 * concludes the question, an implication that is its first decomposable formula spelled out; so it can be believed. Of a shortened found tree
 * it gives the same bytes again. Answers 0, 2 to 7, 10, 12, 15; 6 also where a step has a premise of more than 31 formulas. Otherwise as
 * vk_shorten. */
uint8_t vk_expand(const uint8_t *question, size_t question_len, const uint8_t *short_tree, size_t short_tree_len,
                  uint16_t *mem, size_t mem_len, uint8_t *out, size_t out_len, size_t *written);

#ifdef __cplusplus
}
#endif

#endif
