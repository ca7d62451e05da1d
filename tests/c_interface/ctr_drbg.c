/* Makes the CTR_DRBG calls of a script on standard input, all on one state, and prints an answer for each line.
   ctr_drbg_script.py, beside this, says how lines and answers are laid out:

       new
       state KEY V COUNTER
       instantiate ENTROPY PERSONALIZATION
       reseed ENTROPY ADDITIONAL
       generate LENGTH ADDITIONAL

   What a call must not do ends the program with status 1: write outside what it is lent, change an input, or change
   state or buffer where it is refused. Behind every input stand bytes that are not 0, so that a call that reads on
   there in place of the zeros that fill up an input gives another answer. A buffer for bytes holds others before the
   call, so that one that is not written over, or is mixed in, shows too. */
#define _POSIX_C_SOURCE 200809L
#include "fortuna.h"
#include "lent.h"
#include "words.h"

enum { KEY = 32, V = 16 };

/* The layout that kept states count on, and the numbers of 02 by their names. */
_Static_assert(sizeof(fortuna_ctr_drbg) == 56, "the state's size");
_Static_assert(offsetof(fortuna_ctr_drbg, v) == 32, "where V stands");
_Static_assert(offsetof(fortuna_ctr_drbg, reseed_counter) == 48, "where the reseed counter stands");
_Static_assert(FORTUNA_ENTROPY_LENGTH == 40, "entropy input that is not 48 bytes");
_Static_assert(FORTUNA_INPUT_TOO_LONG == 41, "other input above 48 bytes");
_Static_assert(FORTUNA_REQUEST_TOO_LONG == 14, "a request above 65,536 bytes");
_Static_assert(FORTUNA_SEEDING_NEEDED == 42, "never seeded, or 2^48 requests since");

/* ---- the state: each call is lent a copy of it, so that writing beside it is found out */

static fortuna_ctr_drbg state;

static fortuna_ctr_drbg *lend_state(void)
{
    fortuna_ctr_drbg *lent = lend(sizeof *lent);
    *lent = state;
    return lent;
}

static void take_state(fortuna_ctr_drbg *lent, uint32_t answer)
{
    if (answer != FORTUNA_DONE && memcmp(lent, &state, sizeof state) != 0)
        stop("a refused call changed the state");
    state = *lent;
    give_back(lent, sizeof *lent);
    printf("%" PRIu32 " ", answer);
}

static void set_state(char *rest)
{
    take_bytes(word(&rest), state.key, KEY);
    take_bytes(word(&rest), state.v, V);
    state.reseed_counter = number(word(&rest), UINT64_MAX);
    no_more(rest);
}

/* ---- the calls */

typedef uint32_t seeding(fortuna_ctr_drbg *, const uint8_t *, size_t, const uint8_t *, size_t);

static void seed(seeding *call, char *rest)
{
    input entropy = lend_input(word(&rest));
    input other = lend_input(word(&rest));
    no_more(rest);
    fortuna_ctr_drbg *lent = lend_state();
    uint32_t answer = call(lent, entropy.lent, entropy.length, other.lent, other.length);
    take_state(lent, answer);
    give_back_input(entropy);
    give_back_input(other);
}

static void generate(char *rest)
{
    size_t length = (size_t)number(word(&rest), MOST_BYTES);
    input additional = lend_input(word(&rest));
    no_more(rest);
    input out = lend_buffer(length);
    fortuna_ctr_drbg *lent = lend_state();
    uint32_t answer = fortuna_ctr_drbg_generate(lent, out.lent, length, additional.lent, additional.length);
    if (answer != FORTUNA_DONE && !is_kept(out))
        stop("a refused call wrote bytes");
    take_state(lent, answer);
    print_given(out.lent, answer == FORTUNA_DONE ? length : 0);
    give_back_input(additional);
    drop_input(out);
}

/* ---- the lines */

static void answer(char *line)
{
    const char *name = word(&line);
    if (strcmp(name, "generate") == 0) {
        generate(line);
    } else if (strcmp(name, "reseed") == 0) {
        seed(fortuna_ctr_drbg_reseed, line);
    } else if (strcmp(name, "instantiate") == 0) {
        seed(fortuna_ctr_drbg_instantiate, line);
    } else if (strcmp(name, "state") == 0) {
        set_state(line);
    } else if (strcmp(name, "new") == 0) {
        no_more(line);
        state = fortuna_ctr_drbg_new();
    } else {
        stop("a line that is neither new nor state nor a call");
    }
    print_bytes(state.key, KEY);
    putchar(' ');
    print_bytes(state.v, V);
    printf(" %" PRIu64 "\n", state.reseed_counter);
}

int main(void)
{
    state = fortuna_ctr_drbg_new();
    char *line = NULL;
    size_t room = 0;
    ssize_t length;
    while ((length = getline(&line, &room, stdin)) > 0) {
        if (line[length - 1] == '\n')
            line[--length] = '\0';
        answer(line);
    }
    if (ferror(stdin) || fflush(stdout) != 0)
        stop("standard input or output failed");
    free(line);
    return 0;
}
