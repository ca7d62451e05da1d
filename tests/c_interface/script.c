/* Makes the calls of a script on standard input, all on one state, and prints their answers, each with the state's
   key_requests after the call, and before it the list of quotas that a metered call left. script.py, beside this, says
   how the lines are laid out. */
#define _POSIX_C_SOURCE 200809L
#include "fortuna.h"
#include "lent.h"
#include "quotas.h"
#include "words.h"

enum { SEED_SIZE = 64 };

/* ---- the words of a line */

static uint32_t word_number(char **rest)
{
    return part_number(rest, " ");
}

/* How many bytes the word stands for. */
static size_t bytes_in(const char *digits)
{
    return strcmp(digits, "-") == 0 ? 0 : strlen(digits) / 2;
}

static uint8_t *lend_bytes(const char *digits)
{
    uint8_t *bytes = lend(bytes_in(digits));
    decode(digits, 2 * bytes_in(digits), bytes);
    return bytes;
}

static uint16_t *lend_list(char *list)
{
    size_t length = entries_in(list);
    uint16_t *numbers = lend(length * sizeof *numbers);
    for (size_t i = 0; i < length; i++)
        numbers[i] = (uint16_t)number(part(&list, ","), UINT16_MAX);
    return numbers;
}

/* ---- the run: a state, the list of quotas that is held, and for the call that is made that list, or none */

typedef struct {
    fortuna_state state;
    quota_list held;
    const quota_list *taken;
} run;

/* Prints the list that a call left. It goes on in a new buffer, so that the one that was lent can be looked at. */
static void leave_list(run *r)
{
    putchar(' ');
    print_records(r->held);
    r->held = passed_on(r->held);
}

/* ---- the calls */

static void print_output(fortuna_answer a, const uint8_t *bytes, size_t length)
{
    printf("%" PRIu32 " %" PRIu32, a.number, a.emptied);
    if (a.number == FORTUNA_DONE) {
        printf(length > 0 ? " " : " -");
        print_bytes(bytes, length);
    }
}

static void event(run *r, char *rest)
{
    uint32_t source = word_number(&rest);
    uint32_t pool = word_number(&rest);
    const char *digits = word(&rest);
    uint8_t *data = lend_bytes(digits);
    printf("%" PRIu32, event_with(&r->state, r->taken, source, pool, data, bytes_in(digits)));
    give_back(data, bytes_in(digits));
}

static void request(run *r, char *rest)
{
    uint32_t clock = word_number(&rest);
    size_t length = word_number(&rest);
    uint8_t *out = lend(length);
    print_output(request_with(&r->state, r->taken, clock, out, length), out, length);
    give_back(out, length);
}

static void update(run *r, char *rest)
{
    uint32_t clock = word_number(&rest);
    const char *digits = word(&rest);
    size_t length = bytes_in(digits);
    uint8_t *seed = lend_bytes(digits);
    print_output(update_with(&r->state, r->taken, clock, seed, length), seed, length);
    give_back(seed, length);
}

static void write_seed(run *r, char *rest)
{
    uint32_t clock = word_number(&rest);
    uint8_t *seed = lend(SEED_SIZE);
    print_output(write_with(&r->state, r->taken, clock, seed, SEED_SIZE), seed, SEED_SIZE);
    give_back(seed, SEED_SIZE);
}

static void draw(run *r, char *rest)
{
    uint32_t clock = word_number(&rest);
    uint64_t n = number(word(&rest), UINT64_MAX);
    fortuna_draw d = draw_with(&r->state, r->taken, clock, n, word_number(&rest));
    printf("%" PRIu32 " %" PRIu32 " %" PRIu64, d.number, d.emptied, d.value);
}

static void shuffle(run *r, char *rest)
{
    uint32_t clock = word_number(&rest);
    char *words = word(&rest);
    size_t length = entries_in(words);
    uint16_t *list = lend_list(words);
    fortuna_answer a = shuffle_with(&r->state, r->taken, clock, list, length);
    printf("%" PRIu32 " %" PRIu32 "%s", a.number, a.emptied, length > 0 ? "" : " -");
    for (size_t i = 0; i < length; i++)
        printf("%c%" PRIu16, i > 0 ? ',' : ' ', list[i]);
    give_back(list, length * sizeof *list);
}

/* No call: the number that a run of so many requests would have left. */
static void counted(run *r, char *rest)
{
    r->state.key_requests = (uint16_t)number(word(&rest), UINT16_MAX);
    printf("%d", FORTUNA_DONE);
}

/* No call: the list that is held from now on. */
static void quotas(run *r, char *rest)
{
    give_back_quotas(r->held);
    r->held = lend_records(word(&rest));
    printf("%d", FORTUNA_DONE);
}

static const struct {
    const char *name;
    void (*make)(run *r, char *rest);
} calls[] = {
    {"event", event}, {"request", request}, {"update", update},
    {"write", write_seed}, {"draw", draw}, {"shuffle", shuffle},
    {"counted", counted}, {"quotas", quotas},
};

static void make(run *r, char *line)
{
    const char *name = word(&line);
    for (size_t i = 0; i < sizeof calls / sizeof *calls; i++)
        if (strcmp(name, calls[i].name) == 0) {
            calls[i].make(r, line);
            return;
        }
    stop("a line with no call");
}

static void answer(run *r, char *line)
{
    const char metered[] = "metered ";
    bool takes = strncmp(line, metered, strlen(metered)) == 0;
    r->taken = takes ? &r->held : NULL;
    make(r, takes ? line + strlen(metered) : line);
    if (takes)
        leave_list(r);
    printf(" %" PRIu16 "\n", r->state.key_requests);
}

int main(void)
{
    run r = {fortuna_new(), lend_quotas(0), NULL};
    char *line = NULL;
    size_t room = 0;
    while (getline(&line, &room, stdin) > 0) {
        line[strcspn(line, "\n")] = '\0';
        answer(&r, line);
    }
    give_back_quotas(r.held);
    free(line);
    return 0;
}
