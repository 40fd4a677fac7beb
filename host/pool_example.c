/* How two masters keep a mirrored pool, here in one process, the line between them a copy of bytes: strips
 * are added and taken, a message and an answer are lost and sent again, both masters lose power and start
 * again, the active's power is cut in the middle of a taking, and the standby goes on alone. No number is
 * handed out twice.
 *
 * The hosts keep the rule: nothing leaves a cabinet, be it a message, an answer or a strip, before the state
 * and the rooms that it comes from are stored. See `store` and the three places that call it. */
#include "fresh_strip.h"
#include "tally.h"
#include "wrapper.h"

struct pool {
    uint8_t state[SALCIVORN_POOL_STATE_SIZE];
    uint8_t rooms[SALCIVORN_POOL_ROOMS_SIZE];
};

/* What the calls are lent, and what was stored last. */
struct master {
    const char *name;
    struct pool pool, stored;
};

/* What is on the line; a length of 0 where nothing is. */
struct bytes {
    uint8_t bytes[SALCIVORN_POOL_MESSAGE_SIZE];
    size_t length;
};

enum { STRIPS = 5 };

#define LENT(buffer) (buffer), sizeof(buffer)

static struct master active = {"active", {.state = {SALCIVORN_POOL_ACTIVE}}, {.state = {SALCIVORN_POOL_ACTIVE}}};
static struct master standby = {"standby", {.state = {SALCIVORN_POOL_STANDBY}}, {.state = {SALCIVORN_POOL_STANDBY}}};
static unsigned handed_out[STRIPS + 1]; /* how often, for each number */
static struct tally tally;

static void expect(const struct master *master, const char *what, uint32_t refused, uint32_t expected)
{
    if (refused == SALCIVORN_DONE)
        printf("%-8s %s\n", master->name, what);
    else
        printf("%-8s %s: refused with %u\n", master->name, what, (unsigned)refused);
    tally_check(&tally, refused == expected, what);
}

/* State and rooms go to where a power failure does not reach, whole or not at all, and over what was stored
 * before: a copy stands here for that. A host has to know that it is done, and that no older copy is found
 * again. */
static void store(struct master *master)
{
    master->stored = master->pool;
    printf("%-8s is stored\n", master->name);
}

/* All that was not stored is gone, and nobody outside has heard of it. */
static void restart(struct master *master)
{
    master->pool = master->stored;
    printf("%-8s loses power, and starts again from what was stored last\n", master->name);
}

/* A strip was handed out when its number is not 0. It leaves when that is stored: it would now serve a
 * block, which wipes it. */
static void look_at(struct master *master, const uint8_t number[SALCIVORN_POOL_NUMBER_SIZE])
{
    if (number[3] == 0)
        return;
    store(master);
    printf("%-8s hands out strip %u\n", master->name, (unsigned)number[3]);
    tally_check(&tally, number[3] <= STRIPS && handed_out[number[3]]++ == 0, "handed out once");
}

/* The pool only reads the strip, so the host's own copy is wiped here; volatile, lest the compiler leave it out. */
static void add(void)
{
    uint8_t strip[SALCIVORN_STRIP_SIZE_16];

    fresh_strip(strip);
    expect(&active, "adds a strip", salcivorn_checked_pool_add(LENT(active.pool.state), LENT(active.pool.rooms), LENT(strip)),
           SALCIVORN_DONE);
    for (size_t i = 0; i < sizeof strip; i++)
        *(volatile uint8_t *)&strip[i] = 0;
}

static void take(struct master *master, uint32_t expected)
{
    uint8_t number[SALCIVORN_POOL_NUMBER_SIZE] = {0}, strip[SALCIVORN_POOL_STRIP_SIZE];

    expect(master, "takes a strip",
           salcivorn_checked_pool_take(LENT(master->pool.state), LENT(master->pool.rooms), LENT(number), LENT(strip)), expected);
    look_at(master, number);
}

/* The outstanding message, without the zeros behind it. It leaves, so the active is stored first. */
static struct bytes send(void)
{
    struct bytes message;

    store(&active);
    expect(&active, "sends its message",
           salcivorn_checked_pool_outstanding(LENT(active.pool.state), LENT(active.pool.rooms), LENT(message.bytes)),
           SALCIVORN_DONE);
    message.length = 2 + (size_t)(message.bytes[0] << 8 | message.bytes[1]);
    return message;
}

/* The answer leaves when the standby is stored; where the message is refused there is none. */
static struct bytes apply(const struct bytes *message, uint32_t expected)
{
    struct bytes answer = {.length = SALCIVORN_POOL_ACKNOWLEDGEMENT_SIZE};

    expect(&standby, "gets a message",
           salcivorn_checked_pool_apply(LENT(standby.pool.state), LENT(standby.pool.rooms), message->bytes, message->length,
                                        answer.bytes, answer.length),
           expected);
    if (expected == SALCIVORN_DONE)
        store(&standby);
    return answer;
}

static void acknowledge(const struct bytes *answer)
{
    uint8_t number[SALCIVORN_POOL_NUMBER_SIZE] = {0}, strip[SALCIVORN_POOL_STRIP_SIZE];

    expect(&active, "gets the answer",
           salcivorn_checked_pool_acknowledge(LENT(active.pool.state), LENT(active.pool.rooms), answer->bytes, answer->length,
                                              LENT(number), LENT(strip)),
           SALCIVORN_DONE);
    look_at(&active, number);
}

/* The message goes over, and its answer comes back. */
static void mirror(void)
{
    struct bytes message = send();
    struct bytes answer = apply(&message, SALCIVORN_DONE);

    acknowledge(&answer);
}

static void lose_a_message_and_an_answer(void)
{
    struct bytes message;

    take(&active, SALCIVORN_DONE);
    send();
    printf("the message is lost\n");
    take(&active, SALCIVORN_POOL_WAITING);
    message = send();
    apply(&message, SALCIVORN_DONE);
    printf("the answer is lost\n");
    mirror();
}

/* What is not stored is forgotten: an addition that nobody has heard of. What is stored is there: a taking
 * whose message was sent, and which is sent again; a taking that the standby has answered; a strip that was
 * handed out, and is not handed out again when the answer comes once more. */
static void restart_both(void)
{
    struct bytes message, answer;

    add();
    restart(&active);
    take(&active, SALCIVORN_DONE);
    send();
    restart(&active);
    message = send();
    answer = apply(&message, SALCIVORN_DONE);
    restart(&standby);
    acknowledge(&answer);
    restart(&active);
    acknowledge(&answer);
}

static void cut_the_power(void)
{
    struct bytes message;

    take(&active, SALCIVORN_DONE);
    message = send();
    apply(&message, SALCIVORN_DONE);
    printf("the active's power is cut before the answer comes: that strip is lost\n");
    expect(&standby, "goes on alone", salcivorn_checked_pool_go_alone(LENT(standby.pool.state)), SALCIVORN_DONE);
    store(&standby);
    apply(&message, SALCIVORN_MESSAGE);
}

int main(void)
{
    for (int i = 0; i < STRIPS; i++) {
        add();
        mirror();
    }
    take(&active, SALCIVORN_DONE);
    mirror();
    lose_a_message_and_an_answer();
    restart_both();
    cut_the_power();
    take(&standby, SALCIVORN_DONE);
    restart(&standby);
    take(&standby, SALCIVORN_POOL_EMPTY);
    for (unsigned number = 1; number <= STRIPS; number++)
        printf("strip %u: handed out %u times\n", number, handed_out[number]);
    return tally_report(&tally);
}
