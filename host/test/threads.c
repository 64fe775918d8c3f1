/* Two threads that use one device, and two that use one controller, without a lock: threads PLAN CALLS. Each call returns what it did, or
 * PN_IN_CALL and has changed nothing: as many conflicts of the address are counted as frames were accepted that show one. Prints how many calls
 * were made and refused. */
#include "nandutable_controller.h"
#include <pthread.h>
#include <stdio.h>
#include <stdlib.h>
#include <unistd.h>

#define THREADS 2

static pn_device device;
static pn_controller controller;
static pn_station station;
static pn_plan plan;
static uint8_t erased[PN_SECTOR_SIZE], text[65536];
static unsigned long calls;

/* What a thread counts. */
struct counts {
    pthread_t thread;
    unsigned long accepted, called, refused, wrong;
    uint32_t wrong_number;
    pn_op op;
};

static struct counts counts[THREADS];

/* An ARP request of another station that uses the address 192.168.0.2, or 192.168.0.1. */
static const uint8_t conflict[2][60] = {
    {0xFF, 0xFF, 0xFF, 0xFF, 0xFF, 0xFF, 2, 0, 0, 0, 0, 9, 8, 6, 0, 1, 8, 0, 6, 4, 0, 1, 2, 0, 0, 0, 0, 9, 192, 168, 0, 2, 0, 0, 0, 0, 0, 0, 192, 168, 0, 7},
    {0xFF, 0xFF, 0xFF, 0xFF, 0xFF, 0xFF, 2, 0, 0, 0, 0, 9, 8, 6, 0, 1, 8, 0, 6, 4, 0, 1, 2, 0, 0, 0, 0, 9, 192, 168, 0, 1, 0, 0, 0, 0, 0, 0, 192, 168, 0, 7}};
/* A Set of the address 192.168.0.2. */
static const uint8_t set[60] = {2, 0, 0, 0, 0, 1, 2, 0, 0, 0, 0, 2, 0x88, 0x92, 0xFE, 0xFD, 4, 0, 0, 0, 0, 1, 0, 0, 0, 18,
                                1, 2, 0, 14, 0, 0, 192, 168, 0, 2, 255, 255, 255, 0, 0, 0, 0, 0};
static const uint8_t ar[16] = {1}, activity[16] = {2};

static int done(void *context, const uint8_t *octets, uint32_t length)
{
    (void)context, (void)octets, (void)length;
    return 0;
}

static int program(void *context, uint32_t sector, uint32_t place, const uint8_t *octets, uint32_t length)
{
    (void)context, (void)sector, (void)place, (void)octets, (void)length;
    return 0;
}

static int erase(void *context, uint32_t sector)
{
    (void)context, (void)sector;
    return 0;
}

static const pn_host host = {NULL, program, erase, done};

static void must(uint32_t answer, const char *what)
{
    if (answer == PN_OK)
        return;
    printf("%s: %s\n", what, pn_strerror(answer));
    exit(1);
}

/* Counts a call: done, refused because of the other thread or of its work, or something else. Returns whether it was done. */
static int count(struct counts *own, uint32_t answer)
{
    own->called++;
    own->refused += answer == PN_IN_CALL;
    if (answer == PN_OK || answer == PN_IN_CALL || answer == PN_HAS_WORK || answer == PN_NO_RECORD || answer == PN_NO_SLOT || answer == PN_REFUSED)
        return answer == PN_OK;
    own->wrong++;
    own->wrong_number = answer;
    return 0;
}

static void *use_device(void *context)
{
    struct counts *own = context;
    pn_op *op = &own->op;
    for (unsigned long i = 0; i < calls; i++) {
        own->accepted += (unsigned long)count(own, pn_frame(&device, op, conflict[0], sizeof conflict[0]));
        count(own, pn_next(&device, op));
        count(own, pn_state(&device, op));
        count(own, pn_tick(&device, op, 3));
        count(own, pn_next(&device, op));
        count(own, pn_output(&device, op, 2, 1));
        count(own, pn_status(&device, op, 1, 1, (int)(i & 1)));
        count(own, pn_taken(&device, op, 0));
    }
    return NULL;
}

static void *use_controller(void *context)
{
    struct counts *own = context;
    pn_op *op = &own->op;
    for (unsigned long i = 0; i < calls; i++) {
        own->accepted += (unsigned long)count(own, pn_controller_frame(&controller, op, conflict[1], sizeof conflict[1]));
        count(own, pn_controller_next(&controller, op));
        count(own, pn_controller_state(&controller, op));
        count(own, pn_controller_tick(&controller, op, 3));
        count(own, pn_controller_next(&controller, op));
        count(own, pn_controller_status(&controller, op, 2, 1, (int)(i & 1)));
    }
    return NULL;
}

/* Lets the threads run until a call was refused: on a busy machine one may end before the other begins. Says what they counted; `found` is asked
 * afterwards. */
static void run(const char *what, void *(*use)(void *), uint32_t (*found)(void))
{
    unsigned long accepted = 0, called = 0, refused = 0;
    alarm(120);
    for (unsigned round = 0; round < 50 && refused == 0; round++) {
        memset(counts, 0, sizeof counts);
        for (unsigned i = 0; i < THREADS; i++)
            if (pthread_create(&counts[i].thread, NULL, use, &counts[i]) != 0)
                exit(2);
        for (unsigned i = 0; i < THREADS; i++) {
            pthread_join(counts[i].thread, NULL);
            accepted += counts[i].accepted;
            called += counts[i].called;
            refused += counts[i].refused;
            if (counts[i].wrong != 0) {
                printf("%s: %lu calls return another number, such as %u: %s\n", what, counts[i].wrong, (unsigned)counts[i].wrong_number,
                       pn_strerror(counts[i].wrong_number));
                exit(1);
            }
        }
    }
    if (found() != accepted) {
        printf("%s: %u conflicts are counted, and %lu frames were accepted that show one\n", what, (unsigned)found(), accepted);
        exit(1);
    }
    printf("%s: %lu calls, %lu refused\n", what, called, refused);
}

static uint32_t of_device(void)
{
    uint32_t conflicts = 0;
    must(pn_conflicts(&device, &counts[0].op, &conflicts), "pn_conflicts");
    return conflicts;
}

static uint32_t of_controller(void)
{
    uint32_t conflicts = 0;
    must(pn_controller_conflicts(&controller, &counts[0].op, &conflicts), "pn_controller_conflicts");
    return conflicts;
}

/* Each function, from a call that has not returned: its number, and nothing changed. */
static void refuse_all(void)
{
    static pn_device copy;
    static pn_controller other;
    pn_op *op = &counts[0].op;
    pn_settings settings;
    uint32_t number;
    device.made = PN_CALLED, controller.made = PN_CALLED;
    copy = device, other = controller;
    if (pn_make(&device, &station) != PN_IN_CALL || pn_boot(&device, op, erased, erased) != PN_IN_CALL || pn_tick(&device, op, 1) != PN_IN_CALL ||
        pn_next(&device, op) != PN_IN_CALL || pn_running(&device, op, &settings) != PN_IN_CALL || pn_left(&device, op, &number) != PN_IN_CALL ||
        pn_lose(&device, op) != PN_IN_CALL || pn_controller_start(&controller, &plan, ar, activity) != PN_IN_CALL ||
        pn_controller_tick(&controller, op, 1) != PN_IN_CALL || pn_controller_next(&controller, op) != PN_IN_CALL ||
        pn_controller_due(&controller, op, &number) != PN_IN_CALL || memcmp(&copy, &device, sizeof copy) != 0 || memcmp(&other, &controller, sizeof other) != 0) {
        printf("a call in a call is accepted, or changes something\n");
        exit(1);
    }
    device.made = PN_MADE, controller.made = PN_MADE;
}

int main(int number, char *words[])
{
    FILE *file = number == 3 ? fopen(words[1], "rb") : NULL;
    if (file == NULL)
        return 64;
    calls = strtoul(words[2], NULL, 10);
    must(pn_plan_read(&plan, text, fread(text, 1, sizeof text, file)), "the plan");
    fclose(file);
    memset(erased, 0xFF, sizeof erased);
    must(pn_plan_station(&plan, &station), "the station");
    memcpy(station.mac, set, 6);
    must(pn_make(&device, &station), "pn_make");
    must(pn_boot(&device, &counts[0].op, erased, erased), "pn_boot");
    must(pn_frame(&device, &counts[0].op, set, sizeof set), "the Set");
    must(pn_carry_out(&device, &counts[0].op, &host), "its work");
    must(pn_controller_start(&controller, &plan, ar, activity), "pn_controller_start");
    must(pn_controller_send(&controller, &counts[0].op, &host), "its work");
    run("device", use_device, of_device);
    run("controller", use_controller, of_controller);
    refuse_all();
    return 0;
}
