/* A host in C: a renderer's camera samples on their way to an instrument, and a camera cut.
 *
 * Three windows follow one another: the renderer (partition 0), a mover window, the instrument (partition 1). The renderer
 * writes a sample, a move carries it over the one channel, the instrument reads it. At the cut the renderer writes nothing
 * new for a while. Since a sample is moved once, a second move finds nothing to carry: the old picture cannot arrive as
 * fresh again. The instrument's copy grows older, and past its refresh period it reads as not valid.
 *
 * Build: cc -std=c99 -Iinclude examples/camera.c target/staticlib/libhost.a -o camera
 * It ends with status 1 where something is not as told here.
 */
#include <stdio.h>
#include <stdlib.h>
#include <string.h>

#include "mueanphrai.h"

enum { RENDERER = 0, INSTRUMENT = 1 };   /* the partitions */
enum { FROM = 1, TO = 2, CHANNEL = 0 };  /* the ports' ids, and the channel between them */
enum { LARGEST = 16, REFRESH = 40, RECORDS = 6 };

static uint8_t tables[RECORDS * MUEANPHRAI_TABLE_RECORD];
static uint8_t state[MUEANPHRAI_STATE_SIZE];
static uint8_t answer[MUEANPHRAI_ANSWER];

/* What the story says must be so; a story that is not so ends here. */
static void must(int so, const char *what)
{
    if (!so) {
        printf("NOT SO: %s\n", what);
        exit(1);
    }
}

/* Table records, by number; bytes not set are zero. */

static uint8_t *record(int number, uint8_t kind)
{
    uint8_t *bytes = tables + number * (int)MUEANPHRAI_TABLE_RECORD;
    bytes[MUEANPHRAI_RECORD_KIND] = kind;
    return bytes;
}

static void window(int number, uint8_t whose, uint8_t ticks)
{
    uint8_t *bytes = record(number, MUEANPHRAI_KIND_WINDOW);
    bytes[MUEANPHRAI_WINDOW_PARTITION] = whose;
    bytes[MUEANPHRAI_WINDOW_LENGTH] = ticks;
}

static void sampling_port(int number, uint8_t owner, uint8_t direction, uint8_t refresh)
{
    uint8_t *bytes = record(number, MUEANPHRAI_KIND_PORT);
    bytes[MUEANPHRAI_PORT_OWNER] = owner;
    bytes[MUEANPHRAI_PORT_MODE] = MUEANPHRAI_SAMPLING;
    bytes[MUEANPHRAI_PORT_DIRECTION] = direction;
    bytes[MUEANPHRAI_PORT_LARGEST] = LARGEST;
    bytes[MUEANPHRAI_PORT_REFRESH] = refresh;
    memcpy(bytes + MUEANPHRAI_PORT_NAME, "CAMERA", 6);
}

static void channel(int number, uint8_t source, uint8_t destination)
{
    uint8_t *bytes = record(number, MUEANPHRAI_KIND_CHANNEL);
    bytes[MUEANPHRAI_CHANNEL_COUNT] = 1;
    bytes[MUEANPHRAI_CHANNEL_SOURCE] = source;
    bytes[MUEANPHRAI_CHANNEL_DESTINATIONS] = destination;
}

/* Events. Each is made from zeros, with the fields that its code uses, and is one step of the kernel; what comes back is the
 * answer's code. */

static uint8_t event[MUEANPHRAI_EVENT];

static void begin(uint8_t code)
{
    memset(event, 0, sizeof event);
    event[MUEANPHRAI_EVENT_CODE] = code;
}

static uint8_t step(void)
{
    must(mueanphrai_step(tables, sizeof tables, state, sizeof state, event, sizeof event, answer, sizeof answer) == 0,
         "the kernel takes the event");
    return answer[MUEANPHRAI_ANSWER_CODE];
}

static void next_window(void)
{
    begin(MUEANPHRAI_SCHEDULE);
    must(step() == MUEANPHRAI_NO_ERROR, "the schedule goes on");
}

static void create(uint8_t direction, uint8_t refresh)
{
    begin(MUEANPHRAI_CREATE_SAMPLING_PORT);
    event[MUEANPHRAI_EVENT_DIRECTION] = direction;
    event[MUEANPHRAI_EVENT_REFRESH] = refresh;
    event[MUEANPHRAI_EVENT_LARGEST] = LARGEST;
    memcpy(event + MUEANPHRAI_EVENT_NAME, "CAMERA", 6);
    must(step() == MUEANPHRAI_NO_ERROR, "the port is created");
    begin(MUEANPHRAI_SET_PARTITION_MODE);
    event[MUEANPHRAI_EVENT_NEW_MODE] = MUEANPHRAI_NORMAL;
    must(step() == MUEANPHRAI_NO_ERROR, "the partition goes to NORMAL");
}

static void write_picture(const char *picture)
{
    begin(MUEANPHRAI_WRITE_SAMPLING_MESSAGE);
    event[MUEANPHRAI_EVENT_PORT] = FROM;
    event[MUEANPHRAI_EVENT_MESSAGE_LENGTH] = (uint8_t)strlen(picture);
    memcpy(event + MUEANPHRAI_EVENT_MESSAGE, picture, strlen(picture));
    must(step() == MUEANPHRAI_NO_ERROR, "the renderer writes");
}

static uint8_t move(void)
{
    begin(MUEANPHRAI_TRANSMIT);
    event[MUEANPHRAI_EVENT_CHANNEL] = CHANNEL;
    return step();
}

static uint8_t read_picture(void)
{
    begin(MUEANPHRAI_READ_SAMPLING_MESSAGE);
    event[MUEANPHRAI_EVENT_PORT] = TO;
    return step();
}

/* One turn of the schedule: the renderer writes a picture or nothing, the mover moves, the instrument reads. */
static void turn(const char *picture, uint8_t moved, const char *seen, uint8_t valid)
{
    size_t start, length;
    int is_valid;
    if (picture != NULL)
        write_picture(picture);
    printf("renderer writes %-10s", picture != NULL ? picture : "nothing,");
    next_window();
    must(move() == moved, "a sample is moved once");
    printf(" %-18s", moved == MUEANPHRAI_NO_ERROR ? "it is moved," : "nothing to move,");
    next_window();
    must(read_picture() == MUEANPHRAI_NO_ERROR, "the instrument reads");
    start = mueanphrai_message_start(answer, sizeof answer, 0);
    length = mueanphrai_message_length(answer, sizeof answer, 0);
    is_valid = answer[MUEANPHRAI_ANSWER_VALIDITY] == MUEANPHRAI_VALID;
    printf(" instrument reads %.*s, %s\n", (int)length, (const char *)answer + start, is_valid ? "valid" : "NOT valid");
    must(length == strlen(seen) && memcmp(answer + start, seen, length) == 0, "the picture is the one expected");
    must(answer[MUEANPHRAI_ANSWER_VALIDITY] == valid, "its validity is the one expected");
    next_window();
}

int main(void)
{
    uint8_t code;
    window(0, RENDERER, 10);
    window(1, MUEANPHRAI_MOVER, 5);
    window(2, INSTRUMENT, 20);
    sampling_port(3, RENDERER, MUEANPHRAI_SOURCE, 0);
    sampling_port(4, INSTRUMENT, MUEANPHRAI_DESTINATION, REFRESH);
    channel(5, FROM, TO);
    code = mueanphrai_load(tables, sizeof tables, state, sizeof state);
    printf("load: code %u\n", code);
    must(code == 0, "the tables are accepted");

    create(MUEANPHRAI_SOURCE, 0);
    next_window();
    next_window();
    create(MUEANPHRAI_DESTINATION, REFRESH);
    next_window();

    turn("harbour-1", MUEANPHRAI_NO_ERROR, "harbour-1", MUEANPHRAI_VALID);
    turn("harbour-2", MUEANPHRAI_NO_ERROR, "harbour-2", MUEANPHRAI_VALID);
    puts("-- cut: the camera leaves the harbour, the next picture is not ready");
    turn(NULL, MUEANPHRAI_NO_ACTION, "harbour-2", MUEANPHRAI_VALID);     /* age 40 at refresh 40 */
    turn(NULL, MUEANPHRAI_NO_ACTION, "harbour-2", MUEANPHRAI_NOT_VALID); /* the same bytes, but the instrument is told */
    puts("-- the first picture after the cut");
    turn("bridge-1", MUEANPHRAI_NO_ERROR, "bridge-1", MUEANPHRAI_VALID);
    turn(NULL, MUEANPHRAI_NO_ACTION, "bridge-1", MUEANPHRAI_VALID); /* no move brings the harbour back */
    puts("the old sample is not seen again");
    return 0;
}
