/* What C has and the proofs can't speak of: NULL for empty slices, the header's numbers, and how much stack a call takes. */
#include <pthread.h>
#include <stdio.h>
#include <string.h>
#include "vjolthar.h"

/* the header says that no call needs more */
#define STACK (256 * 1024)

static int passed, failed;

static void expect(const char *what, int holds) {
    printf("library: %s: %s\n", what, holds ? "as expected" : "NOT AS EXPECTED");
    holds ? passed++ : failed++;
}

static uint16_t column[VJOLTHAR_NODES], low[VJOLTHAR_NODES], high[VJOLTHAR_NODES], ones[VJOLTHAR_PATHS], zeros[VJOLTHAR_PATHS];
static uint16_t forbidden[VJOLTHAR_FORBIDDEN], marks[VJOLTHAR_MARKS], extracts[VJOLTHAR_EXTRACTS];
static uint8_t text[VJOLTHAR_TEXT + 1], names[VJOLTHAR_NAMES], page[VJOLTHAR_PAGE];
static uint16_t root, count, paths, fault;
static size_t bytes, place, length, columns, sets, needs, marked, first, second;
static const uint16_t column_a[] = {0, VJOLTHAR_END};

static void empty_slices(void) {
    expect("an empty text at NULL is 2 at 0",
           vjolthar_report(NULL, 0, page, VJOLTHAR_PAGE, &place, &length) == 2 && place == 0
               && length == strlen("result=refused\nnumber=2\nplace=0\n"));
    expect("a page at NULL is 8", vjolthar_report(NULL, 0, NULL, 0, &place, &length) == 8 && length == 0);
    expect("a job without sets and needs has no extracts",
           vjolthar_plan(1, NULL, 0, NULL, 0, extracts, VJOLTHAR_EXTRACTS, &count) == 0 && count == 0);
    expect("a job without needs and no split are right",
           vjolthar_judge(1, NULL, 0, NULL, 0, NULL, 0, &fault, &first, &second) == 0 && fault == VJOLTHAR_RIGHT);
    expect("a diagram at NULL is 8",
           vjolthar_diagram(1, NULL, 0, NULL, 0, 0, NULL, 0, NULL, 0, NULL, 0, &root, &count) == 8 && count == 0);
    expect("reading to NULL is 8",
           vjolthar_read(NULL, 0, NULL, 0, NULL, 0, NULL, 0, &place, &columns, &sets, &needs, &marked) == 8);
}

/* with as many places as the header says, less `fewer` at one slice */
static int read_with(size_t forbidden_fewer, size_t marks_fewer, size_t names_fewer) {
    return vjolthar_read((const uint8_t *)"columns=a\nend=0\n", 16, forbidden, VJOLTHAR_FORBIDDEN - forbidden_fewer, marks,
                         VJOLTHAR_MARKS - marks_fewer, names, VJOLTHAR_NAMES - names_fewer, &place, &columns, &sets, &needs, &marked);
}

static int draw_with(size_t fewer) {
    return vjolthar_diagram(1, NULL, 0, column_a, 2, 0, column, VJOLTHAR_NODES - fewer, low, VJOLTHAR_NODES, high, VJOLTHAR_NODES, &root, &count);
}

/* the one path of a need of one column, where the path slices have this many places */
static int list_with(size_t places) {
    return vjolthar_one_paths(1, NULL, 0, column_a, 2, 0, column, VJOLTHAR_NODES, low, VJOLTHAR_NODES, high, VJOLTHAR_NODES, ones, places, zeros,
                              places, &root, &count, &paths);
}

static void rooms(void) {
    expect("VJOLTHAR_FORBIDDEN, VJOLTHAR_MARKS and VJOLTHAR_NAMES are enough and no more",
           read_with(0, 0, 0) == 0 && columns == 1 && read_with(1, 0, 0) == 8 && read_with(0, 1, 0) == 8 && read_with(0, 0, 1) == 8);
    expect("VJOLTHAR_NODES is enough and no more", draw_with(0) == 0 && root == 2 && count == 1 && draw_with(1) == 8);
    expect("the node of a need of one column is false where it is 0 and true where it is 1", column[0] == 0 && low[0] == 0 && high[0] == 1);
    expect("as many places as paths are enough and no fewer",
           list_with(1) == 0 && paths == 1 && ones[0] == 1 && zeros[0] == 0 && list_with(0) == 8 && paths == 0);
    expect("VJOLTHAR_EXTRACTS is enough and no more",
           vjolthar_plan(1, NULL, 0, column_a, 2, extracts, VJOLTHAR_EXTRACTS, &count) == 0 && count == 1 && extracts[0] == 1
               && vjolthar_plan(1, NULL, 0, column_a, 2, extracts, VJOLTHAR_EXTRACTS - 1, &count) == 8);
    expect("VJOLTHAR_PAGE is enough and no more",
           vjolthar_report(NULL, 0, page, VJOLTHAR_PAGE, &place, &length) == 2
               && vjolthar_report(NULL, 0, page, VJOLTHAR_PAGE - 1, &place, &length) == 8);
    expect("VJOLTHAR_NAMES has a name for each of VJOLTHAR_COLUMNS", VJOLTHAR_NAMES == VJOLTHAR_NAME_BYTES * VJOLTHAR_COLUMNS);
}

/* the fault of a split of two columns, both needed, which are forbidden together */
static int fault_of(const uint16_t *split, size_t extracts) {
    static const uint16_t together[] = {3}, both[] = {0, 18, 1, 18};
    return vjolthar_judge(2, together, 1, both, 4, split, extracts, &fault, &first, &second) == 0 ? fault : -1;
}

static void kinds(void) {
    static const uint16_t improper[] = {1, 4}, forbids[] = {1, 3}, shares[] = {1, 2, 1}, unmet[] = {1}, right[] = {1, 2};
    expect("VJOLTHAR_IMPROPER", fault_of(improper, 2) == VJOLTHAR_IMPROPER && first == 1 && second == 0);
    expect("VJOLTHAR_FORBIDS", fault_of(forbids, 2) == VJOLTHAR_FORBIDS && first == 1 && second == 0);
    expect("VJOLTHAR_SHARES", fault_of(shares, 3) == VJOLTHAR_SHARES && first == 0 && second == 2);
    expect("VJOLTHAR_UNMET", fault_of(unmet, 1) == VJOLTHAR_UNMET && first == 1 && second == 0);
    expect("VJOLTHAR_RIGHT", fault_of(right, 2) == VJOLTHAR_RIGHT && first == 0 && second == 0);
}

static void *every_call(void *unused) {
    vjolthar_read(text, bytes, forbidden, VJOLTHAR_FORBIDDEN, marks, VJOLTHAR_MARKS, names, VJOLTHAR_NAMES, &place, &columns, &sets, &needs, &marked);
    vjolthar_diagram(columns, forbidden, sets, marks, marked, 0, column, VJOLTHAR_NODES, low, VJOLTHAR_NODES, high, VJOLTHAR_NODES, &root, &count);
    vjolthar_one_paths(columns, forbidden, sets, marks, marked, 0, column, VJOLTHAR_NODES, low, VJOLTHAR_NODES, high, VJOLTHAR_NODES, ones,
                       VJOLTHAR_PATHS, zeros, VJOLTHAR_PATHS, &root, &count, &paths);
    vjolthar_plan(columns, forbidden, sets, marks, marked, extracts, VJOLTHAR_EXTRACTS, &count);
    vjolthar_judge(columns, forbidden, sets, marks, marked, extracts, count, &fault, &first, &second);
    vjolthar_report(text, bytes, page, VJOLTHAR_PAGE, &place, &length);
    return unused;
}

/* every call on the text of standard input; one that took more stack would end the program */
static void little_stack(void) {
    pthread_attr_t small;
    pthread_t thread;
    bytes = fread(text, 1, sizeof text, stdin);
    int started = pthread_attr_init(&small) == 0 && pthread_attr_setstacksize(&small, STACK) == 0
                  && pthread_create(&thread, &small, every_call, NULL) == 0 && pthread_join(thread, NULL) == 0;
    expect("every call with 256 KiB of stack", started && length > 13 && memcmp(page, "result=split\n", 13) == 0);
    expect("what was read has its needs and marks apart, and its plan is right", needs == 8 && marked > needs && paths > 0 && fault == VJOLTHAR_RIGHT);
}

int main(void) {
    empty_slices();
    rooms();
    kinds();
    little_stack();
    printf("%d passed, %d failed\n", passed, failed);
    return failed != 0;
}
