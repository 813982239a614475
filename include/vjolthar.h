/*
 * Vjolthar decides which columns of a register may leave the office together.
 *
 * The same words stand in docs/PROMISES.md, "The C interface", with the
 * definitions and proofs behind them. docs/MANUAL.md has the form of a job text
 * and of the page that the program split prints for it.
 *
 * Every function takes numbers and slices and returns a refusal's number, or 0
 * if nothing is refused. A slice is a pointer to its first place and the count
 * of its places; with the count 0 the pointer is not looked at and may be NULL.
 * A slice that is const is read only; the others are lent to be written. The
 * numbers of the answer are written through the pointers that come last,
 * refused or not; these are never NULL. A constant here is the most that there
 * can be of a thing, and a slice of as many places has room for it.
 *
 * Any numbers and any bytes may come. For every input the answer and every
 * place of every lent slice afterwards is determined; places of which nothing
 * is said here stay as they were. What is asked of the caller is C's own: that
 * slices have the places that their counts say, and that what is written
 * overlaps nothing else that is lent.
 *
 * Nothing is kept between calls, no memory is allocated, and calls may run at
 * the same time. A call needs less than 256 KiB of stack; that is tried and not
 * proved.
 *
 * The numbers of a job are the number of columns; the forbidden sets, where
 * column i is bit i of a set; and the marks of the needs, operands before their
 * join: 0 to 15 a column, 16 and, 17 or, 18 the end of a need. They are unfit
 * exactly if there is no column or there are over 16; over 32 sets; a set that
 * is empty or has a column that isn't there; marks behind the last 18; a need
 * without a mark, with a join that finds fewer than two operands before it, or
 * with more than one operand left; a mark over 18 or of a column that isn't
 * there; over 32 column marks in a need; or over 8 needs.
 *
 * A split is a list of sets, its extracts. It is correct exactly if
 * vjolthar_judge calls it right.
 *
 * Refusals:
 * 1 a text over 8,192 bytes; 2 a text not of the form; 3 too many columns,
 * lines or names; 4 a name twice; 5 a name that is no column; 6 another number
 * at the end; 7 unfit numbers, or no such need; 8 a lent slice too short;
 * 9 no correct split exists.
 */
#ifndef VJOLTHAR_H
#define VJOLTHAR_H

#include <stddef.h>
#include <stdint.h>

#ifdef __cplusplus
extern "C" {
#endif

enum {
    VJOLTHAR_TEXT = 8192,
    VJOLTHAR_COLUMNS = 16,
    VJOLTHAR_FORBIDDEN = 32,
    VJOLTHAR_MARKS = 512,
    VJOLTHAR_NAME_BYTES = 12,
    VJOLTHAR_NAMES = 192,
    VJOLTHAR_NODES = 8445,
    VJOLTHAR_PATHS = 32768,
    VJOLTHAR_EXTRACTS = 8,
    VJOLTHAR_PAGE = 296
};

enum {
    VJOLTHAR_AND = 16,
    VJOLTHAR_OR = 17,
    VJOLTHAR_END = 18
};

enum {
    VJOLTHAR_RIGHT = 0,
    VJOLTHAR_IMPROPER = 1,
    VJOLTHAR_FORBIDS = 2,
    VJOLTHAR_SHARES = 3,
    VJOLTHAR_UNMET = 4
};

/*
 * Reads a job text. 8 exactly if forbidden has fewer than 32 places, marks
 * fewer than 512 or names fewer than 192; then nothing is written to them and
 * the numbers are 0. Else 1 to 6 exactly if the text is refused, with its
 * place; then there is no job: the other numbers are 0, and so are the first
 * 32, 512 and 192 places of the slices. Else place is 0, the numbers are how
 * many columns, forbidden sets, needs and marks there are, and the same places
 * hold the forbidden sets, the marks and the columns' names, 12 bytes for each,
 * and 0 where there is nothing.
 */
uint16_t vjolthar_read(
    const uint8_t *text, size_t text_count,
    uint16_t *forbidden, size_t forbidden_count,
    uint16_t *marks, size_t marks_count,
    uint8_t *names, size_t names_count,
    size_t *place, size_t *columns, size_t *sets, size_t *needs, size_t *marked);

/*
 * Draws the condition of the need of index chosen: that the need is true of a
 * set of columns and the set contains no forbidden set. The index equal to the
 * number of needs stands for "no need", and then only the second is asked. The
 * diagram is the reduced ordered one, which tests column 0 first. Nodes 0 and 1
 * are false and true; the inner nodes are numbered from 2 on, from the root:
 * the low side whole, then the high side whole, then the node itself, each
 * where it is first complete. 7 exactly if the numbers are unfit or there is no
 * such need; else 8 exactly if one of the three slices has fewer than 8,445
 * places. A refusal writes nothing, and root and count are 0. Else they are the
 * root and how many inner nodes there are, and of node k place k-2 of column,
 * low and high has the column that it tests, the node where that is 0 and the
 * node where that is 1.
 */
uint16_t vjolthar_diagram(
    size_t columns,
    const uint16_t *forbidden, size_t forbidden_count,
    const uint16_t *marks, size_t marks_count,
    size_t chosen,
    uint16_t *column, size_t column_count,
    uint16_t *low, size_t low_count,
    uint16_t *high, size_t high_count,
    uint16_t *root, uint16_t *count);

/*
 * Draws the diagram as vjolthar_diagram does and lists its one-paths, low side
 * first: of path k, place k of ones has the columns set to 1, and place k of
 * zeros those set to 0, as sets. Refused as vjolthar_diagram is, and also with
 * 8 exactly if there are more paths than the shorter of ones and zeros has
 * places; then the diagram is written and no path. After a refusal root, count
 * and paths are 0. Else paths is how many paths there are, never more than
 * 32,768.
 */
uint16_t vjolthar_one_paths(
    size_t columns,
    const uint16_t *forbidden, size_t forbidden_count,
    const uint16_t *marks, size_t marks_count,
    size_t chosen,
    uint16_t *column, size_t column_count,
    uint16_t *low, size_t low_count,
    uint16_t *high, size_t high_count,
    uint16_t *ones, size_t ones_count,
    uint16_t *zeros, size_t zeros_count,
    uint16_t *root, uint16_t *count, uint16_t *paths);

/*
 * Judges a list of sets as the split of a job. 7 exactly if the numbers are
 * unfit; then fault, first and second are 0. Else fault is the first that holds
 * of: 1, extract first is empty or has a column that isn't there; 2, extract
 * first contains forbidden set second; 3, extracts first and second, first
 * below second, share a column; 4, need first is true of no extract; or 0, the
 * split is right. Extracts, sets and needs are counted from 0. Among faults of
 * a kind the one with the smallest first, then second, is told; what a fault
 * has no use for is 0.
 */
uint16_t vjolthar_judge(
    size_t columns,
    const uint16_t *forbidden, size_t forbidden_count,
    const uint16_t *marks, size_t marks_count,
    const uint16_t *split, size_t split_count,
    uint16_t *fault, size_t *first, size_t *second);

/*
 * Plans a job: of all correct splits those with the fewest extracts, of these
 * those with the fewest columns in all, and of these, written as rising
 * numbers, the one whose first differing number is smaller. 7 exactly if the
 * numbers are unfit, else 8 exactly if extracts has fewer than 8 places, else 9
 * exactly if no correct split exists. A refusal writes nothing, and count is 0.
 * Else count is how many extracts there are, and they stand rising in the first
 * places of extracts.
 */
uint16_t vjolthar_plan(
    size_t columns,
    const uint16_t *forbidden, size_t forbidden_count,
    const uint16_t *marks, size_t marks_count,
    uint16_t *extracts, size_t extracts_count,
    uint16_t *count);

/*
 * Reads a job text, plans its job and writes the page that the program split
 * prints. 8 exactly if page has fewer than 296 places; then nothing is written,
 * and place and length are 0. Else 1 to 6 with their place exactly if the text
 * is refused, 9 with place 0 exactly if no correct split exists, and 0 with
 * place 0 exactly if one does; the page, a refusal's too, stands in the first
 * length places of page.
 */
uint16_t vjolthar_report(
    const uint8_t *text, size_t text_count,
    uint8_t *page, size_t page_count,
    size_t *place, size_t *length);

#ifdef __cplusplus
}
#endif

#endif
