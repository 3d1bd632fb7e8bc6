/*
 * The functions of the static library libcec_abi.a, for callers in C.
 *
 * The frames, refusal numbers and lines are those of document 01, 'Lines on the wire' and
 * 'Refusals by the place of the check'. Each function says below what every number and byte
 * that it may write holds afterwards, after a refusal too.
 *
 * Rules for every call: a pointer leads to as many elements as its length or its array size
 * says, the buffers of one call do not overlap, and what is const is only read.
 */
#ifndef CEC_H
#define CEC_H

#include <stddef.h>
#include <stdint.h>

#ifdef __cplusplus
extern "C" {
#endif

/*
 * The kinds of frame, and their fields in order, with the bytes that each field has on the line:
 *
 *   0x01        header                       inputs (1), gates (2), outputs (1)
 *   0x02, 0x03  AND gate, XOR gate           two literals (2 each)
 *   0x04        output                       literal (2)
 *   0x11        resolve                      first clause, second clause, variable (2 each)
 *   0x12, 0x13  extend by AND, by XOR        two literals (2 each)
 *   0x21        report                       refusal (1), line (3), steps (2), clauses (2)
 *
 * A byte is two digits out of 0-9 and A-F, and a line ends in LF. The longest line, a report's,
 * has 19 bytes with its LF. cec_read_frame and cec_write_frame do not test the fields against the
 * limits of a list: a header of 255 inputs is read and written like any other.
 */

/*
 * Reads a text of one line.
 *
 * reply[0]     0 if a frame was read, else the refusal number
 * reply[1]     0 if a frame was read, else the line of the refusal, counted from 1
 * reply[2]     the kind
 * reply[3..6]  the fields in the order of the table, zeros behind them
 *
 * After a refusal reply[2] to reply[6] are 0. The first of these faults is given:
 *
 *   2, line 1  there is no byte at all, or line 1 has a byte other than 0-9, A-F and its LF,
 *              or the text ends before the LF of line 1
 *   3, line 1  line 1 is empty, its kind is outside the table, or its length is wrong for its kind
 *   2, line 2  bytes follow line 1, and the line that they begin has a byte other than 0-9, A-F
 *              and its LF, or ends without LF
 *   3, line 2  a second line follows that has no such fault, also an empty one
 */
void cec_read_frame(const uint8_t *text, size_t text_len, uint64_t reply[7]);

/*
 * Writes the frame of this kind with these fields as a line from the start of out. The frame has
 * as many fields as the table says; the rest of fields is not looked at.
 *
 * reply[0]  0 if the line was written, else the refusal number
 * reply[1]  0: these refusals belong to no line of a text
 * reply[2]  the length of the line with its LF, 0 after a refusal
 *
 * out holds the line and zeros behind it up to out_len. After a refusal all of out is zero. The
 * first of these faults is given:
 *
 *   3   the kind is outside the table, or a field other than a report's line does not fit its
 *       bytes
 *   16  a report's line is above 0xFFFFFF, or out is shorter than the line
 */
void cec_write_frame(uint8_t kind, const uint64_t fields[4], uint8_t *out, size_t out_len,
                     uint64_t reply[3]);

/*
 * A gate list is one header, then its gates, then its outputs. The header counts 0 to 64 inputs,
 * 0 to 1,024 gates and 1 to 64 outputs. Net 0 is constant false, nets 1 to the number of inputs
 * are the inputs, and the gates follow in order. A literal is 2 * net, and 1 more if complemented.
 * A gate reads only nets below its own; an output reads any net of its list.
 *
 * A text of lists is read from the top, and the first fault ends the reading. Lines are counted
 * from 1 over the whole text. Where a frame of a list is due, the first of these faults is given:
 *
 *   4  the text has ended; the line is one past the last
 *   2  the line has a byte other than 0-9, A-F and its LF, or the text ends before its LF
 *   3  the line is empty, its kind is not due here, or its length is wrong for its kind
 *   5  a count of a header is outside its range
 *   6  the right list's header has inputs or outputs unlike the left list's
 *   7  a literal of a gate or an output is over a net that it may not read
 *
 * Behind the last list the text has to end. A line that follows is one of these faults:
 *
 *   2  the line has a byte other than 0-9, A-F and its LF, or the text ends before its LF
 *   3  the line has no such fault, also an empty one
 */

/*
 * Reads a text of one list.
 *
 * reply[0]  0 if the list was read, else the refusal number: 2, 3, 4, 5 or 7 as above
 * reply[1]  0 if the list was read, else the line of the refusal
 * reply[2]  the number of inputs
 * reply[3]  the number of gates
 * reply[4]  the number of outputs
 *
 * After a refusal reply[2] to reply[4] are 0.
 */
void cec_read_list(const uint8_t *text, size_t text_len, uint64_t reply[5]);

/*
 * Reads a text of two lists, the left one and then the right one. They have the same number of
 * inputs and the same number of outputs; their numbers of gates may differ. The right list's
 * literals are over its own nets, numbered as if it stood alone.
 *
 * reply[0]  0 if both lists were read, else the refusal number: 2 to 7 as above
 * reply[1]  0 if both lists were read, else the line of the refusal
 * reply[2]  the number of inputs of each list
 * reply[3]  the number of gates of the left list
 * reply[4]  the number of gates of the right list
 * reply[5]  the number of outputs of each list
 *
 * After a refusal reply[2] to reply[5] are 0.
 */
void cec_read_lists(const uint8_t *text, size_t text_len, uint64_t reply[6]);

/*
 * Reads a text of one list and evaluates the list on a pattern: bit k - 1 of pattern is input k,
 * and its bits from the number of inputs up are ignored.
 *
 * reply[0]  0 if the list was evaluated, else the refusal number
 * reply[1]  0 if the list was evaluated, else the line of the refusal
 * reply[2]  the word: bit k - 1 is output k, the others are 0; all of it is 0 after a refusal
 *
 * All of work is zero afterwards, up to work_len, in every case. What it held before does not
 * matter. The first of these faults is given:
 *
 *   2, 3, 4, 5 or 7  the text is refused as by cec_read_list, with the same line
 *   17, line 0       work_len is below 1 + inputs + gates
 */
void cec_evaluate(const uint8_t *text, size_t text_len, uint64_t pattern, uint8_t *work,
                  size_t work_len, uint64_t reply[3]);

/*
 * Checks a proof that two lists agree on every pattern. The text is the left list, the right list,
 * and the proof's lines to the end, as document 01 has them under 'The miter's clauses' and 'Steps'.
 *
 * reply[0]  0 if the proof was accepted, else the refusal number
 * reply[1]  0 if the proof was accepted, else the line of the refusal
 * reply[2]  the number of the proof's lines, 0 after a refusal
 * reply[3]  the number of clauses, the miter's and the steps', 0 after a refusal
 *
 * Where reply[0] is 0, both lists give the same word on every pattern, whatever the store's length.
 *
 * A clause takes eight numbers of store, so store holds store_len / 8 clauses, at most 65,535.
 * What it held before does not matter. After acceptance the eight from 8 * (k - 1) are clause k:
 * each literal plus one, rising, then zeros; and zeros stand behind the last clause, up to
 * store_len. After a refusal all of store is zero. The first of these faults is given, where
 * reading goes from the top:
 *
 *   2 to 7      the lists are refused as by cec_read_lists, with the same line; lines may follow them
 *   8, line 0   the store has no room for the miter's clauses
 *
 * Of a proof line the first of these, with the line:
 *
 *   2   the line has a byte other than 0-9, A-F and its LF, or the text ends before its LF
 *   3   the line is empty, its kind is no step's, or its length is wrong for its kind
 *   9   resolve: a clause number is 0 or past the last
 *   10  resolve: the first clause does not hold the variable, or the second not its complement
 *   11  resolve: the result has over 8 literals
 *   12  extend: a literal is over a variable not in use
 *   13  extend: the new variable would be 16,384
 *   14  the store has no room for the step's clauses
 *
 * And behind the last line:
 *
 *   15, line 0  there is no proof line, or the last is no resolve whose clause is empty
 */
void cec_check(const uint8_t *text, size_t text_len, uint16_t *store, size_t store_len,
               uint64_t reply[4]);

/*
 * Writes a proof that the two lists of a text agree on every pattern, exactly when each pair of
 * their outputs has the same folded form (document 01, 'Folded form and the engine').
 *
 * reply[0]  0 if a proof was written, else the refusal number
 * reply[1]  0 if a proof was written, else the line of the refusal; for 18 the output, from 1
 * reply[2]  the number of the proof's lines, 0 after a refusal
 *
 * proof holds the lines, 15 bytes each, from its start, and zeros behind them up to proof_len. The
 * text with these lines behind it is accepted by cec_check with a store of 8 * 65,535 numbers, and
 * the lines are at most 16 * gates of both lists + 12 * outputs. After a refusal all of proof is
 * zero. All of work is zero afterwards in every case. What proof and work held before does not
 * matter. The first of these faults is given:
 *
 *   2 to 7      the text is refused as by cec_read_lists, with the same line
 *   16, line 0  proof_len is below 15 * (16 * gates of both lists + 12 * outputs)
 *   17, line 0  work_len is below 16 * (1 + inputs + gates of both lists)
 *   18          the forms of an output differ, though both lists may agree; the first such output
 */
void cec_prove(const uint8_t *text, size_t text_len, uint8_t *proof, size_t proof_len,
               uint16_t *work, size_t work_len, uint64_t reply[3]);

#ifdef __cplusplus
}
#endif

#endif
