/* Hivebasket for C: IGC flight recorder files read and written by proved functions.

   c/build makes the library for each machine, in target/lib/x86_64, target/lib/aarch64 and target/lib/wasm32. Link the one for yours after your own objects:
       cc -Ic program.c target/lib/x86_64/libhivebasket.a

   WHAT IS LENT. Each pointer is followed by the number of its elements (not of bytes); the two stand for a part of memory that is lent for the call and
   not kept. With length 0 nothing is read or written there, and the pointer may be anything, NULL too. With any other length the pointer leads to that many
   elements, aligned as C aligns them; a function cannot test this, and NULL with a length above 0 is the caller's error, as in memcpy. What is lent for writing (the
   pointers without const) overlaps nothing else that is lent in the same call, and no other thread writes to what is lent. Apart from this a function
   answers every input; there is no state, no allocation and no input or output.

   WHAT IS PROVED, of every input that keeps to this: the number returned, and the contents of all that is lent for writing, afterwards, are what the rules say
   (docs/CONTRACTS.md names each function's promise). That the compiler's back end keeps this is not proved.

   THE NUMBER RETURNED is 0 where the call is good, else one of the refusal numbers below.

   THE ANSWER is HIVE_ANSWER numbers, of every function but hive_degrees:
       answer[0], answer[1]   line and byte of a refusal, counted from 1; 0 where none is told, and where the call is good
       answer[2] and on       the values, named with each function; all 0 where refused, but for HIVE_WHOSE of hive_merge; 0 where no value is named
   An answer of another length (or heights, entries that are lent for writing, a number or degrees of another length than is said) is refused with 17 at once, and then nothing that is lent is changed.

   PLACES that lead into memory are told by how many bytes stand before them: text + answer[HIVE_START]. Bytes of refusals and of layouts count from 1.

   A TIME is told and given in seconds of the day: 0 to 86,399, and 86,400 for the leap second, which the line has as 235960.

   DECIMALS. The time, the latitude and the longitude of a fix are each a count with a number of extra decimals, which the columns TDS, LAD and LOD of the I line give: the count of
   seconds or of thousandths of a minute, times ten for each decimal, plus the column's digits. A time has 0 to 3 decimals, a coordinate 0 to 4; 0 without the column, and then the
   count is the plain one. The plain count of any is the count divided by ten for each decimal, in whole numbers. K, N, E, F and C lines have plain counts alone.

   A LINE is given without its CR LF. A LAYOUT is given as the text of the file's own I line, for B lines, J line, for K lines, or M line, for N lines; length 0 says that
   the file has no such line. One that is of another kind, or breaks a rule, is 17. (hive_column_at and hive_write_layout take that line itself: length 0 is 17 there, and hive_column_at
   tells what the line is refused for.) */
#ifndef HIVEBASKET_H
#define HIVEBASKET_H

#include <stddef.h>
#include <stdint.h>

#ifdef __cplusplus
extern "C" {
#endif

enum { HIVE_ANSWER = 16, HIVE_HEIGHTS = 2, HIVE_ENTRIES = 40, HIVE_DEGREES = 2, HIVE_NUMBER = 1 };

/* Refusal numbers. The first field of a line that is against its rule is told by what it holds: HIVE_TIME a time, HIVE_POSITION a latitude or longitude, HIVE_ALTITUDE an
   altitude, HIVE_DATE a date, HIVE_FORM anything else. All five have the same place among the checks: after HIVE_CHARACTER, before HIVE_COLUMN. */
enum {
    HIVE_EMPTY = 1,
    HIVE_TOO_LONG = 2,
    HIVE_LINE_END = 3,
    HIVE_EMPTY_LINE = 4,
    HIVE_KIND = 5,
    HIVE_ORDER = 6,
    HIVE_LENGTH = 7,
    HIVE_CHARACTER = 8,
    HIVE_FORM = 9,
    HIVE_TILE = 10,
    HIVE_TWICE = 11,
    HIVE_WIDTH = 12,
    HIVE_COLUMN = 13,
    HIVE_BACK = 14,
    HIVE_TABLE_FULL = 15,
    HIVE_ENDS_EARLY = 16,
    HIVE_BAD_VALUE = 17,
    HIVE_NO_ROOM = 18,
    HIVE_ABSENT = 19,
    HIVE_NOT_NUMBER = 20,
    HIVE_INPUT_OVER = 21, /* of the listing program alone */
    HIVE_TIME = 22,
    HIVE_POSITION = 23,
    HIVE_ALTITUDE = 24,
    HIVE_DATE = 25,
    HIVE_NOT_SAME = 26,
    HIVE_SHELF = 27,
    HIVE_ID = 28,
    HIVE_ENTRIES_FULL = 29,
    HIVE_NO_RUN = 30,
    HIVE_NOT_FOUND = 31
};

/* Places in every answer. */
enum { HIVE_REFUSED_LINE = 0, HIVE_REFUSED_BYTE = 1 };

/* ---- a file */

/* The usual check of a whole file, with the table of its lines' offsets. Refused with 1 to 16 or 22 to 25; with 16 inside a declaration, and where the file ends before its second
   line. A file with no G line is good, and told as not signed. The table's first entries are set for the lines before the faulty one (16 or good: for all lines); the others stay.
       2 day  3 month  4 year  5 lines  6 B lines  7 K lines  8 bytes of a B line  9 bytes of a K line  10 N lines  11 bytes of an N line
       12 signed: 1 where the file has a G line, else 0 */
enum {
    HIVE_DAY = 2,
    HIVE_MONTH = 3,
    HIVE_YEAR = 4,
    HIVE_LINES = 5,
    HIVE_B_LINES = 6,
    HIVE_K_LINES = 7,
    HIVE_B_LENGTH = 8,
    HIVE_K_LENGTH = 9,
    HIVE_N_LINES = 10,
    HIVE_N_LENGTH = 11,
    HIVE_SIGNED = 12
};
uint32_t hive_check(const uint8_t *file, size_t file_length,
                    uint32_t *table, size_t table_length,
                    uint64_t *answer, size_t answer_length);

/* The strict check, for files of which a claim is made: as hive_check, and refused with 16, behind the last line, where there is no G line. The values are those of hive_check. */
uint32_t hive_check_strict(const uint8_t *file, size_t file_length,
                           uint32_t *table, size_t table_length,
                           uint64_t *answer, size_t answer_length);

/* The usual check without a table: refused with what hive_check refuses, but for 15, and the values are those of hive_check, at the same places. So answer[HIVE_LINES] tells how long a table has
   to be. */
uint32_t hive_count(const uint8_t *file, size_t file_length,
                    uint64_t *answer, size_t answer_length);

/* Line `number`, counted from 1, by the table. 17 where the number is 0 or past the table's length, where the table's entry is neither 0 nor just past a CR LF, and
   where no CR LF comes from there on.
       2 start  3 length */
enum { HIVE_START = 2, HIVE_LINE_LENGTH = 3 };
uint32_t hive_line(const uint8_t *file, size_t file_length,
                   const uint32_t *table, size_t table_length,
                   size_t number,
                   uint64_t *answer, size_t answer_length);

/* The line at a reading place, which is 0 for the first line and then what the step before gave as next. 17 where the place is past the end, or bytes remain and no CR LF
   comes after it. Where no line is left the call is good, the next place is the place given, and the other values are 0.
       2 start  3 length  4 next place  5 found: 1 for a line, 0 where none is left */
enum { HIVE_NEXT_PLACE = 4, HIVE_FOUND = 5 };
uint32_t hive_step(const uint8_t *file, size_t file_length,
                   size_t place,
                   uint64_t *answer, size_t answer_length);

/* Two copies of a file merged into an output: everything up to the end of the last G line, which both must have in common, then the L lines behind it in ascending byte
   order, a line that begins another first, each as often as in the copy that has it more often. The order of the copies changes no byte. Refused with what hive_check_strict
   refuses of the first file, then of the second (without 15), with line and byte; then HIVE_NOT_SAME where the bytes up to the end of the last G lines differ, HIVE_TOO_LONG
   where the merged file would be over 16,777,216 bytes (HIVE_WHOSE tells it from that of a file), and HIVE_NO_ROOM where out is shorter than it, these three with line 0 and
   byte 0. out is unchanged where refused; its bytes behind the merged file stay.
       2 length of the merged file  3 whose the refusal is, told where refused: 1 the first file's, 2 the second's, 0 of neither */
enum { HIVE_MERGED_LENGTH = 2, HIVE_WHOSE = 3 };
uint32_t hive_merge(const uint8_t *first, size_t first_length,
                    const uint8_t *second, size_t second_length,
                    uint8_t *out, size_t out_length,
                    uint64_t *answer, size_t answer_length);

/* ---- the track of a file: all its fixes in one call, as a lent list of records */

/* A record, 64 bytes: line and day at 0 and 4; of the fix the time's count and its decimals at 8 and 12, the latitude's count, letter and decimals at 16, 24 and 25, the longitude's
   at 32, 40 and 41, A or V at 48, pressure and GNSS altitude at 52 and 56. All fields are plain numbers: counts and decimals as DECIMALS says above, letters and validity the bytes of
   the line, altitudes metres. The bytes between the fields are padding, of which nothing is said: compare records field by field. */
struct hive_time {
    uint32_t count;
    uint8_t decimals;
};
struct hive_position {
    uint64_t count;
    uint8_t letter, decimals;
};
struct hive_fix_values {
    struct hive_time time;
    struct hive_position lat, lon;
    uint8_t validity;
    int32_t pressure, gnss;
};
struct hive_record {
    uint32_t line, day;
    struct hive_fix_values fix;
};

/* Record n is the nth B line's: the number of its line, counted from 1, its day, counted from 0, and what hive_fix reads from it. The day rises at each fall of the plain time of over
   43,200 seconds, those to and from E, F, K and N lines counted too. Refused with what hive_check refuses of the file (without 15), with line and byte; then HIVE_NO_ROOM, with line 0
   and byte 0, where the list has fewer records than the file has B lines. No record is changed where refused; records past the last fix stay as they were.
       2 how many records there are: the file's B lines */
enum { HIVE_RECORDS = 2 };
uint32_t hive_track(const uint8_t *file, size_t file_length,
                    struct hive_record *list, size_t list_length,
                    uint64_t *answer, size_t answer_length);

/* ---- columns of a whole file, in a lent list of numbers */

/* The numbers of up to 13 columns of each line of a family: letter is 'B', 'K' or 'N', and codes has three bytes for each code, codes_length / 3 of them. Number n * (codes_length / 3) + c is what
   hive_look_number gives for code c in line n of the family, both counted from 0; HIVE_NO_NUMBER, which no column has, where it refuses with HIVE_NOT_NUMBER. Refused with what hive_check
   refuses of the file (without 15), with line and byte; then, with line 0 and byte 0, HIVE_BAD_VALUE for another letter, or where codes_length is 0, over 39 or no multiple of 3, or a code
   comes twice, then HIVE_ABSENT where the file's layout for the family has no such code, then HIVE_NO_ROOM where the list has fewer numbers than lines times codes. No number is changed where
   refused; numbers past the last row stay as they were.
       2 how many lines of the family there are */
#define HIVE_NO_NUMBER INT64_MIN
enum { HIVE_COLUMN_LINES = 2 };
uint32_t hive_columns(const uint8_t *file, size_t file_length, uint8_t letter,
                      const uint8_t *codes, size_t codes_length,
                      int64_t *list, size_t list_length,
                      uint64_t *answer, size_t answer_length);

/* ---- what each line of a file is, in a lent list of bytes */

/* Byte n of the list, counted from 0, tells what line n + 1 is: its letter, the line's first byte; but HIVE_NOTE for a note, an L line behind the last G line. A file without G lines has no notes, and
   its L lines stay 'L'. Refused with what hive_check refuses of the file (without 15), with line and byte; then HIVE_NO_ROOM, with line 0 and byte 0, where the list has fewer bytes than the file has
   lines. No byte is changed where refused; bytes past the last line's stay as they were.
       2 how many lines there are */
#define HIVE_NOTE 'l'
enum { HIVE_KINDS = 2 };
uint32_t hive_kinds(const uint8_t *file, size_t file_length,
                    uint8_t *kinds, size_t kinds_length,
                    uint64_t *answer, size_t answer_length);

/* ---- a summary beside a file, in a lent list of numbers */

/* Twelve numbers for the whole flight, then twelve for each run of 256 B lines, the last run perhaps shorter. Of the twelve, by the plain counts of time and position:
       0 number of fixes  1 day and 2 seconds of the first  3 day and 4 seconds of the last  5 highest and 6 lowest pressure altitude, in metres
       7 has a position: 1 or 0  8 least and 9 greatest latitude  10 least and 11 greatest longitude, in thousandths of a minute, south and west negative
   Only fixes marked A count for position, all for altitude. A number with nothing to tell is 0.
   With old 0 the summary is made afresh. With another number it is brought up to date: old is the number of fixes of the file that the list was made for. Written are the whole, run
   old / 256, counted from 0, and those behind it; earlier runs stay, and so do the numbers past the last run. Where only B lines were put in behind the last B, E, F, K or N line
   of that file, the list is afterwards as one that is made afresh. Refused with what hive_check refuses of the file (without 15), with line and byte; then, with line 0 and byte 0,
   HIVE_BAD_VALUE where old is over the number of the file's B lines, then HIVE_NO_ROOM where the list is shorter than the summary. The list is unchanged where refused.
       2 how many runs there are */
enum { HIVE_RUNS = 2, HIVE_RUN = 256, HIVE_TOLD = 12 };
enum {
    HIVE_TOLD_FIXES, HIVE_TOLD_FIRST_DAY, HIVE_TOLD_FIRST_SECONDS, HIVE_TOLD_LAST_DAY, HIVE_TOLD_LAST_SECONDS, HIVE_TOLD_HIGHEST, HIVE_TOLD_LOWEST,
    HIVE_TOLD_POSITION, HIVE_TOLD_SOUTH, HIVE_TOLD_NORTH, HIVE_TOLD_WEST, HIVE_TOLD_EAST
};
uint32_t hive_summary(const uint8_t *file, size_t file_length, uint32_t old,
                      int32_t *list, size_t list_length,
                      uint64_t *answer, size_t answer_length);

/* ---- the declaration of a whole file, its points in a lent list of numbers */

/* The declaration of a file: the head in the answer, its points in the list, HIVE_POINT numbers for each, in the order of the lines (take-off, start, turn points, finish, landing):
       0 latitude  1 N or S  2 longitude  3 E or W  4 where its text starts in the file  5 how many bytes that text has
   Refused with what hive_check refuses of the file (without 15), with line and byte; then HIVE_NO_ROOM, with line 0 and byte 0, where the list has fewer numbers than HIVE_POINT for each point.
   The list is unchanged where refused; numbers past the last point's stay as they were. Where the file has no declaration the call is good, all values are 0 and the list stays.
       2 to 10 as hive_head has them  11 how many points: turn points and 4, or 0  12 the number of the head's line, counted from 1
       13 where the head's text starts in the file  14 how many bytes it has */
enum { HIVE_POINTS = 11, HIVE_HEAD_LINE = 12, HIVE_HEAD_TEXT = 13, HIVE_HEAD_TEXT_LENGTH = 14, HIVE_POINT = 6 };
uint32_t hive_declaration(const uint8_t *file, size_t file_length,
                          uint64_t *points, size_t points_length,
                          uint64_t *answer, size_t answer_length);

/* ---- a shelf of flights, in one lent buffer */

/* A shelf is a buffer of 768 to 16,777,216 bytes: a table of contents of 64 entries of 12 bytes, then the bodies of the flights from offset 768 on. An entry is flight number, start and
   length, each a uint32_t with its low byte first; an entry whose flight number is 0 is free, and its other bytes are 0. Bodies have at least one byte, lie inside the part from 768 on and
   don't overlap, and no flight number is used twice. A buffer of zeros is an empty shelf. A buffer that
   breaks one of these rules is refused with HIVE_SHELF by each of the four calls, before all but 17 for the answer's length. A start that was told holds until the shelf is next changed; and a body
   on the shelf is not lent as the file that is added to it, as nothing that is lent for writing overlaps what else is lent.
   What a body says isn't looked at again. Every refusal but the file's own comes with line 0 and byte 0, and the shelf is changed by none. */
enum { HIVE_SHELF_LEAST = 768, HIVE_SHELF_MOST = 16777216, HIVE_SHELF_FLIGHTS = 64 };

/* A file put on the shelf under a flight number: its bytes at the smallest start where they fit between the other bodies, and its entry, the first that is free. Nothing else of the shelf
   changes. Refused with HIVE_SHELF, then with what hive_check refuses of the file (without 15), with line and byte; then HIVE_ID for number 0 or one in use, HIVE_ENTRIES_FULL where no
   entry is free (29 ENTRIES), HIVE_NO_RUN where no free run is long enough.
       2 start of the body */
uint32_t hive_shelf_add(uint8_t *shelf, size_t shelf_length, uint32_t number,
                        const uint8_t *file, size_t file_length,
                        uint64_t *answer, size_t answer_length);

/* Where the body of a flight number stands: shelf + answer[HIVE_START]. Refused with HIVE_SHELF, then HIVE_NOT_FOUND for number 0 or one that is not held.
       2 start  3 length */
uint32_t hive_shelf_ask(const uint8_t *shelf, size_t shelf_length, uint32_t number,
                        uint64_t *answer, size_t answer_length);

/* The 12 bytes of a flight number's entry zeroed. Refused as hive_shelf_ask. There is no value. */
uint32_t hive_shelf_remove(uint8_t *shelf, size_t shelf_length, uint32_t number,
                           uint64_t *answer, size_t answer_length);

/* The bodies moved to the front in order of start, without gaps; each flight's bytes stay the same, and entries keep their places in the table of contents. Only starts change, and the bytes
   that the moved bodies now cover. Refused with HIVE_SHELF alone. There is no value. */
uint32_t hive_shelf_pack(uint8_t *shelf, size_t shelf_length,
                         uint64_t *answer, size_t answer_length);

/* ---- a line: 17 for another kind of line or a layout that is not allowed, then with the byte 7, 8, a field's (9, 22 to 24), 13 */

/* A B line read, in one check of the line: its fix, and its columns. Counts and decimals are as DECIMALS says above; letters and validity are the bytes of the line. 13, at the first
   byte of LAD or LOD, also where one of its digits is not 0 and the plain count is 5,400,000 or 10,800,000 already.
       2 seconds of the day  3 their decimals  4 latitude  5 N or S  6 its decimals  7 longitude  8 E or W  9 its decimals  10 A or V
       heights[0] pressure altitude, heights[1] GNSS altitude, in metres; 0 where refused
       entries[HIVE_COLUMNS] how many columns the line has, 0 to 13; then three numbers for each, in layout order, 0 behind the last column; all 0 where refused:
       entries[HIVE_COLUMN_CODE(n)] the code of column n, counted from 0, its first character times 65536 plus its second times 256 plus its third;
       entries[HIVE_COLUMN_FIRST(n)], entries[HIVE_COLUMN_LAST(n)] its first and its last byte in the line, counted from 1 */
enum { HIVE_COLUMNS = 0 };
#define HIVE_COLUMN_CODE(n) (3 * (n) + 1)
#define HIVE_COLUMN_FIRST(n) (3 * (n) + 2)
#define HIVE_COLUMN_LAST(n) (3 * (n) + 3)
enum {
    HIVE_SECONDS = 2,
    HIVE_SECONDS_DECIMALS = 3,
    HIVE_LATITUDE = 4,
    HIVE_LATITUDE_LETTER = 5,
    HIVE_LATITUDE_DECIMALS = 6,
    HIVE_LONGITUDE = 7,
    HIVE_LONGITUDE_LETTER = 8,
    HIVE_LONGITUDE_DECIMALS = 9,
    HIVE_VALIDITY = 10,
    HIVE_PRESSURE = 0,
    HIVE_GNSS = 1
};
uint32_t hive_fix(const uint8_t *line, size_t line_length,
                  const uint8_t *layout, size_t layout_length,
                  uint64_t *answer, size_t answer_length,
                  int32_t *heights, size_t heights_length,
                  uint64_t *entries, size_t entries_length);

/* A K line read by a J line, or an N line by an M line: which of the two is told by the line's first byte. Its time, and its columns as hive_fix tells them.
       2 seconds of the day */
uint32_t hive_extra(const uint8_t *line, size_t line_length,
                    const uint8_t *layout, size_t layout_length,
                    uint64_t *answer, size_t answer_length,
                    uint64_t *entries, size_t entries_length);

/* The look for the column of a code, any three bytes, in the entries that hive_fix or hive_extra gave for the line. The line is not checked again, and nothing is taken on
   trust: 17 for entries of another length than HIVE_ENTRIES, for over 13 columns, for a code twice among them, for a column whose first byte is 0, whose last byte is past the
   line lent here, or whose last byte is before its first, and for a number of a column that no entry holds (a code over 4294967295, a first or last byte over 255); then 19
   where no column has the code. Numbers behind the last column are not looked at.
       2 start  3 length of the column's text in the line */
enum { HIVE_COLUMN_LENGTH = 3 };
uint32_t hive_look(const uint8_t *line, size_t line_length,
                   const uint64_t *entries, size_t entries_length,
                   uint8_t code0, uint8_t code1, uint8_t code2,
                   uint64_t *answer, size_t answer_length);

/* That column as a whole number. After what hive_look refuses, 20.
       number[0] the number; 0 where refused */
uint32_t hive_look_number(const uint8_t *line, size_t line_length,
                          const uint64_t *entries, size_t entries_length,
                          uint8_t code0, uint8_t code1, uint8_t code2,
                          uint64_t *answer, size_t answer_length,
                          int64_t *number, size_t number_length);

/* Column n, counted from 1, of an I, J or M line. 17 where n is 0 or over 13, and for another kind; then 7 to 12 with the byte; then 17 where n is past the line's columns.
       2, 3, 4 the code  5 first byte  6 last byte, in a B, K or N line, counted from 1 */
enum { HIVE_CODE = 2, HIVE_FIRST = 5, HIVE_LAST = 6 };
uint32_t hive_column_at(const uint8_t *layout, size_t layout_length,
                        size_t n,
                        uint64_t *answer, size_t answer_length);

/* Which listed codes an I line carries. 17 for a layout that is not allowed.
       2 the word: bit n, worth 2^n, for number n  3 the count of those columns */
enum { HIVE_WORD = 2, HIVE_COUNT = 3 };
uint32_t hive_presence(const uint8_t *layout, size_t layout_length,
                       uint64_t *answer, size_t answer_length);

/* Listed code n, 0 to 14, in the order of the rules: FXA SIU ENL MOP IAS FLP HDM HDT TRM TRT TDS LAD LOD DAE DAN. 17 for any other number.
       2, 3, 4 the code  5 the least  6 the most width of its column  7 1 where a minus may stand first there, else 0 */
enum { HIVE_LEAST_WIDTH = 5, HIVE_MOST_WIDTH = 6, HIVE_MINUS = 7 };
uint32_t hive_listed(uint32_t n,
                     uint64_t *answer, size_t answer_length);

/* A position for the map: each count over 60,000 times ten for each of its decimals, rounded once. 17 for a letter that is not allowed, for over 4 decimals, and for a count over
   5,400,000 (a latitude) or 10,800,000 (a longitude) times ten for each of its decimals.
       degrees[0] latitude, degrees[1] longitude; 0 where refused */
uint32_t hive_degrees(uint64_t latitude, uint8_t latitude_letter, uint8_t latitude_decimals,
                      uint64_t longitude, uint8_t longitude_letter, uint8_t longitude_decimals,
                      double *degrees, size_t degrees_length);

/* ---- writers: the line and its CR LF go into out from a place on. 17 where no line reads as the values given, then 18 where out is too short; a refused write changes no byte.
       2 the place after the CR LF */
enum { HIVE_AFTER = 2 };

/* A B line; columns is all that stands behind its first 35 bytes. 17 also where the decimals of a count are not as many as TDS, LAD or LOD has digits by the layout (0 without that
   column), or its last digits are not those that the columns have there. */
uint32_t hive_write_fix(uint32_t seconds, uint8_t seconds_decimals,
                        uint64_t latitude, uint8_t latitude_letter, uint8_t latitude_decimals,
                        uint64_t longitude, uint8_t longitude_letter, uint8_t longitude_decimals,
                        uint8_t validity,
                        int32_t pressure, int32_t gnss,
                        const uint8_t *columns, size_t columns_length,
                        const uint8_t *layout, size_t layout_length,
                        size_t place,
                        uint8_t *out, size_t out_length,
                        uint64_t *answer, size_t answer_length);

/* A K or an N line; columns is all that stands behind its first 7 bytes. The kind is the line's letter, 'K' or 'N', and any other is 17. */
uint32_t hive_write_extra(uint8_t kind,
                         uint32_t seconds,
                         const uint8_t *columns, size_t columns_length,
                         const uint8_t *layout, size_t layout_length,
                         size_t place,
                         uint8_t *out, size_t out_length,
                         uint64_t *answer, size_t answer_length);

/* An I, J or M line, given as its text: the line and its CR LF, where it tells a layout. */
uint32_t hive_write_layout(const uint8_t *layout, size_t layout_length,
                           size_t place,
                           uint8_t *out, size_t out_length,
                           uint64_t *answer, size_t answer_length);

/* ---- further readers: 17 for another kind of line, then with the byte 7, 8, a field's (9, 22, 23, 25) */

/* The date of a file's second line.
       2 day  3 month  4 year */
uint32_t hive_date(const uint8_t *line, size_t line_length,
                   uint64_t *answer, size_t answer_length);

/* The time of an E line, and of an F line.
       2 seconds of the day */
uint32_t hive_event(const uint8_t *line, size_t line_length,
                    uint64_t *answer, size_t answer_length);
uint32_t hive_satellites(const uint8_t *line, size_t line_length,
                         uint64_t *answer, size_t answer_length);

/* An H line taken apart, by the rule of H lines behind the second one, which the second meets too: 17, then 7 (5 to 255 bytes), 8, 9 at byte 2 (F or O) or at byte 3 (three code characters).
       2 F or O  3, 4, 5 the code  6 where its text starts in the line: 5  7 how many bytes the text has */
enum { HIVE_SOURCE = 2, HIVE_HEADER_CODE = 3, HIVE_TEXT = 6, HIVE_TEXT_LENGTH = 7 };
uint32_t hive_header(const uint8_t *line, size_t line_length,
                     uint64_t *answer, size_t answer_length);

/* The head of a declaration; its text stands behind 25 bytes. The flight date is 0, 0, 0 where it is not given.
       2 day  3 month  4 year declared  5 seconds of the day  6 day  7 month  8 year of the flight  9 task  10 turn points */
enum {
    HIVE_HEAD_SECONDS = 5,
    HIVE_FLIGHT_DAY = 6,
    HIVE_FLIGHT_MONTH = 7,
    HIVE_FLIGHT_YEAR = 8,
    HIVE_TASK = 9,
    HIVE_TURN_POINTS = 10
};
uint32_t hive_head(const uint8_t *line, size_t line_length,
                   uint64_t *answer, size_t answer_length);

/* A point of a declaration; its text stands behind 18 bytes. Its values stand where hive_fix has them.
       4 latitude  5 N or S  7 longitude  8 E or W */
uint32_t hive_point(const uint8_t *line, size_t line_length,
                    uint64_t *answer, size_t answer_length);

/* ---- further writers */

/* The head and a point of a declaration. A flight date of 0, 0, 0 is written as not given. */
uint32_t hive_write_head(uint8_t day, uint8_t month, uint16_t year,
                         uint32_t seconds,
                         uint8_t flight_day, uint8_t flight_month, uint16_t flight_year,
                         uint16_t task, uint8_t turn_points,
                         const uint8_t *text, size_t text_length,
                         size_t place,
                         uint8_t *out, size_t out_length,
                         uint64_t *answer, size_t answer_length);
uint32_t hive_write_point(uint64_t latitude, uint8_t latitude_letter,
                          uint64_t longitude, uint8_t longitude_letter,
                          const uint8_t *text, size_t text_length,
                          size_t place,
                          uint8_t *out, size_t out_length,
                          uint64_t *answer, size_t answer_length);

/* ---- a refusal in words, at the start of a lent text; the bytes behind the words stay. 17 where no refusal has the number, then 18 where the text is shorter than the
   words; a refused call changes no byte of the text.
       2 how many bytes the words have: a name at most HIVE_NAME, an explanation at most HIVE_EXPLANATION */
enum { HIVE_WORDS_LENGTH = 2, HIVE_NAME = 10, HIVE_EXPLANATION = 400 };

/* The name of a refusal number, as FORM for 9. */
uint32_t hive_name(uint32_t number,
                   uint8_t *text, size_t text_length,
                   uint64_t *answer, size_t answer_length);

/* A refusal of a file explained, as igc prints it: the number and its name, the line and the byte where they are not 0, and when the number is given; below it, where a line
   is named, up to 80 bytes of its text, and a caret under the byte where one is named. Each line ends with LF. Any number, line and byte may be given. */
uint32_t hive_explain(const uint8_t *file, size_t file_length,
                      uint32_t number, uint32_t line, uint32_t byte,
                      uint8_t *text, size_t text_length,
                      uint64_t *answer, size_t answer_length);

#ifdef __cplusplus
}
#endif

#endif
