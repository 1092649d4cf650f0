/*
 * Delivery lists as C converts them. What each text is turned to is worked out by hand, from RFC 4180, section 2, and
 * rules 19.1 to 19.9.
 */
#include <string.h>

#include "expect.h"
#include "pack_agreement.h"

#define ROOM (1 << 21)
#define GUARD 64
#define UNWRITTEN 0xa5
#define MANY 70000

/* A text and its length, as two values. */
#define TEXT(literal) literal, sizeof(literal) - 1
#define COUNT(table) (sizeof(table) / sizeof *(table))

typedef pack_answer conversion(const uint8_t *text, size_t length, uint8_t *out, size_t capacity);

struct taken {
    const char *text;
    size_t length;
    const char *result;
    size_t result_length;
    const char *what;
};

struct refused {
    const char *text;
    size_t length;
    uint64_t record;
    const char *what;
};

static uint8_t text_lent[ROOM], out_lent[ROOM];
/* Texts that are made here. */
static char made[ROOM], expected[ROOM], back[ROOM], again[ROOM];

static bool all_are(const uint8_t *bytes, size_t count, uint8_t value)
{
    for (size_t k = 0; k < count; k++)
        if (bytes[k] != value)
            return false;
    return true;
}

/*
 * Converts with so much room. Quotes stand beside the text: with one of them it would be another text. What is not written
 * keeps its value, inside the room and beside it. Buffers of no bytes are null.
 */
static pack_answer ask(conversion *convert, const char *text, size_t length, size_t capacity, const char *what)
{
    memset(text_lent, '"', GUARD);
    memcpy(text_lent + GUARD, text, length);
    memset(text_lent + GUARD + length, '"', GUARD);
    memset(out_lent, UNWRITTEN, GUARD + capacity + GUARD);
    pack_answer answer = convert(length == 0 ? NULL : text_lent + GUARD, length,
                                 capacity == 0 ? NULL : out_lent + GUARD, capacity);
    size_t written = pack_refusal_of(answer) == PACK_ACCEPTED ? pack_written_of(answer) : 0;
    expect(written <= capacity, what);
    expect(all_are(text_lent, GUARD, '"') && memcmp(text_lent + GUARD, text, length) == 0 &&
               all_are(text_lent + GUARD + length, GUARD, '"'),
           what);
    expect(all_are(out_lent, GUARD, UNWRITTEN) &&
               all_are(out_lent + GUARD + written, capacity - written + GUARD, UNWRITTEN),
           what);
    return answer;
}

/* Expects this result with just enough room and with more, and refusal 8 with less. */
static void turns(conversion *convert, const char *text, size_t length, const char *result, size_t result_length,
                  const char *what)
{
    const size_t more[3] = {result_length, result_length + 1, result_length + 1000};
    for (size_t k = 0; k < COUNT(more); k++) {
        expect(ask(convert, text, length, more[k], what).number == (uint64_t)result_length << 8, what);
        expect(memcmp(out_lent + GUARD, result, result_length) == 0, what);
    }
    if (result_length > 0) {
        expect(ask(convert, text, length, result_length - 1, what).number == PACK_REFUSED_SHORT, what);
        expect(ask(convert, text, length, 0, what).number == PACK_REFUSED_SHORT, what);
    }
}

/* Expects refusal 13 with this record, with and without room. */
static void refuses(conversion *convert, const char *text, size_t length, uint64_t record, const char *what)
{
    const size_t rooms[3] = {0, 1, 3 * length + 3};
    for (size_t k = 0; k < COUNT(rooms); k++) {
        pack_answer answer = ask(convert, text, length, rooms[k], what);
        expect(answer.number == (record << 8 | 13), what);
        expect(pack_refusal_of(answer) == PACK_REFUSED_RECORD && pack_record_of(answer) == record, what);
    }
}

/* Converts into one of the texts that are made here; the length. */
static size_t convert_to(conversion *convert, const char *text, size_t length, char *result, const char *what)
{
    pack_answer answer = ask(convert, text, length, ROOM - 2 * GUARD, what);
    expect(pack_refusal_of(answer) == PACK_ACCEPTED, what);
    size_t written = pack_written_of(answer);
    memcpy(result, out_lent + GUARD, written);
    return written;
}

/* 19.9: lines turned to records and back are the same bytes. */
static void comes_back(const char *lines, size_t length, const char *what)
{
    size_t there = convert_to(pack_drill_to_csv, lines, length, back, what);
    size_t here = convert_to(pack_csv_to_drill, back, there, again, what);
    expect(here == length && memcmp(lines, again, length) == 0, what);
}

static void test_constants(void)
{
    expect(PACK_REFUSED_RECORD == 13 && strcmp(pack_refusal_name(PACK_REFUSED_RECORD), "RECORD") == 0, "the refusal");
}

static const struct taken records_taken[] = {
    {TEXT(""), TEXT(""), "19.1: a text without bytes has no record"},
    {TEXT("aaa,bbb,ccc\r\nzzz,yyy,xxx\r\n"), TEXT("aaa\tbbb\tccc\nzzz\tyyy\txxx\n"), "RFC 2.1: CR LF ends a record"},
    {TEXT("aaa,bbb,ccc\r\nzzz,yyy,xxx"), TEXT("aaa\tbbb\tccc\nzzz\tyyy\txxx\n"), "RFC 2.2: the last without its end"},
    {TEXT("from,to,kind\r\n1,2,3\r\n"), TEXT("from\tto\tkind\n1\t2\t3\n"), "RFC 2.3: a header is a record like others"},
    {TEXT(" aaa , bbb,ccc \r\n"), TEXT(" aaa \t bbb\tccc \n"), "RFC 2.4: spaces belong to the field"},
    {TEXT("aaa,bbb,\r\n"), TEXT("aaa\tbbb\t\n"), "RFC 2.4: behind the last comma stands a field"},
    {TEXT("a\r\nb,c\r\n"), TEXT("a\nb\tc\n"), "RFC 2.4: another number of fields is taken"},
    {TEXT("\"aaa\",\"bbb\",\"ccc\"\r\nzzz,yyy,xxx"), TEXT("aaa\tbbb\tccc\nzzz\tyyy\txxx\n"), "RFC 2.5: fields in quotes"},
    {TEXT("a,\"b\",c\r\n\"d\",e,\"f\"\r\n"), TEXT("a\tb\tc\nd\te\tf\n"), "RFC 2.5: some fields in quotes"},
    {TEXT("\"aaa\",\"b,bb\",\"ccc\"\r\n"), TEXT("aaa\tb,bb\tccc\n"), "RFC 2.6: a comma in quotes"},
    {TEXT("\"aaa\",\"b\"\"bb\",\"ccc\"\r\n"), TEXT("aaa\tb\"bb\tccc\n"), "RFC 2.7: a doubled quote"},
    {TEXT("\"\"\"\"\r\n"), TEXT("\"\n"), "a quote alone"},
    {TEXT("\"\"\"\"\"\",\"\"\",\"\r\n"), TEXT("\"\"\t\",\n"), "quotes and commas alone"},
    {TEXT("\"\"\"a\"\"\"\r\n"), TEXT("\"a\"\n"), "doubled quotes at both ends"},
    {TEXT("\"\""), TEXT("\n"), "an empty field in quotes, without an end"},
    {TEXT("\"\",\"\"\r\n\"\"\n"), TEXT("\t\n\n"), "empty fields in quotes"},
    {TEXT("\"a\"\n\"b\"\r\n\"c\""), TEXT("a\nb\nc\n"), "each end after a closing quote"},
    {TEXT("a\nb,c\n"), TEXT("a\nb\tc\n"), "19.1: LF ends a record"},
    {TEXT("a\r\nb\nc\r\nd"), TEXT("a\nb\nc\nd\n"), "19.1: both ends in one text"},
    {TEXT("\r\n"), TEXT("\n"), "19.3: an empty record"},
    {TEXT("\n"), TEXT("\n"), "19.3: an empty record before LF"},
    {TEXT("\n\r\n\n"), TEXT("\n\n\n"), "19.3: three empty records"},
    {TEXT("a\r\n\r\nb"), TEXT("a\n\nb\n"), "19.3: an empty record in the middle"},
    {TEXT(","), TEXT("\t\n"), "two empty fields without an end"},
    {TEXT(",,\n"), TEXT("\t\t\n"), "three empty fields"},
    {TEXT("a\0b,\xff\x80\r\n"), TEXT("a\0b\t\xff\x80\n"), "any other byte is a byte"},
    {TEXT("\xef\xbb\xbf" "a\n"), TEXT("\xef\xbb\xbf" "a\n"), "a byte order mark is part of the first field"},
    {TEXT("T,1\r\n"), TEXT("T\t1\n"), "an example of the rules: CR LF"},
    {TEXT("T,1\nR"), TEXT("T\t1\nR\n"), "an example of the rules: LF, and the last without its end"},
    {TEXT(",\n"), TEXT("\t\n"), "an example of the rules: two empty fields"},
    {TEXT("\"T\",\"1\"\n"), TEXT("T\t1\n"), "an example of the rules: needless quotes"},
    {TEXT("a,\"b,c\",\"say \"\"so\"\"\"\r\n"), TEXT("a\tb,c\tsay \"so\"\n"), "an example of the rules: needed quotes"},
};

static const struct taken lines_taken[] = {
    {TEXT(""), TEXT(""), "19.3: a text without bytes has no line"},
    {TEXT("a\tb\nc\n"), TEXT("a,b\r\nc\r\n"), "19.4: a comma for a tab, CR LF for LF"},
    {TEXT("a\tb"), TEXT("a,b\r\n"), "19.3: the last without its end"},
    {TEXT("\n"), TEXT("\r\n"), "19.3: an empty line is one empty field, without quotes"},
    {TEXT("\n\n"), TEXT("\r\n\r\n"), "two empty lines"},
    {TEXT("\t\n"), TEXT(",\r\n"), "two empty fields"},
    {TEXT("\t"), TEXT(",\r\n"), "two empty fields without an end"},
    {TEXT("a\t\tb\n"), TEXT("a,,b\r\n"), "an empty field in the middle"},
    {TEXT("a,b\n"), TEXT("\"a,b\"\r\n"), "19.4: a comma is put in quotes"},
    {TEXT(","), TEXT("\",\"\r\n"), "a comma alone, without an end"},
    {TEXT("\""), TEXT("\"\"\"\"\r\n"), "19.4: a quote is put in quotes and doubled"},
    {TEXT("\"\"\n"), TEXT("\"\"\"\"\"\"\r\n"), "two quotes"},
    {TEXT("a\"b\tc\n"), TEXT("\"a\"\"b\",c\r\n"), "a quote inside a field"},
    {TEXT("\"a\"\n"), TEXT("\"\"\"a\"\"\"\r\n"), "quotes around a field are bytes of it"},
    {TEXT("\"a\tb\"\n"), TEXT("\"\"\"a\",\"b\"\"\"\r\n"), "a tab between quotes is between fields"},
    {TEXT("a\tb,\t\"c\td\n"), TEXT("a,\"b,\",\"\"\"c\",d\r\n"), "quotes only where they are needed"},
    {TEXT(" a\tb \n"), TEXT(" a,b \r\n"), "spaces need no quotes"},
    {TEXT("a\0b\t\xff\x80\n"), TEXT("a\0b,\xff\x80\r\n"), "any other byte needs none"},
};

static const struct refused records_refused[] = {
    {TEXT("a\"b\r\n"), 1, "RFC 2.5: a quote in a plain field"},
    {TEXT("ab\"\r\n"), 1, "a quote at the end of a plain field"},
    {TEXT("a\"\"b\r\n"), 1, "a doubled quote in a plain field"},
    {TEXT("a,b\"c,d\r\n"), 1, "a quote in a plain field between others"},
    {TEXT(" \"a\"\r\n"), 1, "a space before the quote"},
    {TEXT("\xef\xbb\xbf\"a\"\r\n"), 1, "a byte order mark before the quote"},
    {TEXT("\"a\" \r\n"), 1, "a space after the closing quote"},
    {TEXT("\"a\"b\r\n"), 1, "a byte after the closing quote"},
    {TEXT("\"a\"b\",c\r\n"), 1, "a quote that is not doubled"},
    {TEXT("\"\"a\"\"\r\n"), 1, "doubled quotes around a field"},
    {TEXT("\"a\"\"\r\n"), 1, "three quotes"},
    {TEXT("\"a\"\rb\r\n"), 1, "a bare CR after the closing quote"},
    {TEXT("\"a\"\r"), 1, "a CR after the closing quote, and no more"},
    {TEXT("\"a\"\r\r\n"), 1, "two CRs after the closing quote"},
    {TEXT("\""), 1, "a quote open at the end"},
    {TEXT("\"a"), 1, "a quote open at the end, with a byte"},
    {TEXT("\"a\"\""), 1, "a doubled quote at the end"},
    {TEXT("a,\"b\r\nc,d\r\n"), 1, "a quote open over other records"},
    {TEXT("\"a,b\r\n\"c\r\n"), 1, "a quote that another record closes"},
    {TEXT("\"aaa\",\"b\r\nbb\",\"ccc\"\r\n"), 1, "RFC 2.6: CR LF in quotes has no line"},
    {TEXT("\"a\nb\"\r\n"), 1, "LF in quotes has no line"},
    {TEXT("\"a\rb\"\r\n"), 1, "CR in quotes has no line"},
    {TEXT("\"a\tb\"\r\n"), 1, "a tab in quotes has no line"},
    {TEXT("a\tb\r\n"), 1, "a tab has no line"},
    {TEXT("\t"), 1, "a tab alone"},
    {TEXT("a\rb\r\n"), 1, "19.2: a bare CR is a byte of its field"},
    {TEXT("a\r"), 1, "a CR at the end of the text"},
    {TEXT("\r"), 1, "a CR alone"},
    {TEXT("a\r\r\n"), 1, "two CRs before LF"},
    {TEXT("\ra\n"), 1, "a CR at the start of a field"},
    {TEXT("a\r,b\r\n"), 1, "a CR before a comma"},
    {TEXT("a\r\nb\"\r\n"), 2, "the second record, after CR LF"},
    {TEXT("a\nb\"\n"), 2, "the second record, after LF"},
    {TEXT("a\n\n\"b"), 3, "the third, after an empty one"},
    {TEXT("\n\n\n\r"), 4, "the fourth, after three empty ones"},
    {TEXT("\"a\"\r\n\"b\"\"c\"\r\n\"d,e\"\r\nf\"\r\n"), 4, "the fourth, after quotes"},
    {TEXT("a\nb\"\nc\"\nd\n"), 2, "the first of two that are not taken"},
    {TEXT("a\n\"b\nc\nd\ne\n\"\nf\"\n"), 2, "records are counted, not lines of the text"},
    {TEXT("a\"b"), 1, "an example of the rules: a quote inside a plain field"},
    {TEXT("a\n\"b\" ,c"), 2, "an example of the rules: a space behind a closing quote"},
    {TEXT("\"a\nb\"\n\"c"), 1, "an example of the rules: an LF in a field"},
    {TEXT("a\rb\n"), 1, "an example of the rules: a CR in a field"},
};

static const struct refused lines_refused[] = {
    {TEXT("a\r\n"), 1, "CR before LF is a byte of a field"},
    {TEXT("\r"), 1, "a CR alone"},
    {TEXT("\ra\n"), 1, "a CR at the start"},
    {TEXT("a\tb\rc\td\n"), 1, "a CR in a field between others"},
    {TEXT("a\nb\nc\r"), 3, "the third line"},
    {TEXT("\n\n\n\r\n"), 4, "the fourth, after three empty ones"},
    {TEXT("\"\n\"\r\n\r\n"), 2, "quotes hold no line together"},
};

/* Every taken text; what it is turned to is the same after another way there and back. */
static void test_tables(void)
{
    for (size_t k = 0; k < COUNT(records_taken); k++) {
        const struct taken *row = &records_taken[k];
        turns(pack_csv_to_drill, row->text, row->length, row->result, row->result_length, row->what);
        comes_back(row->result, row->result_length, row->what);
    }
    for (size_t k = 0; k < COUNT(lines_taken); k++) {
        const struct taken *row = &lines_taken[k];
        turns(pack_drill_to_csv, row->text, row->length, row->result, row->result_length, row->what);
        size_t length = convert_to(pack_csv_to_drill, row->result, row->result_length, expected, row->what);
        expect(length >= row->length && memcmp(expected, row->text, row->length) == 0, row->what);
        comes_back(expected, length, row->what);
    }
    for (size_t k = 0; k < COUNT(records_refused); k++)
        refuses(pack_csv_to_drill, records_refused[k].text, records_refused[k].length, records_refused[k].record,
                records_refused[k].what);
    for (size_t k = 0; k < COUNT(lines_refused); k++)
        refuses(pack_drill_to_csv, lines_refused[k].text, lines_refused[k].length, lines_refused[k].record,
                lines_refused[k].what);
}

/* Puts a text so many times; the place behind it. */
static size_t repeat(char *out, size_t at, const char *text, size_t times)
{
    size_t length = strlen(text);
    for (size_t k = 0; k < times; k++, at += length)
        memcpy(out + at, text, length);
    return at;
}

/* A field alone: so many times the bytes as they stand in a record, which are `line` in a line. */
static void test_field(const char *open, const char *record, const char *line, size_t times, const char *what)
{
    size_t end = repeat(made, repeat(made, repeat(made, 0, open, 1), record, times), open, 1);
    size_t record_length = repeat(made, end, "\r\n", 1);
    size_t line_length = repeat(expected, repeat(expected, 0, line, times), "\n", 1);
    if (times <= 64) {
        turns(pack_csv_to_drill, made, record_length, expected, line_length, what);
        turns(pack_csv_to_drill, made, end, expected, line_length, what);
        comes_back(expected, line_length, what);
    } else {
        refuses(pack_csv_to_drill, made, record_length, 1, what);
        refuses(pack_csv_to_drill, made, end, 1, what);
        refuses(pack_drill_to_csv, expected, line_length, 1, what);
        refuses(pack_drill_to_csv, expected, line_length - 1, 1, what);
    }
}

/* So many fields alike, as they stand in a record and in a line. */
static void test_fields(const char *record, const char *line, size_t fields, const char *what)
{
    size_t record_length = 0, line_length = 0;
    for (size_t k = 0; k < fields; k++) {
        record_length = repeat(made, repeat(made, record_length, k == 0 ? "" : ",", 1), record, 1);
        line_length = repeat(expected, repeat(expected, line_length, k == 0 ? "" : "\t", 1), line, 1);
    }
    record_length = repeat(made, record_length, "\r\n", 1);
    line_length = repeat(expected, line_length, "\n", 1);
    if (fields <= 16) {
        turns(pack_csv_to_drill, made, record_length, expected, line_length, what);
        turns(pack_drill_to_csv, expected, line_length, made, record_length, what);
    } else {
        refuses(pack_csv_to_drill, made, record_length, 1, what);
        refuses(pack_drill_to_csv, expected, line_length, 1, what);
    }
}

/* 19.5: 16 fields and 64 bytes, the quotes undone. */
static void test_limits(void)
{
    static char quotes[131], line_quotes[65];
    static const size_t lengths[5] = {1, 63, 64, 65, 300};
    for (size_t k = 0; k < COUNT(lengths); k++) {
        test_field("", "a", "a", lengths[k], "the length of a plain field");
        test_field("\"", "a", "a", lengths[k], "the length of a field in quotes");
        test_field("\"", ",", ",", lengths[k], "the length of a field of commas");
        test_field("\"", "\"\"", "\"", lengths[k], "the length of a field of quotes");
    }
    memset(quotes, '"', 130);
    memset(line_quotes, '"', 64);
    static const size_t fields[5] = {1, 15, 16, 17, 300};
    for (size_t k = 0; k < COUNT(fields); k++) {
        test_fields("", "", fields[k], "the number of empty fields");
        test_fields("ab", "ab", fields[k], "the number of plain fields");
        test_fields("\"a,b\"", "a,b", fields[k], "the number of fields in quotes");
        test_fields(quotes, line_quotes, fields[k], "the number of fields of 64 quotes");
    }
}

/* What a byte alone in a field is turned to, with the end of the line or record; not taken where there is none. */
static void test_byte(conversion *convert, const char *text, size_t length, const char *result, size_t result_length)
{
    if (result_length != 0)
        turns(convert, text, length, result, result_length, "a byte alone");
    else
        refuses(convert, text, length, 1, "a byte alone");
}

/* Every byte in a record, in quotes and in a line. */
static void test_bytes(void)
{
    for (unsigned value = 0; value < 256; value++) {
        char byte = (char)value;
        const char quoted[3] = {'"', byte, '"'}, record[3] = {byte, '\r', '\n'}, line[2] = {byte, '\n'};
        bool no_line = byte == '\t' || byte == '\r' || byte == '\n';
        test_byte(pack_csv_to_drill, quoted, 3, line, no_line || byte == '"' ? 0 : 2);
        switch (byte) {
        case '\t':
            refuses(pack_csv_to_drill, &byte, 1, 1, "a tab in a record");
            test_byte(pack_drill_to_csv, &byte, 1, TEXT(",\r\n"));
            break;
        case '\r':
            refuses(pack_csv_to_drill, &byte, 1, 1, "a CR in a record");
            refuses(pack_drill_to_csv, &byte, 1, 1, "a CR in a line");
            break;
        case '\n':
            test_byte(pack_csv_to_drill, &byte, 1, TEXT("\n"));
            test_byte(pack_drill_to_csv, &byte, 1, TEXT("\r\n"));
            break;
        case '"':
            refuses(pack_csv_to_drill, &byte, 1, 1, "a quote in a record");
            test_byte(pack_drill_to_csv, &byte, 1, TEXT("\"\"\"\"\r\n"));
            break;
        case ',':
            test_byte(pack_csv_to_drill, &byte, 1, TEXT("\t\n"));
            test_byte(pack_drill_to_csv, &byte, 1, TEXT("\",\"\r\n"));
            break;
        default:
            test_byte(pack_csv_to_drill, &byte, 1, line, 2);
            test_byte(pack_drill_to_csv, &byte, 1, record, 3);
        }
    }
}

/* Numbers of records above 65,535, and results above 65,535 bytes. */
static void test_many(void)
{
    size_t records = repeat(made, 0, "1,\"2,\"\r\n", MANY), lines = repeat(expected, 0, "1\t2,\n", MANY);
    turns(pack_csv_to_drill, made, records, expected, lines, "70,000 records");
    turns(pack_drill_to_csv, expected, lines, made, records, "70,000 lines");
    comes_back(expected, lines, "70,000 lines there and back");
    refuses(pack_csv_to_drill, made, repeat(made, records, "a\"\r\n", 1), MANY + 1, "the record behind 70,000");
    refuses(pack_drill_to_csv, expected, repeat(expected, lines, "\r", 1), MANY + 1, "the line behind 70,000");
    made[0] = expected[0] = '\r';
    refuses(pack_csv_to_drill, made, records, 1, "the first of 70,000 records");
    refuses(pack_drill_to_csv, expected, lines, 1, "the first of 70,000 lines");
}

int main(void)
{
    test_constants();
    test_tables();
    test_limits();
    test_bytes();
    test_many();
    return failures == 0 ? 0 : 1;
}
