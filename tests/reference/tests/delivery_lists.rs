//! Document 02, N5: delivery lists as CSV. The RFC is RFC 4180; its rules are those of its section 2.

use pack_reference::compare::{edge_delivery_lists, random_delivery_lists, short_delivery_lists};
use pack_reference::delivery_list_engine::DeliveryListEngine;
use pack_reference::delivery_lists::Direction::{ToCsv, ToDrill};
use pack_reference::delivery_lists::{csv_to_drill, drill_to_csv, NotConverted};
use pack_reference::engine::Reference;
use pack_reference::Refusal;

type Converted = Result<Vec<u8>, NotConverted>;

fn text(bytes: &[u8]) -> String {
    bytes.escape_ascii().to_string()
}

/// Records, or lines, each with the output that is expected.
fn check(convert: fn(&[u8]) -> Converted, texts: &[(&[u8], &[u8])]) {
    for &(input, expected) in texts {
        let found = convert(input).map(|output| text(&output));
        assert_eq!(found, Ok(text(expected)), "{}", text(input));
    }
}

/// Texts, each with the number of the record or line that is not taken.
fn check_refused(convert: fn(&[u8]) -> Converted, texts: &[(&[u8], u64)]) {
    for &(input, number) in texts {
        let refused = Err(NotConverted::Record { number });
        assert_eq!(convert(input), refused, "{}", text(input));
    }
}

/// Rules 1 and 2 of the RFC, and an LF without a CR.
#[test]
fn ends_of_records() {
    check(
        csv_to_drill,
        &[
            (b"aaa,bbb,ccc\r\nzzz,yyy,xxx\r\n", b"aaa\tbbb\tccc\nzzz\tyyy\txxx\n"),
            (b"aaa,bbb,ccc\r\nzzz,yyy,xxx", b"aaa\tbbb\tccc\nzzz\tyyy\txxx\n"),
            (b"aaa,bbb,ccc\nzzz,yyy,xxx\n", b"aaa\tbbb\tccc\nzzz\tyyy\txxx\n"),
            (b"a\r\nb\nc\r\nd", b"a\nb\nc\nd\n"),
            (b"a\nb\r\nc", b"a\nb\nc\n"),
        ],
    );
}

/// Rules 3 and 4: a header is a record like others, spaces are part of a field. The rule that all records have the same
/// number of fields is not asked for.
#[test]
fn fields_of_records() {
    check(
        csv_to_drill,
        &[
            (b"field_name,field_name\r\na,b\r\n", b"field_name\tfield_name\na\tb\n"),
            (b" a , b c ,d ", b" a \t b c \td \n"),
            (b"a\nb,c\nd,e,f\n", b"a\nb\tc\nd\te\tf\n"),
            (b"a,", b"a\t\n"),
            (b",a", b"\ta\n"),
            (b",,", b"\t\t\n"),
            (b"\0\x7f\x80\xff,\x0b\x0c\x1a\xc2\x85", b"\0\x7f\x80\xff\t\x0b\x0c\x1a\xc2\x85\n"),
        ],
    );
}

#[test]
fn empty_records() {
    check(
        csv_to_drill,
        &[
            (b"", b""),
            (b"\n", b"\n"),
            (b"\r\n", b"\n"),
            (b"\n\n", b"\n\n"),
            (b"a\r\n\r\nb", b"a\n\nb\n"),
            (b"a\n\n", b"a\n\n"),
            (b"\"\"", b"\n"),
            (b"\"\"\r\n\"\"", b"\n\n"),
            (b"\"\",\"\"", b"\t\n"),
        ],
    );
}

/// Rules 5, 6 and 7.
#[test]
fn fields_in_quotes() {
    check(
        csv_to_drill,
        &[
            (b"\"aaa\",\"bbb\",\"ccc\"\r\nzzz,yyy,xxx", b"aaa\tbbb\tccc\nzzz\tyyy\txxx\n"),
            (b"\"aaa\",\"b,bb\",ccc", b"aaa\tb,bb\tccc\n"),
            (b"\"aaa\",\"b\"\"bb\",\"ccc\"", b"aaa\tb\"bb\tccc\n"),
            (b"\"\"\"\"", b"\"\n"),
            (b"\"\"\"\"\"\"\n", b"\"\"\n"),
            (b"\"\"\"a\"\"\",b", b"\"a\"\tb\n"),
            (b"\",\",\",,\"\n", b",\t,,\n"),
            (b"\"\"\",\"\"\"", b"\",\"\n"),
            (b"\"a\"\nb", b"a\nb\n"),
        ],
    );
}

#[test]
fn broken_quotes() {
    // A quote in a field that does not start with one.
    check_refused(
        csv_to_drill,
        &[
            (b"a\"", 1),
            (b"a\"b", 1),
            (b"a\"b\"", 1),
            (b"a\"\"b", 1),
            (b" \"a\"", 1),
            (b"a,b\",c", 1),
            (b"\r\"a\"", 1),
        ],
    );
    // Something but a comma or a record's end after a closing quote.
    check_refused(
        csv_to_drill,
        &[
            (b"\"a\"b", 1),
            (b"\"a\" ", 1),
            (b"\"a\" ,b", 1),
            (b"\"\"a", 1),
            (b"\"a\"\"\"\"b", 1),
            (b"\"a\"\r", 1),
            (b"\"a\"\r,b", 1),
            (b"\"a\"\r\r\n", 1),
            (b"\"a\"\t\n", 1),
            (b"\"a\"\"b\"c\"", 1),
        ],
    );
    // A quote that is open at the end.
    check_refused(
        csv_to_drill,
        &[
            (b"\"", 1),
            (b"\"a", 1),
            (b"\"\"\"", 1),
            (b"\"a\"\"", 1),
            (b"a,\"", 1),
            (b"a\n\"", 2),
            (b"\"a\r\nb\nc\n", 1),
        ],
    );
}

#[test]
fn bytes_without_a_line() {
    check_refused(
        csv_to_drill,
        &[
            (b"\t", 1),
            (b"a\tb", 1),
            (b"\"a\tb\"", 1),
            (b"\r", 1),
            (b"a\rb", 1),
            (b"a\r", 1),
            (b"a\r\r\n", 1),
            (b"a\r,b", 1),
            (b"\n\r", 2),
            (b"\"\r\"", 1),
            (b"\"\n\"", 1),
            (b"\"a\r\nb\"", 1),
        ],
    );
    check_refused(drill_to_csv, &[(b"\r", 1), (b"a\r\n", 1), (b"a\n\tb\r\tc", 2), (b"a\n\r", 2)]);
}

/// Fields of so many bytes: letters, commas, quotes.
fn fields_of(length: usize) -> [Vec<u8>; 3] {
    [b'a', b',', b'"'].map(|byte| vec![byte; length])
}

#[test]
fn fields_of_64_bytes() {
    for length in [1, 63, 64, 65, 66, 128, 130, 1_000] {
        for field in fields_of(length) {
            let line = [b"b\n", &field[..], b"\tb\n"].concat();
            let record = match field[0] {
                b'a' => [b"b\r\n", &field[..], b",b\r\n"].concat(),
                b',' => [b"b\r\n\"", &field[..], b"\",b\r\n"].concat(),
                _ => [b"b\r\n\"", &field.repeat(2)[..], b"\",b\r\n"].concat(),
            };
            if length <= 64 {
                check(drill_to_csv, &[(&line, &record)]);
                check(csv_to_drill, &[(&record, &line)]);
            } else {
                check_refused(drill_to_csv, &[(&line, 2)]);
                check_refused(csv_to_drill, &[(&record, 2)]);
            }
        }
    }
}

#[test]
fn sixteen_fields() {
    for count in [1, 15, 16, 17, 18, 100] {
        for field in [&b""[..], b"a", &[b'a'; 64]] {
            let line = [&vec![field; count].join(&b'\t')[..], b"\n"].concat();
            let record = [&vec![field; count].join(&b',')[..], b"\r\n"].concat();
            if count <= 16 {
                check(drill_to_csv, &[(&line, &record)]);
                check(csv_to_drill, &[(&record, &line)]);
            } else {
                check_refused(drill_to_csv, &[(&line, 1)]);
                check_refused(csv_to_drill, &[(&record, 1)]);
            }
        }
    }
}

#[test]
fn records_of_lines() {
    check(
        drill_to_csv,
        &[
            (b"", b""),
            (b"\n", b"\r\n"),
            (b"\n\n", b"\r\n\r\n"),
            (b"a", b"a\r\n"),
            (b"a\nb", b"a\r\nb\r\n"),
            (b"\t", b",\r\n"),
            (b"a\t\tb\n", b"a,,b\r\n"),
            (b" a \n", b" a \r\n"),
            (b"a,b\tc\n", b"\"a,b\",c\r\n"),
            (b"\"\n", b"\"\"\"\"\r\n"),
            (b"\"a\"\t\"b\n", b"\"\"\"a\"\"\",\"\"\"b\"\r\n"),
            (b"a\"b", b"\"a\"\"b\"\r\n"),
            (b"\0\xff\n", b"\0\xff\r\n"),
        ],
    );
}

/// The first one counts, wherever it stands and whatever is wrong behind it.
#[test]
fn number_of_the_first_that_is_not_taken() {
    check_refused(
        csv_to_drill,
        &[
            (b"a\r\nb\nc\td\n\"", 3),
            (b"a\n\"b\nc\"\n\"d", 2),
            (b"\n\n\n\"", 4),
            (b"\"a\",\"b\"\r\n\"c\"d\r\na\"", 2),
        ],
    );
    check_refused(drill_to_csv, &[(b"a\n\nb\r\n\r", 3), (b"\"\n\"\n\r", 3)]);
    for number in [255, 256, 257, 70_000] {
        let taken = b"\"a\",b\n".repeat(number as usize - 1);
        check_refused(csv_to_drill, &[(&[&taken[..], b"a\"\nb\""].concat(), number)]);
        check_refused(drill_to_csv, &[(&[&taken[..], b"a\r\n\r"].concat(), number)]);
    }
}

/// 13 before 8, and a refusal writes nothing.
#[test]
fn lent_bytes() {
    let reference = Reference::default();
    for (direction, input, output) in [
        (ToDrill, &b"a,\"b\"\n\nc"[..], &b"a\tb\n\nc\n"[..]),
        (ToCsv, b"a\tb\n\"", b"a,b\r\n\"\"\"\"\r\n"),
    ] {
        for capacity in 0..20 {
            let mut lent = vec![0xa5; capacity];
            let mut expected = lent.clone();
            let answer = reference.convert(direction, input, &mut lent);
            if capacity < output.len() {
                assert_eq!(answer, 8, "{capacity} bytes lent");
            } else {
                assert_eq!(answer, (output.len() as u64) << 8, "{capacity} bytes lent");
                expected[..output.len()].copy_from_slice(output);
            }
            assert_eq!(lent, expected, "{capacity} bytes lent");
            let last_not_taken = [input, b"\na\rb"].concat();
            let answer = reference.convert(direction, &last_not_taken, &mut lent);
            assert_eq!((answer & 0xff, &lent), (13, &expected), "{capacity} bytes lent");
        }
    }
}

#[test]
fn packed_answers() {
    let reference = Reference::default();
    assert_eq!(reference.convert(ToDrill, b"", &mut []), 0);
    assert_eq!(reference.convert(ToDrill, b"a\r\n", &mut [0; 3]), 0x200);
    assert_eq!(reference.convert(ToCsv, b"a\n", &mut [0; 3]), 0x300);
    assert_eq!(reference.convert(ToCsv, b"a\n", &mut [0; 2]), 8);
    assert_eq!(reference.convert(ToDrill, b"a\n\"", &mut []), 0x20d);
    let lines = b"\n".repeat(70_000);
    assert_eq!(reference.convert(ToCsv, &lines, &mut vec![0; 140_000]), 140_000 << 8);
    assert_eq!(Refusal::Record.to_string(), "13 RECORD");
    assert_eq!(Refusal::from_number(13), Some(Refusal::Record));
}

/// Lines that are taken come back as they were, and records that are taken with the same fields, in one form.
#[test]
fn there_and_back() {
    let lines = b"a,b\t\"c\"\t\n\n\t\n  \xff,\"\",\n\"\n";
    let records = drill_to_csv(lines).unwrap();
    assert_eq!(text(&csv_to_drill(&records).unwrap()), text(lines));
    let records = b"\"a\",\"b,\"\n\n\"\"\r\n\"\"\"\",\" \"";
    let lines = csv_to_drill(records).unwrap();
    let written = drill_to_csv(&lines).unwrap();
    assert_eq!(text(&written), text(b"a,\"b,\"\r\n\r\n\r\n\"\"\"\", \r\n"));
    assert_eq!(text(&csv_to_drill(&written).unwrap()), text(&lines));
}

/// The texts of the comparison give every kind of answer, many times, and are the same there and back.
#[test]
fn texts_of_the_comparison() {
    let reference = Reference::default();
    let short = short_delivery_lists(&reference, 5);
    let random = random_delivery_lists(&reference, 6, 20_000);
    for answers in [short, edge_delivery_lists(&reference), random] {
        let kinds = [0, 8, 13].map(|number| answers.refusals[number]);
        assert!(kinds.iter().min() > Some(&(answers.calls() / 20)), "{answers}");
        assert_eq!(kinds.iter().sum::<u64>(), answers.calls());
    }
}
