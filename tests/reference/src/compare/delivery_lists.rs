//! 02, N5: all short texts, texts on the edge, and random ones, each as records and as lines.

use super::{Answers, UNWRITTEN};
use crate::attack::random::Random;
use crate::delivery_list_engine::DeliveryListEngine;
use crate::delivery_lists::{in_quotes, Direction, LONGEST_FIELD, MOST_FIELDS};
use crate::packing::refusal;

/// The bytes that mean something, and one that does not.
const MARKS: [u8; 6] = *b"\",\r\n\ta";

/// Ends of texts: of records or lines, of two of them, and bytes that are no end.
const ENDS: [&[u8]; 8] = [b"", b"\n", b"\r\n", b"\r", b"\n\n", b"\r\n\r\n", b"\r\r\n", b"\n\r"];

struct Converter<'a, E> {
    engine: &'a E,
    answers: Answers,
}

impl<E: DeliveryListEngine> Converter<'_, E> {
    fn new(engine: &E) -> Converter<'_, E> {
        Converter { engine, answers: Answers::default() }
    }

    /// Converts the text both ways, lent more bytes than needed, just as many, one less and none.
    fn ask(&mut self, text: &[u8]) {
        for direction in Direction::BOTH {
            let output = self.convert(direction, text, most_output(text));
            let needed = output.as_ref().map_or(0, Vec::len);
            let mut capacities = vec![needed, needed.saturating_sub(1), 0];
            capacities.dedup();
            for capacity in capacities {
                self.convert(direction, text, capacity);
            }
            match (direction, output) {
                (Direction::ToDrill, Some(lines)) => self.there_and_back(&lines),
                (Direction::ToCsv, Some(_)) => self.there_and_back(&ended(text)),
                _ => {}
            }
        }
    }

    /// What is written, if the text is converted.
    fn convert(&mut self, direction: Direction, text: &[u8], capacity: usize) -> Option<Vec<u8>> {
        let mut lent = vec![UNWRITTEN; capacity];
        let answer = self.engine.convert(direction, text, &mut lent);
        self.answers.note(answer);
        lent.truncate((answer >> 8) as usize);
        refusal(answer).is_none().then_some(lent)
    }

    /// Lines that are taken, each ended by LF, turned to records and back are the same bytes.
    fn there_and_back(&mut self, lines: &[u8]) {
        let records = self.convert(Direction::ToCsv, lines, most_output(lines));
        let records = records.expect("the records of lines that are taken");
        let back = self.convert(Direction::ToDrill, &records, most_output(&records));
        let same = back.as_deref() == Some(lines);
        assert!(same, "\"{}\" is not the same there and back", lines.escape_ascii());
    }
}

/// More bytes than any conversion of the text writes: a quote becomes four, and an end of two bytes may be added.
fn most_output(text: &[u8]) -> usize {
    4 * text.len() + 3
}

/// The lines, the last one ended as well.
fn ended(lines: &[u8]) -> Vec<u8> {
    let lacks = !lines.is_empty() && !lines.ends_with(b"\n");
    [lines, if lacks { b"\n" } else { b"" }].concat()
}

/// Every text of so many bytes at most over the marks.
pub fn short_delivery_lists<E: DeliveryListEngine>(engine: &E, longest: u32) -> Answers {
    let mut converter = Converter::new(engine);
    for length in 0..=longest {
        for number in 0..MARKS.len().pow(length) {
            let mark = |place| MARKS[number / MARKS.len().pow(place) % MARKS.len()];
            converter.ask(&(0..length).map(mark).collect::<Vec<u8>>());
        }
    }
    converter.answers
}

/// Fields and counts of fields on and beside their limits and every byte at every kind of place, with each end; and
/// texts whose last record is not taken, up to number 65,536.
pub fn edge_delivery_lists<E: DeliveryListEngine>(engine: &E) -> Answers {
    let mut converter = Converter::new(engine);
    for text in [long_fields(), many_fields(), all_bytes()].concat() {
        for end in ENDS {
            converter.ask(&[&text[..], end].concat());
        }
    }
    for text in last_not_taken() {
        converter.ask(&text);
    }
    converter.answers
}

/// Of one byte alone, or with it first or last; as they are and in quotes.
fn long_fields() -> Vec<Vec<u8>> {
    let mut texts = Vec::new();
    for length in LONGEST_FIELD - 2..=LONGEST_FIELD + 3 {
        for byte in MARKS {
            let (one, letters) = (&[byte][..], &vec![b'a'; length - 1][..]);
            for field in [one.repeat(length), [one, letters].concat(), [letters, one].concat()] {
                texts.extend(beside_others(&field));
                texts.extend(beside_others(&in_quotes(&field)));
            }
        }
    }
    texts
}

fn many_fields() -> Vec<Vec<u8>> {
    let longest = [in_quotes(&[b'"'; LONGEST_FIELD]), vec![b'a'; LONGEST_FIELD]];
    let fields = [&b""[..], b"a", b"\"\"", b"\"a,b\"", &longest[0], &longest[1]];
    let mut texts = Vec::new();
    for count in MOST_FIELDS - 2..=MOST_FIELDS + 2 {
        for field in fields {
            for separator in [b',', b'\t'] {
                texts.extend(beside_others(&vec![field; count].join(&separator)));
            }
        }
    }
    texts
}

/// Alone, and before and behind another field, in the same record or line or not.
fn beside_others(fields: &[u8]) -> Vec<Vec<u8>> {
    let between = [&b","[..], b"\t", b"\n", b"\r\n"];
    let before = between.map(|between| [fields, between, b"b"].concat());
    let behind = between.map(|between| [b"b", between, fields].concat());
    [&[fields.to_vec()][..], &before, &behind].concat()
}

/// Each byte in and beside fields with and without quotes.
fn all_bytes() -> Vec<Vec<u8>> {
    let fronts = [&b""[..], b"a", b",", b"\r", b"\"", b"\"a", b"\"a\"", b"\"a\"\""];
    let backs = [&b""[..], b"a", b"\"", b"\"\""];
    let texts = (0..=u8::MAX).flat_map(|byte| {
        fronts.map(|front| backs.map(|back| [front, &[byte], back].concat())).concat()
    });
    texts.collect()
}

/// A broken quote, a byte without a drill line, a long field or many fields in the last of so many records or lines; or
/// nothing of these.
fn last_not_taken() -> Vec<Vec<u8>> {
    let lasts = [
        &b"\"a"[..],
        b"a\"",
        b"\"a\"b",
        b"a\rb",
        b"\"\n\"",
        &[b'a'; 65],
        &[b','; 16],
        &[b'\t'; 16],
        b"a",
    ];
    let mut texts = Vec::new();
    for number in [2, 255, 256, 257, 65_536] {
        for taken in [&b"\n"[..], b"\"a,b\",c\r\n", b"a\tb\n"] {
            texts.extend(lasts.map(|last| [&taken.repeat(number - 1)[..], last].concat()));
        }
    }
    texts
}

/// Converts so many random texts. They follow from the seed.
pub fn random_delivery_lists<E: DeliveryListEngine>(engine: &E, seed: u64, texts: u64) -> Answers {
    let mut random = Random::new(seed);
    let mut converter = Converter::new(engine);
    for _ in 0..texts {
        let mut text = match random.below(4) {
            0 => random_bytes(&mut random),
            1 => random_lines(&mut random),
            _ => random_records(&mut random),
        };
        if random.once_in(2) {
            for _ in 0..=random.below(3) {
                damage(&mut random, &mut text);
            }
        }
        converter.ask(&text);
    }
    converter.answers
}

/// Over a few bytes, some of them rich in quotes.
fn random_bytes(random: &mut Random) -> Vec<u8> {
    let alphabet = random.pick(&[
        &MARKS[..],
        b"\"\"\",\na",
        b"\"a",
        b"\",\r\n\taaaaaaaa",
        b",\n;abc 01",
        b"\t\n\",abc",
        b"\"\r\n",
    ]);
    let longest = random.pick(&[12, 40, 300]);
    (0..random.below(longest)).map(|_| random.pick(alphabet)).collect()
}

/// Records that mostly are taken; the last may lack its end, or a part of it.
fn random_records(random: &mut Random) -> Vec<u8> {
    let mut text = Vec::new();
    for fields in random_list(random, b"aaaabcd 01;\t\r\n") {
        let written: Vec<Vec<u8>> =
            fields.into_iter().map(|field| quoted_at_times(random, field)).collect();
        text.extend(written.join(&b','));
        text.extend(random.pick(&[&b"\r\n"[..], b"\n"]));
    }
    let lacking = random.pick(&[0, 0, 1, 2]);
    text.truncate(text.len().saturating_sub(lacking));
    text
}

/// Where it must be, and at times where it need not.
fn quoted_at_times(random: &mut Random, field: Vec<u8>) -> Vec<u8> {
    let must = field.iter().any(|byte| b"\",\r\n".contains(byte));
    if must || random.once_in(4) {
        in_quotes(&field)
    } else {
        field
    }
}

/// Lines that mostly are taken; the last may lack its end.
fn random_lines(random: &mut Random) -> Vec<u8> {
    let lines = random_list(random, b"aaaabcd 01;\r");
    let mut text = lines.iter().map(|fields| fields.join(&b'\t')).collect::<Vec<_>>().join(&b'\n');
    if !random.once_in(4) {
        text.push(b'\n');
    }
    text
}

/// Up to ten records or lines. One in a few lists has up to 18 fields, and one field in many is about 64 bytes long or
/// has one of the odd bytes.
fn random_list(random: &mut Random, odd: &[u8]) -> Vec<Vec<Vec<u8>>> {
    let (count, fields) = (random.below(11), random.pick(&[1, 3, 3, MOST_FIELDS as u64 + 2]));
    let record = |_| (0..=random.below(fields)).map(|_| random_field(random, odd)).collect();
    (0..count).map(record).collect()
}

fn random_field(random: &mut Random, odd: &[u8]) -> Vec<u8> {
    let alphabet = match random.below(64) {
        0 => odd,
        1..=16 => b"aab\"",
        17..=32 => b"ab\",, ",
        _ => b"abcdef0123456789 ",
    };
    let length = match random.below(32) {
        0 => LONGEST_FIELD as u64 - 2 + random.below(4),
        _ => random.below(9),
    };
    (0..length).map(|_| random.pick(alphabet)).collect()
}

/// A byte is left out, put in, changed, or swapped with another.
fn damage(random: &mut Random, text: &mut Vec<u8>) {
    let byte = if random.once_in(8) { random.word() as u8 } else { random.pick(&MARKS) };
    if text.is_empty() {
        return text.push(byte);
    }
    let [place, other] = [(); 2].map(|()| random.below(text.len() as u64) as usize);
    match random.below(4) {
        0 => drop(text.remove(place)),
        1 => text.insert(place, byte),
        2 => text[place] = byte,
        _ => text.swap(place, other),
    }
}
