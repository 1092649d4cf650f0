//! Journals that no session wrote: damaged ones, mixtures of two, and made-up ones.

use crate::attack::random::Random;
use crate::journal::TURN_LINE;

/// Each byte changed in some ways, and each line edited in each way.
pub fn damages(random: &mut Random, journal: &[u8]) -> Vec<Vec<u8>> {
    let mut damaged = Vec::new();
    for place in 0..journal.len() {
        let old = journal[place];
        for byte in [old ^ 1, old ^ 0x20, random.pick(b"\n\t\r 0f\x00"), random.word() as u8] {
            let mut changed = journal.to_vec();
            changed[place] = byte;
            damaged.push(changed);
        }
    }
    for line in 0..lines_of(journal).len() {
        damaged.extend(EDITS.iter().map(|edit| edited(journal, line, edit)));
    }
    damaged
}

/// What is put in place of a line, given without its LF; without an LF behind it, it runs into the next line.
type Edit = fn(&[u8]) -> Vec<u8>;

const EDITS: [Edit; 16] = [
    |_| Vec::new(),
    |_| b"\n".to_vec(),
    |line| [line, b"\n", line, b"\n"].concat(),
    |line| [line, b"\r\n"].concat(),
    |line| [line, b"\t\n"].concat(),
    |line| [b"\t", line, b"\n"].concat(),
    |line| [line, b"\t1\n"].concat(),
    |line| [line, b"\x00\n"].concat(),
    |line| [line, TURN_LINE].concat(),
    |line| [line, b"\n", TURN_LINE].concat(),
    |line| [TURN_LINE, line, b"\n"].concat(),
    |line| [&line.to_ascii_uppercase()[..], b"\n"].concat(),
    |line| [&line.to_ascii_lowercase()[..], b"\n"].concat(),
    |line| [&zeros_before(line)[..], b"\n"].concat(),
    |line| [&line[..line.len() - 1], b"\n"].concat(),
    |line| [&without_last_field(line)[..], b"\n"].concat(),
];

/// A leading zero in each field.
fn zeros_before(line: &[u8]) -> Vec<u8> {
    line.split(|&byte| byte == b'\t').collect::<Vec<_>>().join(&b"\t0"[..])
}

fn without_last_field(line: &[u8]) -> Vec<u8> {
    let last = line.iter().rposition(|&byte| byte == b'\t').unwrap_or(0);
    line[..last].to_vec()
}

fn lines_of(journal: &[u8]) -> Vec<&[u8]> {
    journal.split_inclusive(|&byte| byte == b'\n').collect()
}

fn edited(journal: &[u8], at: usize, edit: &Edit) -> Vec<u8> {
    let mut lines: Vec<Vec<u8>> = lines_of(journal).iter().map(|line| line.to_vec()).collect();
    lines[at] = edit(&lines[at][..lines[at].len() - 1]);
    lines.concat()
}

/// Lines swapped, or put in from the same or from another session, its opening among them; and the other session whole.
pub fn mixtures(random: &mut Random, journal: &[u8], other: &[u8]) -> Vec<Vec<u8>> {
    let (own, others) = (lines_of(journal), lines_of(other));
    let mut mixed = vec![other.to_vec(), [journal, other].concat(), [other, journal].concat()];
    for _ in 0..60 {
        let mut lines = own.clone();
        let place = |random: &mut Random, count: usize| random.below(count as u64) as usize;
        match random.below(4) {
            0 => {
                let (first, second) = (place(random, lines.len()), place(random, lines.len()));
                lines.swap(first, second);
            }
            1 => lines.insert(place(random, lines.len()), own[0]),
            2 => lines.insert(place(random, lines.len()), random.pick(&others)),
            _ => {
                lines = random.some(lines, own.len());
                lines.insert(0, own[0]);
            }
        }
        mixed.push(lines.concat());
    }
    mixed
}

/// Empty ones, lines on the edge, and some of a few MB.
pub fn made_up(random: &mut Random, journal: &[u8]) -> Vec<Vec<u8>> {
    const HUGE: usize = 3_000_000;
    let first = lines_of(journal)[0];
    let mut made: Vec<Vec<u8>> = edge_lines().into_iter().map(String::into_bytes).collect();
    made.extend([b"".to_vec(), b"\n".to_vec(), b"T\n".to_vec(), vec![b'\n'; HUGE]]);
    for alphabet in [&b"0123456789abcdef\t"[..], b"T\n", b"ODTK\t\n01f\r", b"1\t"] {
        let noise: Vec<u8> = (0..HUGE).map(|_| random.pick(alphabet)).collect();
        made.push([first, &noise].concat());
        made.push([journal, &noise].concat());
        made.push(noise);
    }
    // A decimal and a message of some MB.
    made.push([first, b"D\t", &vec![b'1'; HUGE], b"\t00\n"].concat());
    made.push([first, b"D\t1\t", &vec![b'0'; HUGE], b"\n"].concat());
    made.push([first, b"K\t1\t1\t", &vec![b'1'; HUGE], b"\n"].concat());
    made
}

/// Numbers that are good, or would be if they wrapped or were read otherwise, after what is good in their place.
fn edges(good: &str) -> Vec<String> {
    let mut edges: Vec<String> =
        ["0", "1", "2", "4", "5", "255", "4294967295", "9223372036854775808", "", "-1", "+1", "1 "]
            .map(String::from)
            .to_vec();
    if let Ok(number) = good.parse::<u128>() {
        let wraps = [1 << 8, 1 << 16, 1 << 32, 1 << 64, 1 << 72];
        edges.extend(wraps.iter().flat_map(|wrap| [*wrap, wrap + number].map(|k| k.to_string())));
        edges.extend([(1 << 32) - 1, u128::from(u64::MAX)].map(|most| most.to_string()));
        edges.extend(["0", "00000000000000000000"].map(|zeros| format!("{zeros}{good}")));
    }
    edges
}

/// Lines whose numbers stand on the edge of what is taken.
fn edge_lines() -> Vec<String> {
    let good = ["1", "1", "0", "0", "1", "7", "0000000000000005", "00000000", "1", "1"];
    let send = "0101010100010000000000070000000000000005";
    let mut lines = Vec::new();
    for place in 0..good.len() {
        for other in edges(good[place]) {
            let mut fields = good.map(String::from);
            fields[place] = other;
            lines.push(format!("O\t{}\n", fields.join("\t")));
        }
    }
    for link in edges("1") {
        lines.push(format!("O\t{}\nD\t{link}\t{send}\nT\n", good.join("\t")));
    }
    // A recording on the edge, alone and behind one of the other bit.
    for place in 0..3 {
        for other in edges("1").into_iter().chain(["31", "32", "33"].map(String::from)) {
            let mut fields = ["1", "1", "1"].map(String::from);
            fields[place] = other;
            let opening = good.join("\t");
            let line = fields.join("\t");
            lines.push(format!("O\t{opening}\nK\t{line}\nT\n"));
            lines.push(format!("O\t{opening}\nK\t1\t1\t0\nK\t{line}\nT\n"));
        }
    }
    lines.extend(lines_by_version(good));
    lines.extend(lines_by_count());
    lines
}

/// Opening lines of every version, in the present form and in both older ones, with a SEND and a FINISH of each version.
fn lines_by_version(good: [&str; 10]) -> Vec<String> {
    let mut lines = Vec::new();
    for version in edges(good[0]) {
        for form in [&good[1..], &good[1..9], &good[1..8]] {
            for head in ["0101", "0201", "0107", "0207"] {
                let opening = form.join("\t");
                let message = format!("{head}010100010000000000070000000000000001");
                lines.push(format!("O\t{version}\t{opening}\nT\nD\t1\t{message}\nT\n"));
            }
        }
    }
    lines
}

/// Opening lines with all numbers of coin words, of weights and of what follows them, flags and coins in boxed ones too.
fn lines_by_count() -> Vec<String> {
    let mut lines = Vec::new();
    for n in 0..=20 {
        for (coins, weights) in [(n, n), (n, 0), (n, n + 1), (n + 1, n), (n, 2 * n), (0, n)] {
            for (word, flags) in
                ["00000001", "00000000"].iter().flat_map(|w| ["", "\t0", "\t1"].map(|f| (w, f)))
            {
                let lists = format!("\t{word}").repeat(coins) + &"\t1".repeat(weights) + flags;
                lines.push(format!("O\t1\t{n}\t255\t0\t1\t7\t00000000000000ff{lists}\nT\n"));
            }
        }
    }
    lines
}
