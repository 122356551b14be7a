//! Files damaged at random: the two levels and all paths through the crate agree with each other, and nothing stops.

mod common;

use common::{motion, night, paper, stored_again, CORRELATIONS, SIX_NINES};
use sp3::{judge_front, Refusal, Table, MOST_SATELLITES};

/// Numbers that look random and are the same in each run (splitmix64).
struct Random(u64);

impl Random {
    fn below(&mut self, bound: usize) -> usize {
        self.0 = self.0.wrapping_add(0x9E37_79B9_7F4A_7C15);
        let mut mixed = self.0;
        mixed = (mixed ^ (mixed >> 30)).wrapping_mul(0xBF58_476D_1CE4_E5B9);
        mixed = (mixed ^ (mixed >> 27)).wrapping_mul(0x94D0_49BB_1331_11EB);
        ((mixed ^ (mixed >> 31)) % bound as u64) as usize
    }
}

/// One alteration: a byte replaced, removed or put in anywhere or at the end, a line doubled or removed, or the end lost.
fn damage(file: &mut Vec<u8>, random: &mut Random) {
    let at = random.below(file.len());
    let byte = match random.below(3) {
        0 => b"0123456789 -.GPVE*\n"[random.below(19)],
        _ => random.below(256) as u8,
    };
    let start = file[..at].iter().rposition(|&byte| byte == b'\n').map_or(0, |end| end + 1);
    let end =
        file[at..].iter().position(|&byte| byte == b'\n').map_or(file.len(), |end| at + end + 1);
    match random.below(9) {
        0 => file.insert(at, byte),
        1 => drop(file.remove(at)),
        2 => drop(file.drain(start..end)),
        3 => drop(file.splice(end..end, file[start..end].to_vec())),
        4 => file.truncate(at.max(1)),
        5 => file.push(byte),
        _ => file[at] = byte,
    }
}

/// The walker stays at a spot from so many lines on, with these identifiers.
fn walker_stays(bytes: &[u8], lines: usize, spot: sp3::Spot, identifiers: &[u64; MOST_SATELLITES]) {
    let mut learnt = [0; MOST_SATELLITES];
    assert_eq!(sp3::after_lines(bytes, &mut learnt, sp3::first_spot(), lines), spot);
    assert_eq!(&learnt, identifiers);
}

/// What the line reader finds: the length of a file at the front, or the first line that is refused. The walker does not pass that line.
fn by_lines(bytes: &[u8]) -> Result<usize, Refusal> {
    let mut identifiers = [0; MOST_SATELLITES];
    let mut spot = sp3::first_spot();
    for line in 1.. {
        let read = sp3::read_line(bytes, spot, &mut identifiers);
        if !matches!(read, Ok(sp3::Line { finished: false, .. })) {
            walker_stays(bytes, line as usize + 3, spot, &identifiers);
        }
        match read {
            Err(sp3::LineRefusal { number, column }) => {
                return Err(Refusal { number, line, column })
            }
            Ok(read) if read.finished => return Ok(read.next.at()),
            Ok(read) => spot = read.next,
        }
    }
    unreachable!("a file has an end")
}

/// An accepted file by all its ways: table, walk, questions, canonical form.
fn agree(file: &[u8]) {
    let table = Table::read(file).unwrap();
    let form = table.write().unwrap();
    assert_eq!(Table::read(&form).as_ref(), Ok(&table));
    assert_eq!(Table::read(&form).unwrap().write().unwrap(), form);
    let walked: Vec<_> = sp3::rows(file).unwrap().map(Result::unwrap).collect();
    assert_eq!(walked.len(), table.rows().count());
    for (walked, stored) in walked.iter().zip(table.rows()) {
        assert_eq!((walked.epoch, walked.satellite), (stored.epoch, stored.satellite));
        let place = stored.position.place.map(|place| place.map(|number| number as f64));
        assert_eq!(walked.row.place, place);
        assert_eq!(walked.row.clock, stored.position.clock.map(|number| number as f64));
        assert_eq!(sp3::row(file, stored.epoch, stored.satellite), Ok(walked.row));
    }
    assert_eq!(stored_again(&table), table.rows);
    for k in 0..table.header.comments {
        assert_eq!(sp3::comment(file, k), table.comment(k as usize));
    }
    for (number, &identifier) in table.identifiers.iter().enumerate() {
        assert_eq!(sp3::satellite_of(file, identifier), Ok(number as u64));
    }
}

/// A refusal names a column that its number can name; of 2 it is the first byte outside 32 to 126.
fn column_by_number(file: &[u8], refusal: Refusal) {
    let line = file.split(|&byte| byte == b'\n').nth(refusal.line as usize - 1).unwrap();
    let outside = line.iter().position(|byte| !(32..=126).contains(byte));
    match refusal.number {
        2 => assert_eq!(Some(refusal.column), outside.map(|at| at + 1)),
        3 => assert_eq!((refusal.column, outside), (81, None)),
        5..=7 => assert!((2..=80).contains(&refusal.column), "{refusal}"),
        _ => assert_eq!(refusal.column, 0),
    }
}

/// A stretch of files laid end to end is divided as judging one front after the other divides it.
fn divided(stretch: &[u8]) {
    let division = sp3::divide_all(stretch);
    let mut at = 0;
    for file in &division.files {
        let length = judge_front(&stretch[at..]).unwrap().length;
        assert_eq!(*file, at..at + length);
        at += length;
    }
    assert_eq!(division.rest, at);
    let left = judge_front(&stretch[at..]).err().filter(|_| at < stretch.len());
    assert_eq!(division.refusal, left);
}

#[test]
fn damaged_files() {
    let mut random = Random(1);
    let mut counts = [0; 12];
    let [correlations, nines] = [CORRELATIONS, SIX_NINES].map(<[u8]>::to_vec);
    let bases = [paper().bytes(), night().bytes(), motion().bytes(), correlations, nines];
    for case in 0..7500 {
        let mut file = bases[case % bases.len()].clone();
        for _ in 0..random.below(3) {
            damage(&mut file, &mut random);
        }
        let whole = sp3::judge(&file);
        let front = judge_front(&file).map(|reading| reading.length);
        assert_eq!(front, by_lines(&file), "case {case}");
        assert_eq!(Table::read(&file).map(|_| ()), whole.map(|_| ()), "case {case}");
        counts[whole.map_or_else(|refusal| usize::from(refusal.number), |_| 0)] += 1;
        match whole {
            Ok(_) => agree(&file),
            Err(refusal) => column_by_number(&file, refusal),
        }
        divided(&[&bases[(case + 1) % bases.len()], &file[..], &bases[0]].concat());
    }
    assert!(counts.iter().all(|&count| count > 0), "numbers 0 to 11 all occur: {counts:?}");
}

#[test]
fn bytes_of_every_kind() {
    let mut random = Random(2);
    for case in 0..2000 {
        let bytes: Vec<u8> = (0..random.below(400)).map(|_| random.below(256) as u8).collect();
        let front = judge_front(&bytes).map(|reading| reading.length);
        assert_eq!(front, by_lines(&bytes), "case {case}");
        assert!(front.is_err());
        divided(&bytes);
        let numbers: Vec<i64> = bytes.iter().map(|&byte| i64::from(byte) << (byte % 64)).collect();
        let rows = (0..).map_while(|k| sp3::stored_row(&numbers, k).ok()).count();
        assert_eq!(rows, numbers.len() / sp3::ROW_WIDTH);
    }
}
