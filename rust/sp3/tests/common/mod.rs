//! Files for the tests, written from the paper. Lines and columns are counted from 1.
#![allow(dead_code)] // each test program uses some of this

use sp3::{Header, HeaderParts, Moment, Refusal, Table, Texts};

/// The sample that holds the paper's file in its canonical form.
pub const SAMPLE: &[u8] = include_bytes!("../../../../samples/paper.sp3");

/// The sample with correlation records of every kind, in mode V.
pub const CORRELATIONS: &[u8] = include_bytes!("../../../../samples/correlations.sp3");

/// The sample with absent clocks and rates in every spelling, in mode V.
pub const SIX_NINES: &[u8] = include_bytes!("../../../../samples/six-nines.sp3");

const NO_SATELLITES: &str = "+          0  0  0  0  0  0  0  0  0  0  0  0  0  0  0  0  0";
const NO_EXPONENTS: &str = "++         0  0  0  0  0  0  0  0  0  0  0  0  0  0  0  0  0";

/// A file as lines that can be altered.
#[derive(Clone)]
pub struct Draft(pub Vec<Vec<u8>>);

impl Draft {
    /// The 22 lines before the first epoch, then further ones.
    fn of([first, two, satellites, exponents, characters]: [&str; 5], rest: &[&str]) -> Draft {
        let mut lines = vec![first, two, satellites];
        lines.extend([NO_SATELLITES; 4]);
        lines.push(exponents);
        lines.extend([NO_EXPONENTS; 4]);
        lines.extend([
            characters,
            "%c cc cc ccc ccc cccc cccc cccc cccc ccccc ccccc ccccc ccccc",
            "%f  1.2500000  1.025000000  0.00000000000  0.000000000000000",
            "%f  0.0000000  0.000000000  0.00000000000  0.000000000000000",
            "%i    0    0    0    0      0      0      0      0         0",
            "%i    0    0    0    0      0      0      0      0         0",
            "/* ONE ROW",
            "/*",
            "/*",
            "/*",
        ]);
        lines.extend(rest);
        Draft(lines.into_iter().map(|line| line.as_bytes().to_vec()).collect())
    }

    /// The bytes of the file, LF after each line.
    pub fn bytes(&self) -> Vec<u8> {
        self.0.iter().flat_map(|line| [&line[..], b"\n"].concat()).collect()
    }

    /// Bytes put into a line from a column on; the line is filled up with blanks where it is shorter.
    pub fn put(mut self, line: usize, column: usize, bytes: impl AsRef<[u8]>) -> Draft {
        let (text, bytes) = (&mut self.0[line - 1], bytes.as_ref());
        let end = column - 1 + bytes.len();
        text.resize(text.len().max(end), b' ');
        text[column - 1..end].copy_from_slice(bytes);
        self
    }

    /// A line that ends with these bytes, which begin in a column.
    pub fn end(mut self, line: usize, column: usize, bytes: impl AsRef<[u8]>) -> Draft {
        self.0[line - 1].truncate(column - 1);
        self.put(line, column, bytes)
    }

    /// The file without a line.
    pub fn without(mut self, line: usize) -> Draft {
        self.0.remove(line - 1);
        self
    }

    /// The file with a line more, which is then the one of this number.
    pub fn with(mut self, line: usize, text: &str) -> Draft {
        self.0.insert(line - 1, text.as_bytes().to_vec());
        self
    }
}

/// 01, "One file whole": 25 lines.
pub fn paper() -> Draft {
    Draft::of(
        [
            "#dP2013  4  3  0  0  0.00000000       1 ORBIT WGS84 BCT PORT",
            "## 1734 259200.00000000   900.00000000 56385 0.0000000000000",
            "+    1   G07  0  0  0  0  0  0  0  0  0  0  0  0  0  0  0  0",
            NO_EXPONENTS,
            "%c G  cc GPS ccc cccc cccc cccc cccc ccccc ccccc ccccc ccccc",
        ],
        &[
            "*  2013  4  3  0  0  0.00000000",
            "PG07   5000.000001     -0.500000      0.000000 999999.999999",
            "EOF",
        ],
    )
}

/// Two satellites and three epochs over the midnight at the end of 2012: 32 lines. 2012-12-31 is MJD 56292, 91 days after case 2 of the paper;
/// 56292 - 44244 is 1721 weeks and a day, and 23:45 is 85,500 s.
pub fn night() -> Draft {
    Draft::of(
        [
            "#dP2012 12 31 23 45  0.00000000       3 u+U   IGS08 FIT  NGS",
            "## 1721 171900.00000000   900.00000000 56292 0.9895833333333",
            "+    2   G07R24  0  0  0  0  0  0  0  0  0  0  0  0  0  0  0",
            "++         5 13  0  0  0  0  0  0  0  0  0  0  0  0  0  0  0",
            "%c M  cc UTC ccc cccc cccc cccc cccc ccccc ccccc ccccc ccccc",
        ],
        &[
            "*  2012 12 31 23 45  0.00000000",
            "PG07  15000.000000 -20000.500000      0.000000    123.456789",
            "PR24      0.000000      0.000000      0.000000 999999.999999",
            "*  2013  1  1  0  0  0.00000000",
            "PG07      0.000000      0.000000      0.000000     -0.000001 18 18 18 219 EP  MP",
            "PR24      0.000000      0.000000      0.000001 999999.999999 99 99 99 999",
            "*  2013  1  1  0 15  0.00000000",
            "PG07     -0.500000     -0.000000      0.000000 999999.000000",
            "PR24 999999.999999-999999.999999 999999.999999-999999.999999  0     9   7     M",
            "EOF",
        ],
    )
}

/// Mode V with an EP and an EV: 30 lines. 2001-08-08 is MJD 52129, 526 days after case 4 of the paper: 1126 weeks and three days.
pub fn motion() -> Draft {
    Draft::of(
        [
            "#dV2001  8  8  0  0  0.00000000       1 ORBIT IGS97 HLM MGEX",
            "## 1126 259200.00000000   900.00000000 52129 0.0000000000000",
            "+    2   G01G02  0  0  0  0  0  0  0  0  0  0  0  0  0  0  0",
            "++         7  8  0  0  0  0  0  0  0  0  0  0  0  0  0  0  0",
            "%c G  cc GPS ccc cccc cccc cccc cccc ccccc ccccc ccccc ccccc",
        ],
        &[
            "*  2001  8  8  0  0  0.00000000",
            "PG01 -11044.805800 -10475.672350  21929.418200    189.163300 18 18 18 219",
            "EP    55   55   55     222  1234567 -1234567  5999999      -30       21 -1230000",
            "VG01  20298.880364 -18462.044804   1381.387685     -4.534317 14 14 14 191",
            "EV    22   22   22     111  1234567  1234567  1234567  1234567  1234567  1234567",
            "PG02 -12593.593500  10170.327650 -20354.534400    -55.976000 18 18 18 219     M",
            "VG02      0.000000      0.000000      0.000000 999999.999999",
            "EOF",
        ],
    )
}

/// The parts of the header of the paper's file.
pub fn paper_parts() -> HeaderParts {
    HeaderParts {
        mode: b'P',
        start: Moment { year: 2013, month: 4, day: 3, ..Moment::default() },
        epochs: 1,
        interval8: 90_000_000_000,
        texts: Texts {
            data_used: *b"ORBIT",
            coordinates: *b"WGS84",
            orbit: *b"BCT",
            agency: *b"PORT",
        },
        satellites: 1,
        comments: 4,
        file_type: b'G',
        time_system: *b"GPS",
        bases: sp3::Bases { place: 12_500_000, clock: 1_025_000_000 },
    }
}

/// The header of the paper's file, worked out from its lines: the start is 56385 days after MJD 0.
pub fn paper_header() -> Header {
    let parts = paper_parts();
    Header {
        velocity: false,
        start8: 56385 * 86_400 * 100_000_000,
        epochs: 1,
        interval8: 900 * 100_000_000,
        texts: parts.texts,
        satellites: 1,
        comments: 4,
        file_type: b'G',
        time_system: *b"GPS",
        bases: parts.bases,
    }
}

/// The identifier of satellite k, counted from 0, where there are many: G01 to G99, then R01 and so on.
pub fn name(k: u64) -> u64 {
    u64::from(b"GRECJISLABD"[(k / 99) as usize]) * 100 + k % 99 + 1
}

/// The text of such an identifier.
fn name_text(k: u64) -> String {
    format!("{}{:02}", (name(k) / 100) as u8 as char, name(k) % 100)
}

/// A table of n satellites, each with the row of the paper's file.
pub fn many(n: u64) -> Table {
    let one = Table::read(SAMPLE).expect("the paper's file");
    Table {
        header: Header { satellites: n, file_type: b'M', ..one.header },
        identifiers: (0..n).map(name).collect(),
        exponents: vec![0; n as usize],
        comments: one.comments,
        rows: one.rows.repeat(n as usize),
    }
}

/// The file of that table: lines of 17 slots, five or more of each kind, and a row for each satellite.
pub fn crowd(n: u64) -> Draft {
    let lines = n.div_ceil(17).max(5);
    let slot = |k: u64| if k < n { name_text(k) } else { "  0".to_string() };
    let slots = |line: u64| (17 * line..17 * line + 17).map(slot).collect::<String>();
    let count = |line: u64| if line == 0 { n.to_string() } else { String::new() };
    let Draft(paper) = paper();
    let text = |line: usize| String::from_utf8(paper[line - 1].clone()).expect("ASCII");
    let mut file = vec![text(1), text(2)];
    file.extend((0..lines).map(|line| format!("+  {:>3}   {}", count(line), slots(line))));
    file.extend((0..lines).map(|_| NO_EXPONENTS.to_string()));
    file.push(text(13).replace("%c G", "%c M"));
    file.extend((14..=23).map(text));
    file.extend((0..n).map(|k| text(24).replace("G07", &name_text(k))));
    file.push(text(25));
    Draft(file.into_iter().map(String::into_bytes).collect())
}

/// The numbers of all rows of a table, made again from what each row says.
pub fn stored_again(table: &Table) -> Vec<i64> {
    let rows = table.rows().flat_map(|row| [Some(row.position), row.velocity]);
    rows.flatten().flat_map(|row| row.numbers().expect("a row that was read")).collect()
}

/// A refusal, as a result.
pub fn refused<T>(number: u8, line: u64, column: usize) -> Result<T, Refusal> {
    Err(Refusal { number, line, column })
}
