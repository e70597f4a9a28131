//! Tables and answers in letters, turned into bytes as paper 01 lays them out. Nothing here asks the library.

const RECORD: usize = 32;
const CELLS: usize = 96;

/// The first of the tags that fragments get: those of the table that paper 01 prints.
const FIRST_TAG: u32 = 10;

/// The same fragments in both forms: as records, and as cells, tags and grades.
#[derive(Clone)]
pub struct Fixture {
    pub n: usize,
    pub table: Vec<u8>,
    pub cells: Vec<u8>,
    pub tags: Vec<u32>,
    pub grades: Vec<u8>,
}

impl Fixture {
    /// Fragments in letters from column 0 on: `A`, `B`, `-` for a hole, `?` for the code 3. All have one length, which
    /// is n, and the grade 0.
    pub fn of(fragments: &[impl AsRef<str>]) -> Fixture {
        let tags: Vec<u32> = (FIRST_TAG..).take(fragments.len()).collect();
        Fixture::tagged(fragments, &tags)
    }

    pub fn tagged(fragments: &[impl AsRef<str>], tags: &[u32]) -> Fixture {
        assert_eq!(fragments.len(), tags.len(), "a tag for each fragment");
        let rows: Vec<Vec<u8>> = fragments.iter().map(|letters| codes(letters.as_ref())).collect();
        let n = rows.first().map_or(0, Vec::len);
        assert!(rows.iter().all(|row| row.len() == n), "fragments of one length");
        let table = rows.iter().zip(tags).flat_map(|(row, &tag)| record(tag, row)).collect();
        Fixture { n, table, cells: rows.concat(), tags: tags.to_vec(), grades: vec![0; tags.len()] }
    }

    pub fn m(&self) -> usize {
        self.tags.len()
    }

    /// The first fragment that has holes alone.
    pub fn first_without_calls(&self) -> Option<usize> {
        (0..self.m()).find(|&i| self.cells[self.n * i..self.n * (i + 1)].iter().all(|&code| code == 0))
    }

    /// Said to have so many columns, with the same bytes.
    pub fn in_columns(mut self, n: usize) -> Fixture {
        self.n = n;
        self
    }

    /// With these grades, in byte 7 of each record too.
    pub fn graded(mut self, grades: &[u8]) -> Fixture {
        assert_eq!(grades.len(), self.m(), "a grade for each fragment");
        self.grades = grades.to_vec();
        for (place, &grade) in grades.iter().enumerate() {
            self.table[RECORD * place + 7] = grade;
        }
        self
    }

    /// Other bytes in a record: each edit is a byte of the record, and its value.
    pub fn edited(mut self, place: usize, edits: &[(usize, u8)]) -> Fixture {
        for &(at, value) in edits {
            self.table[RECORD * place + at] = value;
        }
        self
    }
}

/// Letters after which holes fill the columns up to n.
pub fn padded(letters: &str, n: usize) -> String {
    format!("{letters:-<n$}")
}

/// One letter in a column, and holes in the other columns up to n.
pub fn lone(letter: char, column: usize, n: usize) -> String {
    (0..n).map(|c| if c == column { letter } else { '-' }).collect()
}

/// A letter in each of two columns, and holes in the other columns up to n.
pub fn mates([near, far]: [(char, usize); 2], n: usize) -> String {
    let letter = |c: usize| [near, far].into_iter().find(|&(_, column)| column == c).map_or('-', |(letter, _)| letter);
    (0..n).map(letter).collect()
}

/// The first called column, 0 without calls.
pub fn start(letters: &str) -> usize {
    letters.find(|letter| letter != '-').unwrap_or(0)
}

/// Fragments as rule 13 has them stand where tags rise: by start, and those of one start as they were.
pub fn by_start(mut fragments: Vec<String>) -> Vec<String> {
    fragments.sort_by_key(|letters| start(letters));
    fragments
}

/// Is there a hole between two calls?
pub fn is_gapped(letters: &str) -> bool {
    letters.trim_matches('-').contains('-')
}

/// An answer from the fields of a listing's line: keep marks, haplotype 1, haplotype 2, sides, blocks.
pub fn answer(line: &str) -> Vec<u8> {
    let fields: Vec<&str> = line.split(' ').map(|field| if field == "." { "" } else { field }).collect();
    let [keep, haplotype1, haplotype2, sides, blocks] = fields[..] else { panic!("not five fields: {line}") };
    [digits(keep), codes(haplotype1), codes(haplotype2), digits(sides), block_numbers(blocks)].concat()
}

/// Counts of conflicts from a word of digits for each fragment, and from a full stop where there is none.
pub fn counts(rows: &str) -> Vec<u8> {
    let words: Vec<&str> = rows.split(' ').filter(|&word| word != ".").collect();
    assert!(words.iter().all(|word| word.len() == words.len()), "not as many digits as words: {rows}");
    digits(&words.concat())
}

/// A record as the paper's table of its bytes says. Cells past the 96th have no place in it.
fn record(tag: u32, row: &[u8]) -> [u8; RECORD] {
    let mut bytes = [0; RECORD];
    bytes[0..4].copy_from_slice(&tag.to_le_bytes());
    let Some(start) = row.iter().position(|&code| code != 0) else { return bytes };
    let span = row.iter().rposition(|&code| code != 0).map_or(0, |last| last + 1 - start);
    bytes[4..6].copy_from_slice(&(start as u16).to_le_bytes());
    bytes[6] = span as u8;
    for (i, code) in row[start..start + span].iter().take(CELLS).enumerate() {
        bytes[8 + i / 4] |= code << (2 * (i % 4));
    }
    bytes
}

/// The codes of letters; `#`, a removed column of a haplotype, and `?`, the code without a meaning, are both 3.
fn codes(letters: &str) -> Vec<u8> {
    let code = |letter| "-AB?".find(letter).or("-AB#".find(letter)).unwrap_or_else(|| panic!("no letter: {letter}"));
    letters.chars().map(|letter| code(letter) as u8).collect()
}

fn digits(text: &str) -> Vec<u8> {
    text.chars().map(|digit| digit.to_digit(10).unwrap_or_else(|| panic!("no digit: {digit}")) as u8).collect()
}

/// `0,0,-`: a removed fragment has the block 255.
fn block_numbers(text: &str) -> Vec<u8> {
    let number =
        |block: &str| if block == "-" { 255 } else { block.parse().unwrap_or_else(|_| panic!("no block: {block}")) };
    text.split(',').filter(|block| !block.is_empty()).map(number).collect()
}

#[test]
fn letters_are_the_bytes_that_the_paper_prints() {
    let printed = [
        [0x0A, 0, 0, 0, 0, 0, 2, 0, 0x05].as_slice(),
        [0x0B, 0, 0, 0, 0, 0, 3, 0, 0x16].as_slice(),
        [0x0C, 0, 0, 0, 1, 0, 2, 0, 0x0A].as_slice(),
    ];
    let filled = printed.map(|bytes| [bytes, &[0; 23]].concat());
    let fixture = Fixture::of(&["AA-", "BAA", "-BB"]);
    assert_eq!(fixture.table, filled.concat());
    assert_eq!(fixture.cells, [1, 1, 0, 2, 1, 1, 0, 2, 2]);
    assert_eq!((fixture.n, fixture.tags, fixture.grades), (3, vec![10, 11, 12], vec![0; 3]));
}

#[test]
fn grades_stand_in_byte_7() {
    let fixture = Fixture::of(&["A", "-", "B"]).graded(&[7, 255, 15]);
    assert_eq!(fixture.table[0..9], [10, 0, 0, 0, 0, 0, 1, 7, 0b01]);
    assert_eq!(fixture.table[32..64], [&[11, 0, 0, 0, 0, 0, 0, 255][..], &[0; 24]].concat());
    assert_eq!(fixture.table[64..73], [12, 0, 0, 0, 0, 0, 1, 15, 0b10]);
    assert_eq!(fixture.grades, [7, 255, 15]);
}

#[test]
fn cells_stand_four_to_a_byte_from_the_low_bits() {
    let fixture = Fixture::tagged(&[padded("-ABBA?", 300)], &[0x04030201]);
    assert_eq!(fixture.table[0..10], [1, 2, 3, 4, 1, 0, 5, 0, 0b01_10_10_01, 0b11]);
    let last = Fixture::of(&[format!("{}{}", "-".repeat(260), "A".repeat(CELLS))]);
    assert_eq!(last.table[4..8], [4, 1, 96, 0]); // 260 is 4 + 256
    assert_eq!(last.table[8..32], [0b01_01_01_01; 24]);
}

#[test]
fn fragments_stand_by_start() {
    assert_eq!(["---", "A-A", "-B-", "--A"].map(start), [0, 0, 1, 2]);
    let fragments = ["--A", "-B-", "B--", "---", "-A-", "A--"].map(str::to_owned).to_vec();
    assert_eq!(by_start(fragments), ["B--", "---", "A--", "-B-", "-A-", "--A"]);
}

#[test]
fn fragments_of_holes_are_without_calls() {
    assert_eq!(Fixture::of(&["A-", "--", "-B", "--"]).first_without_calls(), Some(1));
    assert_eq!(Fixture::of(&["A--", "-B-", "--?"]).first_without_calls(), None);
    assert_eq!(Fixture::of(&["", ""]).first_without_calls(), Some(0));
    assert_eq!(Fixture::of(&[""; 0]).first_without_calls(), None);
}

#[test]
fn words_are_the_rows_of_counts() {
    assert_eq!(counts("011 102 120"), [0, 1, 1, 1, 0, 2, 1, 2, 0]);
    assert_eq!(counts("0"), [0]);
    assert_eq!(counts("."), []);
}

#[test]
fn a_line_is_the_bytes_of_its_answer() {
    assert_eq!(answer("101 A#B B#- 120 0,0,-"), [1, 0, 1, 1, 3, 2, 2, 3, 0, 1, 2, 0, 0, 0, 255]);
    assert_eq!(answer("1 A - 11 0,127"), [1, 1, 0, 1, 1, 0, 127]);
    assert_eq!(answer(". . . . ."), []);
}
