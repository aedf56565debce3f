//! A checker of refutations: each lemma follows from its hints by unit propagation, and the last one is empty.

/// The whole numbers of a text.
struct Numbers<'a> {
    rest: &'a [u8],
}

impl Numbers<'_> {
    fn next(&mut self) -> Option<i64> {
        let start = self.rest.iter().position(|byte| byte.is_ascii_digit() || *byte == b'-')?;
        let negative = self.rest[start] == b'-';
        let mut number = 0i64;
        let mut at = start + usize::from(negative);
        while let Some(byte @ b'0'..=b'9') = self.rest.get(at) {
            number = number * 10 + i64::from(byte - b'0');
            at += 1;
        }
        self.rest = &self.rest[at..];
        Some(if negative { -number } else { number })
    }
}

fn after_line(text: &[u8]) -> &[u8] {
    let end = text.iter().position(|&byte| byte == b'\n').map_or(text.len(), |at| at + 1);
    &text[end..]
}

/// The place of a literal in a vector of marks.
fn place(literal: i64) -> usize {
    2 * literal.unsigned_abs() as usize + usize::from(literal < 0)
}

struct Clauses {
    literals: Vec<i32>,
    ends: Vec<usize>,
}

impl Clauses {
    fn get(&self, id: usize) -> &[i32] {
        &self.literals[self.ends[id - 1]..self.ends[id]]
    }
}

/// Follows the hints; true if they end in a false clause. `marks` has `stamp` at each true literal.
fn conflict(clauses: &Clauses, hints: &[usize], marks: &mut [u32], stamp: u32) -> bool {
    for &hint in hints {
        let mut open = 0;
        let mut several = false;
        for &literal in clauses.get(hint) {
            if marks[place(-i64::from(literal))] != stamp && literal != open {
                several = open != 0;
                open = literal;
                if several {
                    break;
                }
            }
        }
        if several {
            return false;
        }
        if open == 0 {
            return true;
        }
        marks[place(i64::from(open))] = stamp;
    }
    false
}

/// Checks a refutation of a formula in DIMACS; an error is the line of the first bad lemma.
pub fn check(formula: &[u8], refutation: &[u8]) -> Result<(), usize> {
    let mut header = Numbers { rest: formula };
    let variables = header.next().ok_or(0usize)?;
    let count = header.next().ok_or(0usize)? as usize;
    let mut clauses = Clauses { literals: Vec::new(), ends: vec![0] };
    let mut numbers = Numbers { rest: after_line(formula) };
    while let Some(number) = numbers.next() {
        if number == 0 {
            clauses.ends.push(clauses.literals.len());
        } else {
            clauses.literals.push(number as i32);
        }
    }
    assert_eq!(clauses.ends.len(), count + 1, "clauses of the formula");

    let mut marks = vec![0u32; 2 * variables as usize + 2];
    let mut numbers = Numbers { rest: after_line(refutation) };
    let mut hints = Vec::new();
    let (mut line, mut empty) = (1, false);
    while let Some(id) = numbers.next() {
        line += 1;
        let stamp = line as u32;
        let known = clauses.ends.len() - 1;
        let start = clauses.literals.len();
        while let Some(literal) = numbers.next().filter(|&literal| literal != 0) {
            if literal.abs() > variables {
                return Err(line);
            }
            marks[place(-literal)] = stamp;
            clauses.literals.push(literal as i32);
        }
        hints.clear();
        while let Some(hint) = numbers.next().filter(|&hint| hint != 0) {
            hints.push(hint as usize);
        }
        if id as usize != known + 1 || hints.iter().any(|&hint| hint == 0 || hint > known) {
            return Err(line);
        }
        if !conflict(&clauses, &hints, &mut marks, stamp) {
            return Err(line);
        }
        empty = clauses.literals.len() == start;
        clauses.ends.push(clauses.literals.len());
    }
    if empty { Ok(()) } else { Err(line) }
}
