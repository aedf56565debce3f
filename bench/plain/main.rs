//! Plain Rust for two jobs of lincs, without proofs, to compare costs with.
//!
//!     plain classify PROBLEM MODEL TABLE     sorts a table
//!     plain check FORMULA REFUTATION         checks a refutation of a DIMACS formula
//!
//! Tables are any CSV. Problems and models must have the form that bench/make_table.py writes.
mod csv;
mod decimal;
mod model;
mod refutation;

use std::io::{self, BufWriter, Write};
use std::process::exit;

fn classify(problem: &str, model: &str, table: &str) -> io::Result<()> {
    let problem = model::Problem::parse(&std::fs::read_to_string(problem)?);
    let model = model::Model::parse(&problem, &std::fs::read_to_string(model)?);
    let table = std::fs::read(table)?;
    let mut records = csv::Records::new(&table);
    let mut fields = Vec::new();
    records.next(&mut fields);
    let column = |name: &str| fields.iter().position(|field| field.as_ref() == name.as_bytes()).expect("a column");
    let name = column("name");
    let columns: Vec<usize> = problem.criteria.iter().map(|criterion| column(&criterion.name)).collect();
    let width = fields.len();

    let mut out = BufWriter::with_capacity(1 << 15, io::stdout().lock());
    csv::write_field(&mut out, b"name")?;
    for criterion in &problem.criteria {
        out.write_all(b",")?;
        csv::write_field(&mut out, criterion.name.as_bytes())?;
    }
    out.write_all(b",category\n")?;
    let mut grades = vec![0; columns.len()];
    while records.next(&mut fields) {
        assert_eq!(fields.len(), width, "fields of a row");
        for ((grade, criterion), &column) in grades.iter_mut().zip(&problem.criteria).zip(&columns) {
            *grade = criterion.scale.grade(&fields[column]).expect("a grade");
        }
        csv::write_field(&mut out, &fields[name])?;
        for &column in &columns {
            out.write_all(b",")?;
            csv::write_field(&mut out, &fields[column])?;
        }
        out.write_all(b",")?;
        csv::write_field(&mut out, problem.categories[model.category(&grades)].as_bytes())?;
        out.write_all(b"\n")?;
    }
    out.flush()
}

fn main() -> io::Result<()> {
    let words: Vec<String> = std::env::args().skip(1).collect();
    match words.iter().map(String::as_str).collect::<Vec<_>>()[..] {
        ["classify", problem, model, table] => classify(problem, model, table),
        ["check", formula, refutation] => {
            match refutation::check(&std::fs::read(formula)?, &std::fs::read(refutation)?) {
                Ok(()) => println!("accepted"),
                Err(line) => {
                    eprintln!("rejected at line {line}");
                    exit(1)
                }
            }
            Ok(())
        }
        _ => {
            eprintln!("usage: plain classify PROBLEM MODEL TABLE | plain check FORMULA REFUTATION");
            exit(2)
        }
    }
}
