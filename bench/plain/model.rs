//! Problems, models and the sorting rule.
use crate::decimal::{self, ONE};

pub enum Scale {
    Numbers { falling: bool, whole: bool, least: i128, most: i128 },
    Names(Vec<String>),
}

impl Scale {
    /// The grade of a cell, turned so that more is better.
    pub fn grade(&self, cell: &[u8]) -> Option<i128> {
        match self {
            Scale::Names(names) => names.iter().position(|name| name.as_bytes() == cell).map(|place| place as i128),
            &Scale::Numbers { falling, whole, least, most } => {
                let value = decimal::parse(cell)?;
                if value < least || value > most || whole && value % ONE != 0 {
                    return None;
                }
                Some(if falling { -value } else { value })
            }
        }
    }
}

pub struct Criterion {
    pub name: String,
    pub scale: Scale,
}

pub struct Problem {
    pub criteria: Vec<Criterion>,
    pub categories: Vec<String>,
}

/// The items of a flow list on one line.
fn items(list: &str) -> Vec<String> {
    let inner = list.trim().trim_start_matches('[').trim_end_matches(']');
    inner.split(',').map(|item| item.trim().to_string()).filter(|item| !item.is_empty()).collect()
}

impl Problem {
    pub fn parse(text: &str) -> Problem {
        let (criteria, categories) = text.split_once("ordered_categories:").expect("categories");
        let names = |part: &str| part.lines().filter_map(|line| line.trim().strip_prefix("- name: ").map(String::from)).collect();
        let criteria = criteria.split("  - ").skip(1).map(|item| {
            let value = |key: &str| item.lines().find_map(|line| line.trim().strip_prefix(key)?.strip_prefix(": "));
            let number = |key: &str| decimal::parse(value(key).expect("a bound").as_bytes()).expect("a number");
            let scale = match value("value_type") {
                Some("enumerated") => Scale::Names(items(value("ordered_values").expect("names"))),
                kind => Scale::Numbers {
                    falling: value("preference_direction") == Some("decreasing"),
                    whole: kind == Some("integer"),
                    least: number("min_value"),
                    most: number("max_value"),
                },
            };
            Criterion { name: value("name").expect("a name").to_string(), scale }
        });
        Problem { criteria: criteria.collect(), categories: names(categories) }
    }
}

enum Coalitions {
    Weights(Vec<i128>),
    Roots(Vec<u32>),
}

impl Coalitions {
    fn has(&self, set: u32) -> bool {
        match self {
            Coalitions::Roots(roots) => roots.iter().any(|root| root & set == *root),
            Coalitions::Weights(weights) => {
                let inside = weights.iter().enumerate().filter(|(criterion, _)| set >> criterion & 1 == 1);
                inside.map(|(_, weight)| weight).sum::<i128>() >= ONE
            }
        }
    }
}

/// Thresholds for each boundary and criterion, and one family of coalitions for all boundaries.
pub struct Model {
    thresholds: Vec<Vec<i128>>,
    coalitions: Coalitions,
}

impl Model {
    pub fn parse(problem: &Problem, text: &str) -> Model {
        let after = |key: &'static str| text.lines().filter_map(move |line| line.trim().strip_prefix(key));
        let mut thresholds = vec![Vec::new(); problem.categories.len() - 1];
        for (criterion, list) in problem.criteria.iter().zip(after("thresholds: ")) {
            for (boundary, item) in items(list).iter().enumerate() {
                thresholds[boundary].push(criterion.scale.grade(item.as_bytes()).expect("a threshold"));
            }
        }
        let coalitions = match after("criterion_weights: ").next() {
            Some(list) => Coalitions::Weights(items(list).iter().map(|item| decimal::parse(item.as_bytes()).expect("a weight")).collect()),
            None => Coalitions::Roots(after("- [").map(|root| items(root).iter().map(|item| 1 << item.parse::<u32>().expect("a criterion")).sum()).collect()),
        };
        Model { thresholds, coalitions }
    }

    pub fn category(&self, grades: &[i128]) -> usize {
        let reached = |thresholds: &Vec<i128>| {
            let mut set = 0;
            for (criterion, (grade, threshold)) in grades.iter().zip(thresholds).enumerate() {
                set |= u32::from(grade >= threshold) << criterion;
            }
            self.coalitions.has(set)
        };
        self.thresholds.iter().rposition(reached).map_or(0, |boundary| boundary + 1)
    }
}
