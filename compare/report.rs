//! What was seen, what was never seen, and what differs.

use std::collections::{BTreeMap, BTreeSet};

/// So many differences are printed, the others only counted.
const SHOWN: u64 = 12;

/// A difference of more characters is printed in part.
const LONG: usize = 16_000;

/// A line of counts goes on in the next one before it has more characters.
const WIDE: usize = 140;

pub struct Report {
    pub differences: u64,
    /// How often each call gave each answer, in the order in which they were named.
    tallies: Vec<Tally>,
    /// How often two checks of a call failed at once, the one that decides and a later one.
    pairs: BTreeMap<(&'static str, u32, u32), u64>,
    /// Other counts, in the order in which they were first made.
    counts: Vec<(&'static str, u64)>,
}

struct Tally {
    of: &'static str,
    seen: Vec<(String, u64)>,
}

impl Report {
    pub fn new() -> Report {
        Report { differences: 0, tallies: Vec::new(), pairs: BTreeMap::new(), counts: Vec::new() }
    }

    /// Names answers that have to be seen.
    pub fn expect<T: ToString>(&mut self, of: &'static str, answers: impl IntoIterator<Item = T>) {
        let seen = answers.into_iter().map(|answer| (answer.to_string(), 0)).collect();
        self.tallies.push(Tally { of, seen });
    }

    /// Names the checks of a call, in the order in which it makes them: each has to be seen to fail together with each later one.
    pub fn expect_pairs(&mut self, of: &'static str, checks: &[u32]) {
        for (at, &first) in checks.iter().enumerate() {
            for &second in &checks[at + 1..] {
                self.pairs.insert((of, first, second), 0);
            }
        }
    }

    pub fn seen(&mut self, of: &'static str, answer: &str) {
        let Some(tally) = self.tallies.iter_mut().find(|tally| tally.of == of) else {
            panic!("nothing was expected of {of}")
        };
        match tally.seen.iter_mut().find(|(name, _)| name == answer) {
            Some((_, count)) => *count += 1,
            None => tally.seen.push((answer.to_string(), 1)),
        }
    }

    /// The checks that fail for one call, in its order.
    pub fn failing(&mut self, of: &'static str, checks: &[u32]) {
        if let Some((&first, others)) = checks.split_first() {
            for &second in others {
                *self.pairs.entry((of, first, second)).or_insert(0) += 1;
            }
            if !others.is_empty() {
                self.count("calls with several refusals at once", 1);
            }
        }
    }

    /// Other things that are worth counting.
    pub fn count(&mut self, what: &'static str, more: u64) {
        match self.counts.iter_mut().find(|(name, _)| *name == what) {
            Some((_, count)) => *count += more,
            None => self.counts.push((what, more)),
        }
    }

    /// A difference with its whole input. One that is too long for a screen is written into a file, and printed in part.
    pub fn differ(&mut self, details: impl FnOnce() -> String) {
        self.differences += 1;
        if self.differences > SHOWN {
            return;
        }
        let details = details();
        if details.len() > LONG {
            let path = format!("target/compare/difference-{}", self.differences);
            std::fs::write(&path, &details).unwrap_or_else(|why| println!("{path} cannot be written: {why}"));
            let parts: Vec<String> = details.lines().map(|line| line.chars().take(LONG / 8).collect()).collect();
            println!("DIFFERS (whole in {path}): {}", parts.join(" ...\n"));
        } else {
            println!("DIFFERS: {details}");
        }
    }

    /// How often this answer was seen.
    pub fn of(&self, of: &str, answer: &str) -> u64 {
        let tally = self.tallies.iter().find(|tally| tally.of == of);
        let seen = tally.and_then(|tally| tally.seen.iter().find(|(name, _)| name == answer));
        seen.map_or(0, |(_, count)| *count)
    }

    /// How many answers were seen, whatever they were.
    pub fn all_of(&self, of: &str) -> u64 {
        let tallies = self.tallies.iter().filter(|tally| tally.of == of);
        tallies.flat_map(|tally| &tally.seen).map(|(_, count)| count).sum()
    }

    /// Prints what was seen and what was not; how much of what has to be seen is missing.
    pub fn print(&self) -> usize {
        self.print_numbers();
        self.print_others();
        for (what, count) in &self.counts {
            println!("{what}: {count}");
        }
        if self.differences > SHOWN {
            println!("{} more differences are not shown", self.differences - SHOWN);
        }
        let missing = self.missing();
        for what in &missing {
            println!("NEVER SEEN: {what}");
        }
        missing.len()
    }

    /// The calls that answer numbers, as one table.
    fn print_numbers(&self) {
        let of_numbers = self.tallies.iter().filter(|tally| tally.is_numbers());
        let numbers: BTreeSet<u32> = of_numbers.flat_map(|tally| tally.seen.iter().filter_map(|(name, _)| name.parse().ok())).collect();
        let heads: String = numbers.iter().map(|number| format!("{number:>9}")).collect();
        println!("{:<20}{heads}", "answers");
        for tally in self.tallies.iter().filter(|tally| tally.is_numbers()) {
            let cells: String = numbers.iter().map(|number| format!("{:>9}", tally.cell(&number.to_string()))).collect();
            println!("{:<20}{cells}", tally.of);
        }
    }

    fn print_others(&self) {
        for tally in self.tallies.iter().filter(|tally| !tally.is_numbers()) {
            let mut line = format!("{}:", tally.of);
            for (at, (name, count)) in tally.seen.iter().enumerate() {
                let item = format!(" {name} {count}{}", if at + 1 < tally.seen.len() { "," } else { "" });
                if line.len() + item.len() > WIDE {
                    println!("{line}");
                    line = "   ".to_string();
                }
                line.push_str(&item);
            }
            println!("{line}");
        }
    }

    fn missing(&self) -> Vec<String> {
        let of_answers = |tally: &Tally| -> Vec<String> {
            tally.seen.iter().filter(|(_, count)| *count == 0).map(|(name, _)| format!("{} {name}", tally.of)).collect()
        };
        let alone = self.tallies.iter().flat_map(of_answers);
        let pairs = self.pairs.iter().filter(|(_, &count)| count == 0);
        alone.chain(pairs.map(|((of, first, second), _)| format!("{of} {first} with {second}"))).collect()
    }
}

impl Tally {
    fn is_numbers(&self) -> bool {
        self.seen.iter().all(|(name, _)| name.parse::<u32>().is_ok())
    }

    fn cell(&self, name: &str) -> String {
        self.seen.iter().find(|(seen, _)| seen == name).map_or(String::new(), |(_, count)| count.to_string())
    }
}
