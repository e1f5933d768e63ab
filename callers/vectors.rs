// Makes the calls that test lines ask for, by callers/mausvioline.rs, and prints the answers: the same lines as those of
// the program of crates/vectors, on whose lines and answers it is run. callers/vectors.c says how a line reads.
mod mausvioline;

use mausvioline::{fraction, work_sizes, Answer, Tower};
use std::io::{self, BufRead, BufWriter, Write};

/// The numbers of a line, taken from the front.
struct Numbers(std::vec::IntoIter<i64>);

impl Numbers {
    fn number(&mut self) -> i64 {
        self.0.next().expect("a number is missing")
    }

    fn degrees(&mut self) -> [i64; 4] {
        [self.number(), self.number(), self.number(), self.number()]
    }

    fn list(&mut self) -> Vec<i64> {
        let count = self.number() as usize;
        let list: Vec<i64> = self.0.by_ref().take(count).collect();
        assert_eq!(list.len(), count, "a list is cut short");
        list
    }
}

fn told(answer: Answer) -> String {
    match answer {
        Answer::Done => "\tdone".to_string(),
        Answer::Factor(level) => format!("\tfactor\t{}", level),
        Answer::Refused(number) => format!("\trefused\t{}", number),
    }
}

fn list_told(list: &[i64]) -> String {
    let mut text = format!("\t{}", list.len());
    for word in list {
        text += &format!("\t{}", word);
    }
    text
}

fn fraction_told(numbers: &mut Numbers) -> String {
    match fraction(numbers.number(), numbers.number(), numbers.number()) {
        Ok(residue) => format!("\tdone\t{}", residue),
        Err(number) => format!("\trefused\t{}\t0", number),
    }
}

fn sizes_told(numbers: &mut Numbers) -> String {
    let (levels, degrees) = (numbers.number(), numbers.degrees());
    match work_sizes(levels, degrees, numbers.number(), numbers.number()) {
        Ok([product, inverse, gcd]) => format!("\tdone\t{}\t{}\t{}", product, inverse, gcd),
        Err(number) => format!("\trefused\t{}\t0\t0\t0", number),
    }
}

/// What a call over a tower answers, and its lists afterwards.
fn call_told(name: &str, numbers: &mut Numbers) -> String {
    let (p, levels, degrees) = (numbers.number(), numbers.number(), numbers.degrees());
    let words = numbers.list();
    let tower = Tower { p, levels, degrees, words: &words };
    let mut lists = Vec::new();
    while numbers.0.len() > 0 {
        lists.push(numbers.list());
    }
    let answer = match (name, &mut lists[..]) {
        ("tower", []) => told(tower.check()),
        ("slot", [a]) => told(tower.check_slot(a)),
        ("view", [a, b]) => list_told(tower.leading_view(a, b)),
        ("sum", [a, b]) => told(tower.sum(a, b)),
        ("difference", [a, b]) => told(tower.difference(a, b)),
        ("product", [a, b, c, work]) => told(tower.product(a, b, c, work)),
        ("division", [a, b, q, work]) => told(tower.division(a, b, q, work)),
        ("inverse", [c, r, factor, work]) => told(tower.inverse(c, r, factor, work)),
        ("gcd", [a, b, g, factor, work]) => told(tower.gcd(a, b, g, factor, work)),
        _ => panic!("no such call: {}", name),
    };
    lists.iter().fold(answer + &list_told(&words), |text, list| text + &list_told(list))
}

fn main() -> io::Result<()> {
    let mut out = BufWriter::new(io::stdout());
    for line in io::stdin().lock().lines() {
        let line = line?;
        let mut fields = line.split('\t');
        let name = fields.next().unwrap_or("");
        let words: Vec<i64> = fields.map(|field| field.parse().expect("not a number")).collect();
        let mut numbers = Numbers(words.into_iter());
        let answer = match name {
            "fraction" => fraction_told(&mut numbers),
            "sizes" => sizes_told(&mut numbers),
            _ => call_told(name, &mut numbers),
        };
        writeln!(out, "{}{}", name, answer)?;
    }
    out.flush()
}
