//! Counts what the walks of the verdict and the listing visit. It reads the requests
//! that make a rule set and a policy (`R`, `r`, `P`, `d`, `e`, each record within the
//! counts) and goes over the strips as `judge`, `lister` and `cells` do. It prints the
//! places of the four fields; then of the verdict the cells and the calls of
//! `best_below`; then of the listing the cells, the comparisons (calls of `alike`), the
//! calls of `list_below` and the blocks. A cell is a label worked out (`Chart::label`).

use std::io::Read;

#[derive(Clone, Copy, PartialEq)]
struct Left {
    rules: u64,
    directives: u64,
    exceptions: u64,
}

const NOTHING: Left = Left {
    rules: 0,
    directives: 0,
    exceptions: 0,
};

const EVERYTHING: Left = Left {
    rules: u64::MAX,
    directives: u64::MAX,
    exceptions: u64::MAX,
};

const SIZES: [u64; 4] = [1 << 32, 1 << 32, 256, 65_536];

/// The rank of a good label.
const GOOD: u32 = 66;

struct Record {
    /// The action, or the directive of an exception.
    head: u64,
    bounds: [(u64, u64); 4],
}

#[derive(Default)]
struct Chart {
    accepting_rules: u64,
    accepting_directives: u64,
    /// The directive of each exception, as a digit.
    digits: Vec<u64>,
    strips: [Vec<Left>; 4],
}

#[derive(Default)]
struct Visits {
    cells: u64,
    comparisons: u64,
    calls: u64,
}

impl Left {
    fn at(self, strip: &Left) -> Left {
        Left {
            rules: self.rules & strip.rules,
            directives: self.directives & strip.directives,
            exceptions: self.exceptions & strip.exceptions,
        }
    }
}

impl Chart {
    fn new(rules: &[Record], directives: &[Record], exceptions: &[Record]) -> Chart {
        let mut chart = Chart {
            accepting_rules: mask(rules, |rule| rule.head == 1),
            accepting_directives: mask(directives, |directive| directive.head == 1),
            ..Chart::default()
        };
        chart.digits = exceptions
            .iter()
            .map(|exception| 1 << (exception.head - 1))
            .collect();
        for field in 0..4 {
            let mut places = vec![0];
            for record in rules.iter().chain(directives).chain(exceptions) {
                let (low, high) = record.bounds[field];
                places.extend([low, high + 1]);
            }
            places.sort();
            places.dedup();
            places.retain(|place| *place < SIZES[field]);
            for place in places {
                let holds = |record: &Record| {
                    let (low, high) = record.bounds[field];
                    low <= place && place <= high
                };
                chart.strips[field].push(Left {
                    rules: mask(rules, holds),
                    directives: mask(directives, holds),
                    exceptions: mask(exceptions, holds),
                });
            }
        }
        chart
    }

    /// Kind and rule of the label.
    fn label(&self, left: Left, visits: &mut Visits) -> (u32, u32) {
        visits.cells += 1;
        let mut excepted = 0;
        let mut rest = left.exceptions;
        while rest != 0 {
            excepted |= self.digits[rest.trailing_zeros() as usize];
            rest &= rest - 1;
        }
        let asking = left.directives | excepted;
        let accept = asking & (self.accepting_directives ^ excepted);
        let deny = asking ^ accept;
        let rule = left.rules.trailing_zeros();
        let accepts = self.accepting_rules >> (rule % 64) & 1 == 1;
        match (accept != 0, deny != 0, left.rules != 0) {
            (true, true, _) => (1, 0),
            (false, false, true) => (3, rule + 1),
            (true, false, true) if !accepts => (2, rule + 1),
            (false, true, true) if accepts => (2, rule + 1),
            (true, false, false) => (4, 0),
            (false, true, false) => (5, 0),
            _ => (0, 0),
        }
    }

    fn best_below(&self, field: usize, left: Left, best: u32, visits: &mut Visits) -> u32 {
        visits.calls += 1;
        if best == 0 || left == NOTHING {
            return best;
        }
        if field == 4 {
            return best.min(rank(self.label(left, visits)));
        }
        let mut best = best;
        let mut before = NOTHING;
        for strip in &self.strips[field] {
            let here = left.at(strip);
            if here != before {
                best = self.best_below(field + 1, here, best, visits);
                before = here;
            }
        }
        best
    }

    fn alike(&self, field: usize, a: Left, b: Left, visits: &mut Visits) -> bool {
        visits.comparisons += 1;
        if a == b {
            return true;
        }
        if field == 4 {
            return self.label(a, visits) == self.label(b, visits);
        }
        let mut before = (NOTHING, NOTHING);
        for strip in &self.strips[field] {
            let here = (a.at(strip), b.at(strip));
            if here != before {
                if !self.alike(field + 1, here.0, here.1, visits) {
                    return false;
                }
                before = here;
            }
        }
        true
    }

    fn list_below(&self, field: usize, left: Left, visits: &mut Visits) -> u64 {
        visits.calls += 1;
        if left == NOTHING {
            return 0;
        }
        if field == 4 {
            return (self.label(left, visits).0 != 0) as u64;
        }
        let strips = &self.strips[field];
        let mut blocks = 0;
        let mut strip = 0;
        while strip < strips.len() {
            let first = left.at(&strips[strip]);
            let mut before = first;
            strip += 1;
            while strip < strips.len() {
                let here = left.at(&strips[strip]);
                if !self.alike(field + 1, before, here, visits) {
                    break;
                }
                before = here;
                strip += 1;
            }
            blocks += self.list_below(field + 1, first, visits);
        }
        blocks
    }
}

fn rank((kind, rule): (u32, u32)) -> u32 {
    match kind {
        0 => GOOD,
        1 => 0,
        2 | 3 => rule,
        _ => 65,
    }
}

fn mask(records: &[Record], told: impl Fn(&Record) -> bool) -> u64 {
    let digits = (0..).zip(records);
    digits.fold(0, |mask, (place, record)| {
        mask | (told(record) as u64) << place
    })
}

fn main() {
    let mut text = String::new();
    std::io::stdin().read_to_string(&mut text).unwrap();
    let (mut rules, mut directives, mut exceptions) = (vec![], vec![], vec![]);
    for line in text.lines() {
        let mut words = line.split(' ');
        let letter = words.next().unwrap();
        let numbers: Vec<u64> = words.map(|word| word.parse().unwrap()).collect();
        let records = match letter {
            "r" => &mut rules,
            "d" => &mut directives,
            "e" => &mut exceptions,
            _ => continue,
        };
        assert_eq!(numbers[0] as usize, records.len() + 1, "{line}");
        records.push(Record {
            head: numbers[1],
            bounds: std::array::from_fn(|field| (numbers[2 + 2 * field], numbers[3 + 2 * field])),
        });
    }
    let chart = Chart::new(&rules, &directives, &exceptions);
    let mut verdict = Visits::default();
    chart.best_below(0, EVERYTHING, GOOD, &mut verdict);
    let mut listing = Visits::default();
    let blocks = chart.list_below(0, EVERYTHING, &mut listing);
    let places: Vec<String> = (0..4)
        .map(|field| chart.strips[field].len().to_string())
        .collect();
    println!(
        "{} {} {} {} {} {} {}",
        places.join(" "),
        verdict.cells,
        verdict.calls,
        listing.cells,
        listing.comparisons,
        listing.calls,
        blocks
    );
}
