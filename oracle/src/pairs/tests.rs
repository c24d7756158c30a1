//! That the pairs which `oracle/compare` draws by default reach all that the program can
//! print.

use super::*;
use crate::run::{answer, NAMES};
use std::collections::{BTreeMap, BTreeSet};
use std::sync::OnceLock;

/// What the script draws if it is told nothing else.
const COUNT: u64 = 3_600;
const SEED: u64 = 31;

struct Drawn {
    shape: &'static str,
    pair: Pair,
    printed: String,
}

/// All pairs with their answers, worked out once for all tests.
fn drawn() -> &'static [Drawn] {
    static DRAWN: OnceLock<Vec<Drawn>> = OnceLock::new();
    DRAWN.get_or_init(|| {
        let drawn = (1..=COUNT).map(|number| {
            let pair = draw(SEED, number);
            let printed = answer(&pair[0].content(), &pair[1].content(), MOST_CELLS_DRAWN).unwrap();
            Drawn {
                shape: SHAPES[shape(number)].0,
                pair,
                printed,
            }
        });
        drawn.collect()
    })
}

fn of_shape(shape: &'static str) -> impl Iterator<Item = &'static Drawn> {
    drawn().iter().filter(move |drawn| drawn.shape == shape)
}

/// How many pairs have each answer, told by a part of it; those without the part are
/// left out.
fn counted<Part: Ord>(part: impl Fn(&'static Drawn) -> Option<Part>) -> BTreeMap<Part, usize> {
    let mut counts = BTreeMap::new();
    for part in drawn().iter().filter_map(part) {
        *counts.entry(part).or_default() += 1;
    }
    counts
}

/// The total that is printed, if any is.
fn total(drawn: &Drawn) -> Option<usize> {
    let line = drawn.printed.lines().nth(1)?;
    Some(line.strip_prefix("blocks ")?.parse().unwrap())
}

#[test]
fn the_script_draws_these_pairs_by_default() {
    let script = include_str!("../../compare");
    let line = format!("count=${{1:-{COUNT}}} seed=${{2:-{SEED}}}");
    assert!(script.contains(&line), "{line}");
}

#[test]
fn the_shapes_fill_a_round() {
    let shares: Vec<usize> = SHAPES.iter().map(|(_, share, _)| *share).collect();
    assert_eq!(shares.iter().sum::<usize>(), ROUND);
    let mut counts = [0; SHAPES.len()];
    for number in 1..=ROUND as u64 {
        counts[shape(number)] += 1;
    }
    assert_eq!(counts.to_vec(), shares);
    let few: BTreeSet<usize> = (1..=15).map(shape).collect();
    assert!(few.len() >= 9, "{few:?}");
}

#[test]
fn a_pair_hangs_on_its_seed_and_number() {
    for number in 1..=50 {
        assert_eq!(draw(7, number), draw(7, number));
    }
    let different = (1..=50).filter(|number| draw(7, *number) != draw(8, *number));
    assert!(different.count() > 40);
}

#[test]
fn every_verdict_is_met_often() {
    let counts = counted(|drawn| {
        let mut words = drawn.printed.split([' ', '\n']);
        (words.next() == Some("verdict")).then(|| words.next().unwrap())
    });
    println!("{counts:?}");
    for word in [
        "conforms",
        "conflict",
        "wrong",
        "unasked",
        "unmet-accept",
        "unmet-deny",
    ] {
        assert!(counts.get(word).is_some_and(|count| *count >= 80), "{word}");
    }
    assert_eq!(counts.len(), 6);
}

#[test]
fn every_refusal_is_met_in_each_file() {
    let counts = counted(|drawn| {
        let mut words = drawn.printed.split([' ', '\n']);
        let refused = words.next() == Some("refused");
        let named = |mut words: std::str::Split<'static, [char; 2]>| {
            let (name, number) = (words.next().unwrap(), words.next().unwrap());
            (name, number.parse().unwrap())
        };
        refused.then(|| named(words))
    });
    println!("{counts:?}");
    for name in NAMES {
        for number in 1..=13 {
            let met = counts.get(&(name, number));
            if name == "rules.txt" && matches!(number, 11 | 12) {
                assert_eq!(met, None);
            } else {
                assert!(met.is_some_and(|count| *count >= 2), "{name} {number}");
            }
        }
    }
}

#[test]
fn both_files_are_refused_often() {
    let both = drawn().iter().filter(|drawn| {
        let [rules, policy] = drawn.pair.each_ref().map(Entry::content);
        rules.is_some_and(|text| reading::rules(&text).is_err())
            && policy.is_some_and(|text| reading::policy(&text).is_err())
    });
    assert!(both.count() >= 30);
}

#[test]
fn every_block_kind_is_listed() {
    for kind in 1..=5 {
        let line = format!("\nblock {kind} ");
        let listed = drawn().iter().filter(|drawn| drawn.printed.contains(&line));
        assert!(listed.count() >= 100, "{kind}");
    }
}

#[test]
fn listings_have_all_lengths() {
    let counts = counted(total);
    println!("{counts:?}");
    let met = |totals: std::ops::RangeInclusive<usize>| counts.range(totals).map(|(_, met)| met);
    for length in (0..=20).chain([511, 512, 513]) {
        assert!(met(length..=length).sum::<usize>() >= 5, "{length}");
    }
    assert!(met(21..=509).sum::<usize>() >= 100);
    assert!(met(600..=usize::MAX).sum::<usize>() >= 100);
    assert!(met(3_000..=usize::MAX).sum::<usize>() >= 20);
}

#[test]
fn near_and_far_listings_are_what_they_are_made_for() {
    let near: BTreeSet<usize> = of_shape("near 512 blocks").filter_map(total).collect();
    assert!(near.into_iter().eq(510..=514));
    let far = of_shape("more than 512 blocks").filter_map(total);
    let (above, below): (Vec<usize>, Vec<usize>) = far.partition(|total| *total > 512);
    assert!(above.len() >= 100, "{} and {below:?}", above.len());
}

#[test]
fn what_is_made_to_conform_conforms() {
    for shape in ["table follows policy", "policy follows table"] {
        let mut excepted = 0;
        for drawn in of_shape(shape) {
            assert_eq!(drawn.printed, "verdict conforms\nblocks 0\n", "{drawn:?}");
            excepted += usize::from(shown(&drawn.pair[1]).contains("\nbut\t"));
        }
        assert!(excepted >= 60, "{shape}: {excepted}");
    }
}

/// The bytes of a file as a text, empty if it cannot be read.
fn shown(entry: &Entry) -> String {
    String::from_utf8_lossy(&entry.content().unwrap_or_default()).into_owned()
}

#[test]
fn every_edge_is_met() {
    let fields: BTreeSet<String> = of_shape("edges")
        .flat_map(|drawn| drawn.pair.each_ref().map(shown))
        .flat_map(|text| {
            text.split(['\t', '\n'])
                .map(str::to_string)
                .collect::<Vec<_>>()
        })
        .collect();
    for (_, spelling) in edges::spellings() {
        assert!(fields.contains(spelling), "{spelling}");
    }
}

#[test]
fn full_sets_are_full() {
    for drawn in of_shape("full") {
        let [rules, policy] = drawn.pair.each_ref().map(shown);
        let asks = policy.lines().filter(|line| line.starts_with("ask"));
        assert_eq!((rules.lines().count(), asks.count()), (64, 32));
        assert_eq!(policy.lines().count(), 32 + 64);
    }
}

#[test]
fn every_kind_of_unreadable_is_met_in_each_file_and_beside_a_refusal() {
    let mut met = BTreeSet::new();
    for drawn in drawn() {
        let [rules, policy] = &drawn.pair;
        let refused = [
            rules
                .content()
                .is_some_and(|text| reading::rules(&text).is_err()),
            policy
                .content()
                .is_some_and(|text| reading::policy(&text).is_err()),
        ];
        for (place, entry) in drawn.pair.iter().enumerate() {
            if let Entry::Unreadable(kind) = entry {
                let other = drawn.pair[1 - place].content().is_none();
                met.insert((place, *kind, other, refused[1 - place]));
                let named = if other { NAMES[0] } else { NAMES[place] };
                assert_eq!(drawn.printed, format!("unreadable {named}\n"));
            }
        }
    }
    for place in 0..2 {
        for kind in Unreadable::ALL {
            for (other, refused) in [(false, false), (false, true), (true, false)] {
                let wanted = (place, kind, other, refused);
                assert!(met.contains(&wanted), "{wanted:?}");
            }
        }
    }
}

#[test]
fn sizes_on_both_sides_of_the_limit_are_met_in_each_file() {
    for (place, name) in NAMES.iter().enumerate() {
        let sizes = counted(|drawn| Some(drawn.pair[place].content()?.len()));
        for size in [0, 1, 32_767, 32_768, 32_769, 65_536, 1_000_000] {
            assert!(sizes.contains_key(&size), "{name} of {size}");
        }
    }
    let read = of_shape("sizes").filter(|drawn| {
        let longest = drawn.pair.iter().filter_map(Entry::content);
        total(drawn).is_some() && longest.map(|text| text.len()).max() == Some(32_768)
    });
    assert!(read.count() >= 5);
}

/// The form of a field: digits of a number become one 0.
fn form(field: &str) -> String {
    let mut form = String::new();
    for character in field.chars() {
        if !character.is_ascii_digit() {
            form.push(character);
        } else if !form.ends_with('0') {
            form.push('0');
        }
    }
    form
}

#[test]
fn every_spelling_is_met_in_every_field_of_texts_that_are_read() {
    let addresses = "* 0.0.0.0 0.0.0.0/0 0.0.0.0/0.0.0.0 0.0.0.0-0.0.0.0";
    let numbers = "* 0 0-0";
    let mut met = BTreeSet::new();
    for drawn in drawn().iter().filter(|drawn| total(drawn).is_some()) {
        for entry in &drawn.pair {
            let text = shown(entry);
            let lines = text.lines().filter(|line| !line.starts_with('#'));
            for line in lines {
                let fields: Vec<&str> = line.split('\t').collect();
                let from_end = fields.iter().rev().take(4).enumerate();
                met.extend(
                    from_end.map(|(place, field)| (fields[0].to_string(), place, form(field))),
                );
            }
        }
    }
    for word in ["rule", "ask", "but"] {
        for (place, forms) in [
            (3, addresses),
            (2, addresses),
            (1, &format!("{numbers} tcp udp icmp")[..]),
            (0, numbers),
        ] {
            for form in forms.split(' ') {
                let wanted = (word.to_string(), place, form.to_string());
                assert!(met.contains(&wanted), "{wanted:?}");
            }
        }
    }
}

impl std::fmt::Debug for Drawn {
    fn fmt(&self, formatter: &mut std::fmt::Formatter) -> std::fmt::Result {
        let [rules, policy] = self.pair.each_ref().map(shown);
        write!(
            formatter,
            "{}\n{rules}\n{policy}\n{}",
            self.shape, self.printed
        )
    }
}
