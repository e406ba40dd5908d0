//! What `show` has printed against the published numbers, and whether the text tells them.

use problems::rng::{Rng, number};
use shown::answer::{Answer, answer};
use shown::difference::difference;
use shown::numbers::{term, text};
use shown::problems::{resting, three};
use shown::sentences::sentence;
use shown::{HEAD, whole};

/// A file of the repository.
fn file(name: &str) -> String {
    let path = format!("{}/../../{name}", env!("CARGO_MANIFEST_DIR"));
    std::fs::read_to_string(&path).unwrap_or_else(|error| panic!("{path}: {error}"))
}

#[test]
fn show_prints_the_published_numbers() {
    let (found, wanted) = (file("crates/show/stdout"), whole());
    if let Some(difference) = difference(&found, &wanted) {
        panic!("crates/show/stdout differs, {difference}");
    }
    assert_eq!(found.as_bytes(), wanted.as_bytes());
}

/// Each digit and each sign of the text, changed one at a time, is noticed at its line; so is a
/// line feed left out and a line too many.
#[test]
fn a_changed_text_is_noticed() {
    let wanted = whole();
    assert_eq!(difference(&wanted, &wanted), None);
    let mut changed = 0;
    for (at, character) in wanted.char_indices() {
        let other = match character {
            '0'..='8' => char::from(character as u8 + 1),
            '9' => '0',
            '+' => '-',
            '-' => '+',
            _ => continue,
        };
        let mut altered = wanted.clone();
        altered.replace_range(at..=at, &other.to_string());
        let line = 1 + wanted[..at].matches('\n').count();
        let noticed = difference(&altered, &wanted).expect("a difference");
        assert_eq!(noticed.line, line);
        assert_ne!(noticed.found, noticed.wanted);
        changed += 1;
    }
    assert!(changed > 1000);
    let lines = wanted.lines().count();
    let ended = difference(wanted.trim_end(), &wanted).expect("a difference");
    assert_eq!(ended.line, lines);
    let longer = wanted.clone() + "\n";
    let more = difference(&longer, &wanted).expect("a difference");
    assert_eq!(
        (more.line, more.found, more.wanted),
        (lines + 1, Some("\n"), None)
    );
}

/// A number's text read back.
fn read(text: &str) -> f64 {
    match text.strip_prefix("0x") {
        Some(hex) => f64::from_bits(u64::from_str_radix(hex, 16).expect("hex digits")),
        None => text.parse().expect("decimals"),
    }
}

/// Stops where a text does not read back; tells whether it is in decimals.
fn reads_back(x: f64) -> bool {
    let text = text(x);
    assert_eq!(read(&text).to_bits(), x.to_bits(), "{text}");
    let hex = text.starts_with("0x");
    assert!(!hex || text.len() == 18, "{text}");
    !hex
}

/// A number of some size: any bits that are no NaN, whole ones, multiples of 1/10,000 and their
/// neighbours, subnormals, infinities, zeros.
fn drawn(rng: &mut Rng) -> f64 {
    use problems::rng::Flavour::{Mixed, Tame, Wild};
    let whole = (rng.bits() >> rng.between(1, 63)) as f64;
    let size = match rng.below(10) {
        0 => number(rng, Tame),
        1 => number(rng, Mixed),
        2 => number(rng, Wild),
        3 => whole,
        4 => whole / 10_000.0,
        5 => (whole / 10_000.0).next_up(),
        6 => (whole / 10_000.0).next_down(),
        7 => f64::from_bits(rng.bits() >> rng.between(12, 63)),
        8 => rng.pick(&[0.0, f64::INFINITY, f64::MAX, f64::MIN_POSITIVE]),
        _ => rng.unit() * 2f64.powi(rng.between(0, 2000) as i32 - 1000),
    };
    rng.sign() * size
}

#[test]
fn texts_read_back() {
    let (mut numbers, mut decimal) = (0, 0);
    let mut look = |x: f64| {
        numbers += 1;
        decimal += usize::from(reads_back(x));
    };
    for problem in three() {
        if let Ok(Answer { given, .. }) = answer(&problem.sample) {
            let lists = [given.val, given.b, given.q];
            lists.into_iter().flatten().for_each(&mut look);
        }
    }
    let mut rng = Rng::new(52);
    (0..100_000).for_each(|_| look(drawn(&mut rng)));
    println!("{decimal} of {numbers} in decimals");
    assert!(decimal > 20_000 && numbers - decimal > 20_000);
    // Short ones are never in hex.
    for k in 0..1u64 << 20 {
        assert!(reads_back(k as f64 / 10_000.0), "{k}");
    }
}

#[test]
fn texts_as_the_document_has_them() {
    let texts = [
        (2.0, "2"),
        (-0.0, "-0"),
        (0.0, "0"),
        (0.25, "0.25"),
        (-1.5, "-1.5"),
        (0.1, "0.1"),
        (0.0001, "0.0001"),
        (1.0203, "1.0203"),
        (0.00001, "0x3ee4f8b588e368f1"),
        (-2.0 / 3.0, "0xbfe5555555555555"),
        (f64::NEG_INFINITY, "0xfff0000000000000"),
        (f64::NAN, "NaN"),
        (-f64::NAN, "NaN"),
    ];
    for (x, wanted) in texts {
        assert_eq!(text(x), wanted);
    }
    assert_eq!(term(-1.0, "xi0"), " -1·xi0");
    assert_eq!(term(-0.0, "xi0"), " -0·xi0");
    assert_eq!(term(2.0 / 3.0, "b1"), " +0x3fe5555555555555·b1");
    assert_eq!(term(-2.0 / 3.0, "b1"), " 0xbfe5555555555555·b1");
}

/// Binary places of a matrix entry and of a point's number; a right side has both.
const PLACES: i32 = 60;
const POINT_PLACES: i32 = 1;

/// A double times a power of 2, without rounding.
fn times_two_to(places: i32, x: f64) -> i128 {
    let whole = x * 2f64.powi(places);
    assert!(whole.fract() == 0.0 && whole.abs() < 2f64.powi(80), "{x}");
    whole as i128
}

/// The slacks of a point, each times 2^61 and exact.
fn slacks(answer: &Answer, point: &[f64]) -> Vec<i128> {
    let given = &answer.given;
    let right = |b: &f64| times_two_to(PLACES + POINT_PLACES, *b);
    let mut slacks: Vec<i128> = given.b.iter().map(right).collect();
    for (entry, &value) in given.val.iter().enumerate() {
        let factor = times_two_to(POINT_PLACES, point[given.col[entry]]);
        slacks[given.row[entry]] -= times_two_to(PLACES, value) * factor;
    }
    slacks
}

/// Whether a cone holds its slacks. What they have in common is divided out, to square the rest.
fn holds(kind: u8, slacks: &[i128]) -> bool {
    match kind {
        0 => slacks.iter().all(|&s| s == 0),
        1 => slacks.iter().all(|&s| s >= 0),
        _ => {
            let common = slacks.iter().fold(1 << 100, |all, s| all | s);
            let square = |s: &i128| {
                let rest = s >> common.trailing_zeros();
                rest.checked_mul(rest).expect("a short number")
            };
            let others: i128 = slacks[1..].iter().map(square).sum();
            slacks[0] >= 0 && square(&slacks[0]) >= others
        }
    }
}

/// The cones that do not hold a point's slacks.
fn broken(answer: &Answer, point: &[f64]) -> Vec<usize> {
    let slacks = slacks(answer, point);
    let (mut first, mut broken) = (0, vec![]);
    for (cone, &(kind, dimension)) in answer.given.cones.iter().enumerate() {
        if !holds(kind, &slacks[first..first + dimension]) {
            broken.push(cone);
        }
        first += dimension;
    }
    assert_eq!(first, slacks.len());
    broken
}

/// The document's point of the second problem.
fn point(answer: &Answer) -> Vec<f64> {
    let a = [0.0, 1.5, 3.0, 1.5, 0.0];
    let b = [0.0, 1.0, 0.0, -1.0, 0.0];
    let words = answer.owners.words(answer.given.columns);
    let number = |column: usize| match words[column] {
        "a" => a[column],
        "b" => b[column - a.len()],
        "xi" | "eta" => 1.0,
        "t" => 100.0,
        word => panic!("column {column} is {word}"),
    };
    (0..words.len()).map(number).collect()
}

#[test]
fn small_problem_has_a_feasible_point() {
    let answer = answer(&resting()).expect("an accepted problem");
    let point = point(&answer);
    assert_eq!(broken(&answer, &point), []);
    // Some cone holds each column from below.
    for column in 0..point.len() {
        let mut other = point.clone();
        other[column] = -1024.0;
        assert_ne!(broken(&answer, &other), [], "column {column}");
    }
    // An equality that fails by little, a bound, and a second-order cone.
    for (column, number, cone) in [(7, 0.5, 0), (2, 4.5, 1), (10, 1.5, 3)] {
        let mut other = point.clone();
        other[column] = number;
        assert!(broken(&answer, &other).contains(&cone), "cone {cone}");
    }
}

/// Refusals whose sentence ends in a word that is numbered.
const NUMBERED: [u64; 13] = [1, 2, 3, 6, 7, 11, 12, 13, 15, 16, 17, 18, 19];

#[test]
fn sentences_end_in_the_place_where_it_counts() {
    for number in (1..=20).chain([28, 29]) {
        let [one, other] = [4321, 987].map(|place| sentence(number, place));
        assert!(one.len() > 20 && one.contains("; "), "{number}");
        if NUMBERED.contains(&number) {
            let begins = one.strip_suffix(" 4321").expect("the place at its end");
            assert_eq!(format!("{begins} 987"), other);
        } else {
            assert_eq!(one, other);
            assert!(!one.contains("4321"), "{number}");
        }
    }
}

/// The document's table of sentences, and the lines that it gives for `show`.
#[test]
fn sentences_as_the_document_has_them() {
    let document = file("docs/LISTING.md");
    let mut met = vec![];
    for line in document.lines() {
        let cells: Vec<&str> = line.split('|').map(str::trim).collect();
        let [_, number, wanted, _] = cells[..] else {
            continue;
        };
        let number = match number {
            "any other" => 29,
            digits => match digits.parse() {
                Ok(number) => number,
                Err(_) => continue,
            },
        };
        let wanted = match wanted.strip_suffix(" P") {
            Some(begins) => format!("{begins} 4321"),
            None => wanted.to_string(),
        };
        assert_eq!(sentence(number, 4321), wanted);
        met.push(number);
    }
    assert_eq!(met, (1..=20).chain([28, 29]).collect::<Vec<u64>>());
    let lines = three().map(|problem| problem.line);
    for line in HEAD.lines().chain(lines) {
        assert!(document.contains(&format!("\n    {line}\n")), "{line}");
    }
}

/// The proved table of refusals has the document's words, not only those that `show` prints.
#[test]
fn the_definition_has_the_documents_words() {
    let document = file("docs/LISTING.md");
    let definition = file("crates/refusal_words/specs/Refusals.antt");
    let mut met = 0;
    for line in document.lines() {
        let cells: Vec<&str> = line.split('|').map(str::trim).collect();
        let [_, number, words, _] = cells[..] else {
            continue;
        };
        let Ok(number) = number.parse::<u64>() else {
            continue;
        };
        let (complaint, rest) = words.split_once("; whoever ").expect("who is to look");
        let (_, place) = rest.split_once(" is to look at ").expect("where to look");
        let place = match place.strip_suffix('P') {
            Some(begins) => format!("({number} placed \"{begins}\")"),
            None => format!("({number} plain \"{place}\")"),
        };
        assert!(
            definition.contains(&format!("({number} plain \"{complaint}\")")),
            "{number}"
        );
        assert!(definition.contains(&place), "{number}: {place}");
        met += 1;
    }
    assert_eq!(met, 21);
}
