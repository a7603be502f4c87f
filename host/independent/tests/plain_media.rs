//! The plain reader and comparison of media types, which are for speed, against those from the grammar.

use independent::generate::{any, at_limits, cut, damage, every, extend, pair, short, valid, Kind, Rng};
use independent::media::{self, MediaType, Parameter, PARAMETER_LIMIT};
use independent::plain_values::{media as plain_media, media_equal, MediaTable};
use independent::HEADER_LIMIT;

const ROUNDS: usize = 10_000;
const KIND: Kind = Kind::MediaType;
/// A type with parameters of all sorts.
const TYPE: &[u8] = b"Text/x-y ;\tcharset=utf-8; Q=\"a\\\"\xff\t;\"\t ; b=\"\"";

fn as_media_type(table: MediaTable) -> MediaType {
    let (sent, unused) = table.parameters.split_at(table.count);
    assert!(unused.iter().all(|unused| *unused == Parameter::default()));
    assert_eq!(sent, table.sent());
    MediaType { main: table.main, subtype: table.subtype, parameters: sent.to_vec() }
}

fn agree(input: &[u8]) {
    let text = String::from_utf8_lossy(input);
    assert_eq!(plain_media(input).map(as_media_type), media::read(input), "{text:?}");
}

fn agree_on_two(first: &[u8], second: &[u8]) {
    let expected = media::equal(first, second);
    let texts = || (String::from_utf8_lossy(first), String::from_utf8_lossy(second));
    assert_eq!(media_equal(first, second), expected, "{:?}", texts());
}

/// In both orders, and each with itself.
fn agree_on_pair(one: &[u8], other: &[u8]) {
    for (first, second) in [(one, other), (other, one), (one, one), (other, other)] {
        agree_on_two(first, second);
    }
}

#[test]
fn random_types() {
    let mut rng = Rng::new(1);
    for _ in 0..ROUNDS {
        let well_formed = valid(KIND, &mut rng);
        agree(&cut(well_formed.clone(), &mut rng));
        agree(&damage(well_formed.clone(), &mut rng));
        agree(&extend(well_formed.clone(), KIND, &mut rng));
        agree(&any(KIND, &mut rng));
        agree(&well_formed);
    }
}

#[test]
fn types_at_limits() {
    at_limits(KIND).iter().for_each(|input| agree(input));
}

#[test]
fn short_types() {
    for family in short(KIND) {
        every(*family).for_each(|input| agree(&input));
    }
}

/// Each byte in each place of a type, in its stead and before it, and behind the type.
#[test]
fn each_byte() {
    for (place, byte) in (0..=TYPE.len()).flat_map(|place| (0..=255).map(move |byte| (place, byte))) {
        let (before, behind) = TYPE.split_at(place);
        agree(&[before, &[byte], behind.get(1..).unwrap_or_default()].concat());
        agree(&[before, &[byte], behind].concat());
    }
}

#[test]
fn each_beginning() {
    (0..=TYPE.len()).for_each(|end| agree(&TYPE[..end]));
}

/// A type with parameters of these names; quoted values stand among the others.
fn with_names(names: &[String]) -> Vec<u8> {
    let spell = |(index, name): (usize, &String)| match index % 3 {
        0 => format!(";{name}={index}"),
        1 => format!(" ; {name}=\"{index}\""),
        _ => format!("\t;{name}=\"\\{index}\""),
    };
    let parameters: String = names.iter().enumerate().map(spell).collect();
    format!("a/b{parameters}").into_bytes()
}

/// The name in other letter case, in one letter or in all.
fn recased(name: &str) -> [String; 2] {
    let (first, rest) = name.split_at(1);
    [first.to_uppercase() + rest, name.to_uppercase()]
}

/// Up to two parameters more than allowed: each name repeats each earlier one, and more may stand behind.
#[test]
fn repeated_attributes() {
    for count in 1..=PARAMETER_LIMIT + 2 {
        let names: Vec<_> = (0..count).map(|index| format!("name{index}")).collect();
        for (second, first) in (0..count).flat_map(|second| (0..=second).map(move |first| (second, first))) {
            for name in recased(&names[first]) {
                let mut repeated = names.clone();
                repeated[second] = name;
                let input = with_names(&repeated);
                agree(&input);
                agree(&[&input[..], b";name0=1\0"].concat());
            }
        }
    }
}

/// As many names as allowed, that share a long beginning: in all, the type has this many bytes.
fn long_names(length: usize) -> Vec<String> {
    let names = |shared: usize| -> Vec<String> {
        (0..PARAMETER_LIMIT).map(|index| format!("n{}{index:X}", "x".repeat(shared))).collect()
    };
    let least = with_names(&names(0)).len();
    let mut names = names((length - least) / PARAMETER_LIMIT);
    let missing = length - with_names(&names).len();
    names[0].push_str(&"x".repeat(missing));
    names
}

#[test]
fn long_names_with_one_beginning() {
    for length in HEADER_LIMIT - 1..=HEADER_LIMIT + 2 {
        let names = long_names(length);
        let input = with_names(&names);
        assert_eq!(input.len(), length);
        agree(&input);
        let reversed = with_names(&names.iter().rev().cloned().collect::<Vec<_>>());
        agree_on_pair(&input, &reversed);
    }
    let names = long_names(HEADER_LIMIT);
    // The first name may be longer than the others.
    for (second, first) in
        (2..PARAMETER_LIMIT).flat_map(|second| [1, second - 1].map(|first| (second, first)))
    {
        let mut repeated = names.clone();
        repeated[second] = names[first].to_uppercase();
        agree(&with_names(&repeated));
    }
}

#[test]
fn random_pairs() {
    let mut rng = Rng::new(2);
    for _ in 0..ROUNDS {
        let (first, second) = pair(KIND, &mut rng);
        agree_on_pair(&first, &second);
    }
}

/// Each type with each other: names, values, quotes, pairs and letter case that differ or not.
#[test]
fn chosen_pairs() {
    let types = [
        "a/b",
        "A/B",
        "a/c",
        "ab/b",
        "a/b;x=1",
        "a/b;X=\"1\"",
        "a/b;x=\"\\1\"",
        "a/b;x=2",
        "a/b;x=\"\"",
        "a/b;x=a",
        "a/b;x=A",
        "a/b;y=1",
        "a/b;x=1;y=2",
        "a/b;y=2;x=1",
        "a/b;y=1;x=2",
        "a/b;x=1;z=2",
        "a/b;charset=utf-8",
        "a/b;CHARSET=\"UTF-8\"",
        "a/b;Charset=\"\\U\\t\\f-8\"",
        "a/b;charset=\"utf-\\8\"",
        "a/b;charset=utf-7",
        "a/b;charset=\"\\UTF-7\"",
        "a/b;charsets=UTF-8",
        "a/b;x=\"\\\\\"",
        "a/b;x=\"\\\\\\\\\"",
        "a/b;x=\"\\\"\"",
        "a/b;x=\"a b\"",
        "a/b;x=\"a\\ b\"",
        "a/b;x=\"a\\ c\"",
        "a/b;x=\"a\\ \"",
        "a/b;x=1;x=1",
        "a/b;",
        "",
    ];
    for (first, second) in types.iter().flat_map(|first| types.iter().map(move |second| (first, second))) {
        agree_on_two(first.as_bytes(), second.as_bytes());
    }
}

/// Types of as many parameters as allowed, in every rotation, with one value or one name changed.
#[test]
fn changed_parameters() {
    let names: Vec<_> = (0..PARAMETER_LIMIT).map(|index| format!("name{index}")).collect();
    let input = with_names(&names);
    for start in 0..PARAMETER_LIMIT {
        let parameters: Vec<_> = (0..PARAMETER_LIMIT)
            .map(|step| (start + step) % PARAMETER_LIMIT)
            .map(|index| format!(";{}=\"{index}\"", names[index]))
            .collect();
        agree_on_pair(&input, format!("a/b{}", parameters.concat()).as_bytes());
        for place in 0..PARAMETER_LIMIT {
            let mut changed = parameters.clone();
            let sent = parameters[place].as_str();
            let others = [";other=1", &sent.replace('"', ""), &sent.replace("=\"", "=\"x"), ""];
            for other in others.map(String::from) {
                changed[place] = other;
                agree_on_pair(&input, format!("a/b{}", changed.concat()).as_bytes());
            }
        }
    }
}
