//! Request (x) of document 02: the normal form of URLs from both writers, and what it says of equality.

use independent::generate::{
    any, at_limits, cut, damage, every, extend, long_urls, other_url, pair, readable_url, respelled_url,
    short, Kind, Rng,
};
use independent::{plain_values, url, Refusal};

const ROUNDS: usize = 20_000;
/// How much more room than the input's length is lent; a normal form needs one byte more at most.
const SPARE: usize = 3;
/// No byte of a URL: where it stands, nothing was written.
const UNTOUCHED: u8 = 0xFF;
const MARKS: &[u8] = b"-_.!~*'()";

/// The answer of both writers. The plain one writes at the front, keeps the rest, and writes no refusal.
fn answer(input: &[u8], room: usize) -> Result<Vec<u8>, Refusal> {
    let answer = url::normalize(input, room);
    let mut out = vec![UNTOUCHED; room];
    let plain = plain_values::url_normalize(input, &mut out);
    let text = String::from_utf8_lossy(input);
    assert_eq!(plain, answer.as_ref().map(Vec::len).map_err(|refusal| *refusal), "{text:?} in {room}");
    let written = answer.as_deref().unwrap_or_default();
    let (front, rest) = out.split_at(written.len());
    assert_eq!(String::from_utf8_lossy(front), String::from_utf8_lossy(written), "{text:?}");
    assert!(rest.iter().all(|byte| *byte == UNTOUCHED), "{text:?} in {room}");
    answer
}

fn in_ample_room(input: &[u8]) -> Result<Vec<u8>, Refusal> {
    answer(input, input.len() + SPARE)
}

fn normal(input: &[u8]) -> Vec<u8> {
    in_ample_room(input).unwrap_or_else(|refusal| panic!("{refusal:?}: {}", String::from_utf8_lossy(input)))
}

fn gives(text: &str, expected: &str) {
    assert_eq!(String::from_utf8_lossy(&normal(text.as_bytes())), expected, "{text:?}");
}

fn stays(text: &str) {
    gives(text, text);
}

fn refused(input: &[u8], room: usize, number: u8, place: usize) {
    let text = String::from_utf8_lossy(input);
    assert_eq!(answer(input, room), Err(Refusal { number, place }), "{text:?} in {room}");
}

fn are_equal(one: &[u8], other: &[u8]) -> bool {
    url::equal(one, other).expect("two URLs")
}

#[test]
fn stated_cases() {
    gives("HTTP://ABC.com:/%7Esmith/home.html", "http://abc.com/~smith/home.html");
    gives("http://abc.com:80/~smith/home.html", "http://abc.com/~smith/home.html");
    gives("http://a", "http://a/");
    gives("http://a:0080/?", "http://a/?");
    gives("http://A:08080/%2f%2F%41", "http://a:8080/%2f%2FA");
    stays("http://a/%2541");
    gives("http://a:0", "http://a:0/");
}

#[test]
fn scheme_and_host() {
    for scheme in ["http", "HTTP", "hTtP", "Http", "httP"] {
        gives(&format!("{scheme}://a-B.c9/D"), "http://a-b.c9/D");
    }
    let letters: String = ('A'..='Z').collect();
    gives(&format!("http://{letters}0-9."), &format!("http://{}0-9./", letters.to_lowercase()));
    stays("http://-.-/");
    stays("http://a//http://A:80/");
}

#[test]
fn paths_and_queries() {
    stays("http://a/");
    stays("http://a/?");
    stays("http://a/??");
    stays("http://a//");
    gives("http://a:80/?", "http://a/?");
    gives("http://a:81", "http://a:81/");
    stays("http://a:81/?A=B;c/D:80@&=+$,%3f%3F?");
    gives("http://a/%61%2f%62?%63%3F%64?%65", "http://a/a%2fb?c%3Fd?e");
    // What is left of one escape and what follows it make no new one.
    stays("http://a/%25%252541?%2525");
    gives("http://a/%25%34%31?%25%37e", "http://a/%2541?%257e");
    gives("http://a/%25%32%35", "http://a/%2525");
}

/// `%00` to `%FF` with each hex digit in either letter case: in path and query, alone and amid other text.
#[test]
fn every_escape() {
    let spellings = |digit: u32| {
        let lower = char::from_digit(digit, 16).unwrap_or_default();
        [lower, lower.to_ascii_uppercase()]
    };
    for byte in 0..=255_u8 {
        let (high, low) = (spellings(u32::from(byte) >> 4), spellings(u32::from(byte) & 15));
        for escape in high.iter().flat_map(|high| low.map(|low| format!("%{high}{low}"))) {
            let plain = byte.is_ascii_alphanumeric() || MARKS.contains(&byte);
            let normal = if plain { char::from(byte).to_string() } else { escape.clone() };
            gives(&format!("http://a/{escape}"), &format!("http://a/{normal}"));
            gives(&format!("http://a/?{escape}"), &format!("http://a/?{normal}"));
            let two = |text: &str| format!("http://a/b{text}{text}c?%25{text}d{text}");
            gives(&two(&escape), &two(&normal));
        }
    }
}

#[test]
fn ports() {
    let zeros = "0".repeat(8_000);
    for (sent, normal) in [
        ("", ""),
        (":", ""),
        (":80", ""),
        (":080", ""),
        (":0000080", ""),
        (":0", ":0"),
        (":000", ":0"),
        (":8", ":8"),
        (":08", ":8"),
        (":800", ":800"),
        (":0800", ":800"),
        (":8080", ":8080"),
        (":65535", ":65535"),
        (":0065535", ":65535"),
        (&format!(":{zeros}"), ":0"),
        (&format!(":{zeros}80"), ""),
        (&format!(":{zeros}65535"), ":65535"),
    ] {
        for (page, normal_page) in [("", "/"), ("/", "/"), ("/?", "/?"), ("/80:80", "/80:80")] {
            gives(&format!("http://a{sent}{page}"), &format!("http://a{normal}{normal_page}"));
        }
    }
}

#[test]
fn every_port() {
    for port in (0..=65_535).filter(|port| *port != 80) {
        let zeros = ["", "0", "000"][port % 3];
        gives(&format!("http://a:{zeros}{port}"), &format!("http://a:{port}/"));
    }
}

/// What is sent before and behind a run of one byte, and what the normal form has there.
type Long = ((&'static str, char, &'static str), (&'static str, char, &'static str));

const LONG: [Long; 18] = [
    (("http://", 'a', ""), ("http://", 'a', "/")),
    (("HTTP://", 'A', ""), ("http://", 'a', "/")),
    (("http://", 'a', ":"), ("http://", 'a', "/")),
    (("http://", 'a', ":80"), ("http://", 'a', "/")),
    (("http://", 'a', ":0080"), ("http://", 'a', "/")),
    (("http://", 'a', ":0"), ("http://", 'a', ":0/")),
    (("http://", 'a', ":00"), ("http://", 'a', ":0/")),
    (("http://", 'a', ":8080"), ("http://", 'a', ":8080/")),
    (("http://", 'a', ":08080"), ("http://", 'a', ":8080/")),
    (("http://", 'a', "/"), ("http://", 'a', "/")),
    (("http://", 'A', ":80/?"), ("http://", 'a', "/?")),
    (("http://a/", 'B', ""), ("http://a/", 'B', "")),
    (("http://a/", 'b', "%41"), ("http://a/", 'b', "A")),
    (("http://a/", 'b', "%2f"), ("http://a/", 'b', "%2f")),
    (("http://a:080/", 'b', "%2F"), ("http://a/", 'b', "%2F")),
    (("http://a/?", '?', ""), ("http://a/?", '?', "")),
    (("http://a/%61?", 'b', "%7e"), ("http://a/a?", 'b', "~")),
    (("http://a:81/?", 'b', "%25"), ("http://a:81/?", 'b', "%25")),
];

/// Every length from 8,180 to 8,200; the normal form has a byte more, as many or fewer.
#[test]
fn lengths_around_the_limit() {
    for ((head, filler, tail), (normal_head, normal_filler, normal_tail)) in LONG {
        for length in 8_180..=8_200 {
            let count = length - head.len() - tail.len();
            let run = |filler: char| filler.to_string().repeat(count);
            let sent = format!("{head}{}{tail}", run(filler));
            let normal = format!("{normal_head}{}{normal_tail}", run(normal_filler));
            if length > 8_192 || normal.len() > 8_192 {
                refused(sent.as_bytes(), length + SPARE, 13, 8_192);
            } else {
                gives(&sent, &normal);
            }
        }
    }
}

fn long_host(length: usize) -> String {
    "h".repeat(length)
}

/// The `/` for an absent path makes 8,193 bytes of 8,192, unless something else is dropped.
#[test]
fn one_byte_too_many() {
    let full = |tail: &str| format!("http://{}{tail}", long_host(8_185 - tail.len()));
    let length = |text: String| in_ample_room(text.as_bytes()).map(|normal| normal.len());
    let too_long = Err(Refusal { number: 13, place: 8_192 });
    for (tail, expected) in [
        ("", too_long),
        (":1", too_long),
        (":0", too_long),
        (":65535", too_long),
        (":", Ok(8_192)),
        (":01", Ok(8_192)),
        (":00", Ok(8_192)),
        (":80", Ok(8_190)),
        (":080", Ok(8_189)),
        ("/", Ok(8_192)),
        ("/?", Ok(8_192)),
        ("/%41", Ok(8_190)),
    ] {
        assert_eq!(full(tail).len(), 8_192);
        assert_eq!(length(full(tail)), expected, "{tail:?}");
    }
    assert_eq!(length(format!("http://{}", long_host(8_184))), Ok(8_192));
    assert_eq!(length(format!("http://{}:1", long_host(8_182))), Ok(8_192));
    // The length of what is sent decides too, though the normal form would be short.
    assert_eq!(length(format!("http://a/{}", "%41".repeat(2_728))), too_long);
    assert_eq!(length(format!("http://a/{}", "%41".repeat(2_727))), Ok(2_736));
    assert_eq!(length(format!("http://a:{}80", "0".repeat(8_181))), Ok(9));
    assert_eq!(length(format!("http://a:{}80", "0".repeat(8_182))), too_long);
}

/// A short output is 8 whatever it lacks, and nothing is written; one as long as the normal form is enough.
#[test]
fn rooms() {
    for (text, normal) in [
        ("HTTP://ABC.com:/%7Esmith/home.html", "http://abc.com/~smith/home.html"),
        ("http://a", "http://a/"),
        ("http://a:0080/?", "http://a/?"),
        ("http://A:08080/%2f%2F%41", "http://a:8080/%2f%2FA"),
        ("http://a/%41%42%43%44%45?%46", "http://a/ABCDE?F"),
    ] {
        for room in 0..normal.len() {
            refused(text.as_bytes(), room, 8, 0);
        }
        for room in normal.len()..normal.len() + 20 {
            assert_eq!(answer(text.as_bytes(), room), Ok(normal.as_bytes().to_vec()), "{text:?}");
        }
    }
}

#[test]
fn rooms_of_random_urls() {
    let mut rng = Rng::new(1);
    for _ in 0..ROUNDS / 20 {
        let url = readable_url(&mut rng);
        let normal = normal(&url);
        for room in 0..normal.len() {
            refused(&url, room, 8, 0);
        }
        assert_eq!(answer(&url, normal.len()), Ok(normal));
    }
}

/// Those of reading first, then 13 for the normal form, then 8.
#[test]
fn order_of_refusals() {
    let long = |tail: &str, length: usize| format!("http://{}{tail}", long_host(length - 7 - tail.len()));
    for room in [0, 1, 8, 8_191, 8_192, 8_193, 9_000] {
        refused(long("", 8_192).as_bytes(), room, 13, 8_192);
        refused(long(":81", 8_192).as_bytes(), room, 13, 8_192);
        refused(long("#", 8_193).as_bytes(), room, 13, 8_192);
        refused(long("/", 8_193).as_bytes(), room, 13, 8_192);
        refused(long("#", 8_192).as_bytes(), room, 1, 8_191);
        refused(long("?", 8_192).as_bytes(), room, 1, 8_191);
        refused(long("/%4", 8_192).as_bytes(), room, 1, 8_192);
        refused(long(":65536", 8_192).as_bytes(), room, 2, 8_191);
        refused(long(":655360", 8_192).as_bytes(), room, 2, 8_190);
    }
    for room in (0..8_192).step_by(1_000).chain([8_191]) {
        refused(long("", 8_191).as_bytes(), room, 8, 0);
        refused(long("/", 8_192).as_bytes(), room, 8, 0);
    }
    assert_eq!(answer(long("", 8_191).as_bytes(), 8_192), Ok(long("/", 8_192).into_bytes()));
}

#[test]
fn refusals_of_reading() {
    for (text, number, place) in [
        ("", 1, 0),
        ("h", 1, 1),
        ("http:/", 1, 6),
        ("http://", 1, 7),
        ("HTTPS://a", 1, 4),
        ("http:\\\\a", 1, 5),
        ("http:///", 1, 7),
        ("http://:80/", 1, 7),
        ("http://a?", 1, 8),
        ("http://a#", 1, 8),
        ("http://a_", 1, 8),
        ("http://a%41/", 1, 8),
        ("http://a:x", 1, 9),
        ("http://a:80:", 1, 11),
        ("http://a:80?", 1, 11),
        ("http://a:65536", 2, 13),
        ("http://a:0065536#", 2, 15),
        ("http://a:655350", 2, 14),
        ("http://a/%", 1, 10),
        ("http://a/%4", 1, 11),
        ("http://a/%%", 1, 10),
        ("http://a/%4%", 1, 11),
        ("http://a/%G1", 1, 10),
        ("http://a/%1g", 1, 11),
        ("http://a/%41%7", 1, 14),
        ("http://a/?%41 ", 1, 13),
        ("http://a/?\u{e9}", 1, 10),
        ("http://a/?#", 1, 10),
        (" http://a/", 1, 0),
        ("http://a/ ", 1, 9),
    ] {
        for room in [0, 5, 100] {
            refused(text.as_bytes(), room, number, place);
        }
    }
}

/// What the reader refuses is refused alike in any room.
#[test]
fn random_refusals_of_reading() {
    let mut rng = Rng::new(2);
    let (mut readable, mut other) = (0, 0);
    for _ in 0..ROUNDS {
        let input = damaged(&mut rng);
        let room = rng.below(input.len() + SPARE);
        match url::read(&input) {
            Err(refusal) => {
                other += 1;
                assert_eq!(answer(&input, room), Err(refusal));
            }
            Ok(_) => {
                readable += 1;
                assert_eq!(answer(&input, 0), Err(Refusal { number: 8, place: 0 }));
            }
        }
    }
    assert!(readable > ROUNDS / 10 && other > ROUNDS / 10, "{readable}, {other}");
}

/// A readable URL, changed, cut or extended without regard to what it is.
fn damaged(rng: &mut Rng) -> Vec<u8> {
    let url = readable_url(rng);
    match rng.below(4) {
        0 => cut(url, rng),
        1 => extend(url, Kind::Url, rng),
        _ => damage(url, rng),
    }
}

/// Equal spellings, one made of another in a few steps, have one normal form.
#[test]
fn equal_urls_have_one_normal_form() {
    let mut rng = Rng::new(3);
    for _ in 0..ROUNDS {
        let url = readable_url(&mut rng);
        let mut respelled = url.clone();
        for _ in 0..1 + rng.below(4) {
            respelled = respelled_url(&respelled, &mut rng);
        }
        assert!(are_equal(&url, &respelled) && are_equal(&respelled, &url));
        assert_eq!(normal(&url), normal(&respelled));
    }
}

#[test]
fn other_urls_have_other_normal_forms() {
    let mut rng = Rng::new(4);
    for _ in 0..ROUNDS {
        let url = readable_url(&mut rng);
        let other = other_url(&respelled_url(&url, &mut rng), &mut rng);
        let texts = [&url, &other].map(|text| String::from_utf8_lossy(text));
        assert!(!are_equal(&url, &other) && !are_equal(&other, &url), "{texts:?}");
        assert_ne!(normal(&url), normal(&other), "{texts:?}");
    }
}

/// Pairs of which some are damaged or unrelated.
#[test]
fn equal_exactly_when_normal_forms_are() {
    let mut rng = Rng::new(5);
    let (mut equal, mut other) = (0, 0);
    for _ in 0..ROUNDS {
        let (first, second) = pair(Kind::Url, &mut rng);
        let Ok(answer) = url::equal(&first, &second) else { continue };
        assert_eq!(normal(&first) == normal(&second), answer, "{first:?}, {second:?}");
        *if answer { &mut equal } else { &mut other } += 1;
    }
    assert!(equal > ROUNDS / 4 && other > ROUNDS / 20, "{equal}, {other}");
}

/// Reflexive, symmetric and transitive, over triples with equal and other URLs in every order.
#[test]
fn equality_behaves_like_equality() {
    let mut rng = Rng::new(6);
    for _ in 0..ROUNDS / 4 {
        let mut urls = vec![readable_url(&mut rng)];
        for from in [0, 0, 1] {
            let made = if rng.once_in(4) { other_url } else { respelled_url };
            urls.push(made(&urls[from], &mut rng));
        }
        let equal = |one: usize, other: usize| are_equal(&urls[one], &urls[other]);
        for one in 0..urls.len() {
            assert!(equal(one, one));
            for other in 0..urls.len() {
                assert_eq!(equal(one, other), equal(other, one));
                let third = (0..urls.len()).filter(|third| equal(one, other) && equal(other, *third));
                third.for_each(|third| assert!(equal(one, third)));
            }
        }
    }
}

#[test]
fn normalizing_twice_changes_nothing() {
    let mut rng = Rng::new(7);
    for _ in 0..ROUNDS {
        let once = normal(&readable_url(&mut rng));
        assert_eq!(answer(&once, once.len()), Ok(once));
    }
}

/// Long ones too: a normal form is read, and is equal to what it was made of.
#[test]
fn normal_forms_are_equal_to_their_sources() {
    let mut rng = Rng::new(8);
    let random = (0..ROUNDS).map(|_| readable_url(&mut rng));
    for url in random.chain(long_urls().into_iter().step_by(3)) {
        let Ok(normal) = in_ample_room(&url) else { continue };
        assert!(url::read(&normal).is_ok());
        assert!(are_equal(&url, &normal) && are_equal(&normal, &url));
        assert_eq!(in_ample_room(&normal), Ok(normal));
    }
}

/// The escapes of a text that stand for none of the letters, digits and marks.
fn needed_escapes(text: &str) -> Vec<&str> {
    let escapes = text.split('%').skip(1).map(|behind| &behind[..2]);
    let is_needed = |digits: &&str| {
        let byte = u8::from_str_radix(digits, 16).expect("hex digits");
        !byte.is_ascii_alphanumeric() && !MARKS.contains(&byte)
    };
    escapes.filter(is_needed).collect()
}

/// Each word of the request, seen in the normal form itself.
#[test]
fn shape_of_normal_forms() {
    let mut rng = Rng::new(9);
    for _ in 0..ROUNDS {
        let url = String::from_utf8(readable_url(&mut rng)).expect("ASCII");
        let normal = String::from_utf8(normal(url.as_bytes())).expect("ASCII");
        let (server, page) = normal
            .strip_prefix("http://")
            .and_then(|behind| behind.split_once('/'))
            .unwrap_or_else(|| panic!("{normal:?} has no scheme or no path"));
        assert_eq!(server, server.to_lowercase());
        if let Some((_, port)) = server.split_once(':') {
            assert!(port == "0" || !port.is_empty() && !port.starts_with('0') && port != "80", "{normal:?}");
        }
        assert_eq!(needed_escapes(page), needed_escapes(&url), "{url:?}");
        assert_eq!(page.matches('%').count(), needed_escapes(page).len(), "{normal:?}");
        assert_eq!(page.matches('?').count(), url.matches('?').count(), "{url:?}");
    }
}

/// The generators reach what they are for.
#[test]
fn generated_urls() {
    let mut rng = Rng::new(10);
    let mut seen = [0; 8];
    for _ in 0..ROUNDS {
        let url = readable_url(&mut rng);
        let text = String::from_utf8(url.clone()).expect("ASCII");
        let read = url::read(&url).expect("a URL");
        let colon = text[7..].split('/').next().is_some_and(|server| server.contains(':'));
        let kinds = [
            read.path.is_none(),
            read.query.is_some_and(|query| query.length == 0),
            read.query.is_some_and(|query| query.of(&url).contains(&b'?')),
            colon && read.port == 80,
            colon && read.port == 0,
            colon && read.port == 65_535,
            text.contains("%25"),
            text[..7].contains('H') && text.contains("%7e"),
        ];
        seen.iter_mut().zip(kinds).for_each(|(count, is)| *count += usize::from(is));
    }
    assert!(seen.iter().all(|count| *count > ROUNDS / 500), "{seen:?}");
}

/// Asks both writers, with ample room and with some; counts the inputs that have a normal form.
fn agree(inputs: impl IntoIterator<Item = Vec<u8>>, rng: &mut Rng) -> usize {
    let rooms = |input: &Vec<u8>, rng: &mut Rng| [input.len() + SPARE, rng.below(input.len() + SPARE)];
    let agree = |input: Vec<u8>| rooms(&input, rng).iter().any(|room| answer(&input, *room).is_ok());
    inputs.into_iter().map(agree).filter(|written| *written).count()
}

#[test]
fn long_urls_agree() {
    let urls = long_urls();
    let refusals: Vec<_> = urls.iter().filter_map(|input| in_ample_room(input).err()).collect();
    for number in [1, 2, 13] {
        assert!(refusals.iter().any(|refusal| refusal.number == number), "{number}");
    }
    let too_long = |input: &&Vec<u8>| url::read(input).is_ok() && in_ample_room(input).is_err();
    // Absent paths in 8,192 bytes, with nothing to drop: two without a port, and ports 0, 8080 and 65535.
    assert_eq!(urls.iter().filter(too_long).count(), 5);
    let mut rng = Rng::new(11);
    assert!(agree(urls, &mut rng) > 100);
    agree(at_limits(Kind::Url), &mut rng);
}

#[test]
fn short_strings_agree() {
    let mut rng = Rng::new(12);
    for family in short(Kind::Url) {
        agree(every(*family), &mut rng);
    }
    let more: [(&[u8], &[u8], usize); 3] =
        [(b"HTTP://A", b":/?08%", 6), (b"http://a:", b"0681/", 6), (b"http://a/", b"%24aF?", 6)];
    for family in more {
        assert!(agree(every(family), &mut rng) > 300);
    }
}

/// Any bytes, and any bytes behind the beginning of a URL.
#[test]
fn random_bytes_agree() {
    let starts: [&[u8]; 7] =
        [b"", b"http://", b"HTTP://a", b"http://a:", b"http://a/", b"http://a/?", b"http:/"];
    let mut rng = Rng::new(13);
    for _ in 0..ROUNDS {
        let length = rng.below(8);
        let bytes: Vec<_> = (0..length).map(|_| rng.byte()).collect();
        let input = [rng.pick(&starts), &bytes].concat();
        agree([bytes, input], &mut rng);
    }
    for byte in 0..=255 {
        agree(starts.map(|start| [start, &[byte], b"1"].concat()), &mut rng);
        agree(starts.map(|start| [start, b"%", &[byte], b"1"].concat()), &mut rng);
        agree(starts.map(|start| [start, b"%4", &[byte]].concat()), &mut rng);
    }
}

#[test]
fn damaged_urls_agree() {
    let mut rng = Rng::new(14);
    let damaged: Vec<_> = (0..ROUNDS).flat_map(|_| [damaged(&mut rng), any(Kind::Url, &mut rng)]).collect();
    assert!(agree(damaged, &mut rng) > ROUNDS / 10);
}
