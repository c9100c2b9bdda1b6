//! Texts of element declarations: of the family, at the limits of a model and of a sheet, and damaged.

use crate::random::Random;

const NAMES: [&str; 8] = ["a", "b", "c", "d_1", "e.f-g", "_", "abcdefghijklmno", "EMPTY"];
const SIGNS: &[u8] = b"()|,?*+ #>a.%&<!EANY\r\t\0\x80";

fn name(random: &mut Random) -> String {
    match random.below(40) {
        0 => "abcdefghijklmnop".into(),
        1 => (*random.pick(&["-a", "1", "a:b", "", "#PCDATA", "ANY"])).into(),
        2..=9 => format!("n{}", random.below(80)),
        _ => (*random.pick(&NAMES)).into(),
    }
}

fn gap(random: &mut Random) -> &'static str {
    if random.once_in(3) { *random.pick(&[" ", "\n", "\t", "\r\n", "  "]) } else { "" }
}

fn mark(random: &mut Random) -> &'static str {
    *random.pick(&["", "", "", "?", "*", "+"])
}

fn item(random: &mut Random, left: usize) -> String {
    let inner = if left == 0 || random.below(3) > 0 { name(random) } else { group(random, left - 1) };
    inner + mark(random)
}

fn group(random: &mut Random, left: usize) -> String {
    let count = if random.once_in(9) { random.within(4, 13) } else { random.within(1, 3) };
    let sign = *random.pick(&[",", "|"]);
    let mut text = format!("({}{}", gap(random), item(random, left));
    for _ in 1..count {
        let sign = if random.once_in(200) { "|" } else { sign };
        text += &format!("{}{sign}{}{}", gap(random), gap(random), item(random, left));
    }
    text + gap(random) + ")"
}

fn content(random: &mut Random) -> String {
    match random.below(12) {
        0 | 1 => "EMPTY".into(),
        2 => (*random.pick(&["ANY", "ANYTHING", "ANY.", "any", "EMPTYX", "(#PCDATA)?", "((#PCDATA))"])).into(),
        3 | 4 => {
            let names: String = (0..*random.pick(&[0, 0, 1, 2, 3, 9, 10, 11])).map(|_| format!("{}|{}{}", gap(random), gap(random), name(random))).collect();
            format!("({}#PCDATA{names}{}){}", gap(random), gap(random), if random.once_in(8) { "" } else { "*" })
        }
        5 => "(".repeat(random.within(28, 33)) + "a" + &")".repeat(random.within(28, 33)),
        _ => {
            let left = random.within(0, 5);
            group(random, left) + mark(random)
        }
    }
}

fn declaration(random: &mut Random) -> String {
    if random.once_in(40) {
        return (*random.pick(&["<!ENTITY x 'y'>", "<!ATTLIST a b CDATA 'c'>", "<!ENTITYx", "<!ATTLIST.", "<!ATTLIST", "<!ENTITY", "<!-- c -->", "%x;", "<?x?>"])).into();
    }
    format!("<!ELEMENT {}{} {}{}{}>", gap(random), name(random), gap(random), content(random), gap(random))
}

/// Many declarations of few bytes: 64 of them, 64 names or 256 nodes, and more.
fn full(random: &mut Random) -> String {
    let count = random.within(61, 67);
    let contents = ["EMPTY", "(n1,n2*)", "(#PCDATA|n3)*", "(n4)"];
    let content = *random.pick(&contents);
    let first = random.below(4);
    (0..count).map(|i| format!("<!ELEMENT n{} {}>", i + first, if random.once_in(9) { *random.pick(&contents) } else { content })).collect()
}

/// A text, perhaps damaged or cut off.
pub fn text(random: &mut Random) -> Vec<u8> {
    let mut text = if random.once_in(25) {
        full(random)
    } else {
        let count = *random.pick(&[1, 1, 2, 3, 5]);
        (0..count).map(|_| declaration(random) + gap(random)).collect()
    }
    .into_bytes();
    for _ in 0..random.below(5).saturating_sub(2) {
        let at = random.below(text.len() + 1);
        let left_out = random.below(2).min(text.len() - at);
        let put_in: &[u8] = if random.once_in(3) { &[] } else { &[*random.pick(SIGNS)] };
        text.splice(at..at + left_out, put_in.iter().copied());
    }
    if random.once_in(12) {
        text.truncate(random.below(text.len() + 1));
    }
    text
}
