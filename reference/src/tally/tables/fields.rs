//! Why a field of a table is outside its form.

use crate::table::Line;
use crate::tally::captures::also;

/// What the fields of a refused line meet.
pub const OUTSIDE: [&str; 37] = [
    "only the board",
    "only the direction",
    "only the counter",
    "only the number",
    "only the value",
    "several fields",
    "board empty",
    "board with CR",
    "board with LF",
    "board with a quote",
    "board without its prefix",
    "board in lowercase",
    "board of a digit less",
    "board of a digit more",
    "direction empty",
    "direction 0",
    "direction 2",
    "direction 01",
    "counter empty",
    "counter with CR",
    "counter with a quote",
    "counter with a leading zero",
    "counter 4294967296",
    "counter of more than 10 digits",
    "counter of more than 20 digits",
    "number empty",
    "number with LF",
    "number without its prefix",
    "number in lowercase",
    "number of a digit less",
    "number of a digit more",
    "value empty",
    "value with LF",
    "value without its prefix",
    "value in lowercase",
    "value of odd digits",
    "value of 256 bytes",
];

/// The fields with a content that is in form, and the length that all contents have, if it is one.
const FORMS: [(&str, &str, Option<usize>); 5] = [
    ("board", "x00000000000000000000000000000000", Some(33)),
    ("direction", "1", None),
    ("counter", "0", None),
    ("number", "0x0000", Some(6)),
    ("value", "x", None),
];

/// Why fields are outside their forms, all causes that hold. Fields behind the fifth have no form.
pub fn causes(fields: &[Vec<u8>]) -> Vec<String> {
    let places = fields.iter().enumerate().take(FORMS.len());
    let outside: Vec<usize> = places
        .filter(|(place, content)| !is_in_form(*place, content))
        .map(|(place, _)| place)
        .collect();
    let which = match outside[..] {
        [] => return Vec::new(),
        [place] => format!("only the {}", FORMS[place].0),
        _ => "several fields".to_string(),
    };
    let each = outside
        .iter()
        .flat_map(|place| of_field(*place, &fields[*place]));
    each.chain([which]).collect()
}

/// Whether a line of otherwise good fields takes this one.
fn is_in_form(place: usize, content: &[u8]) -> bool {
    let mut fields = FORMS.map(|(_, good, _)| good.as_bytes().to_vec());
    fields[place] = String::from_utf8_lossy(content).replace('"', "\"\"").into();
    let quoted = fields.map(|field| [b"\"", &field[..], b"\""].concat());
    let line = Line {
        text: &quoted.join(&b','),
        is_ended: true,
    };
    line.row().is_ok()
}

fn of_field(place: usize, content: &[u8]) -> Vec<String> {
    let (name, _, length) = FORMS[place];
    let has = |byte: u8| content.contains(&byte);
    let differs_by = |more: usize, less: usize| {
        length.is_some_and(|length| content.len() + less == length + more)
    };
    let general = also([
        (content.is_empty(), "empty"),
        (has(b'\r'), "with CR"),
        (has(b'\n'), "with LF"),
        (has(b'"'), "with a quote"),
        (differs_by(1, 0), "of a digit more"),
        (differs_by(0, 1), "of a digit less"),
    ]);
    let own = match name {
        "direction" => vec![String::from_utf8_lossy(content).into_owned()],
        "counter" => of_counter(content),
        _ => of_digits(place, content),
    };
    let all = general.chain(own);
    all.map(|cause| format!("{name} {cause}")).collect()
}

fn of_counter(content: &[u8]) -> Vec<String> {
    let is_number = !content.is_empty() && content.iter().all(u8::is_ascii_digit);
    let length = content.len();
    also([
        (is_number && content[0] == b'0', "with a leading zero"),
        (content == b"4294967296", "4294967296"),
        (is_number && length > 10, "of more than 10 digits"),
        (is_number && length > 20, "of more than 20 digits"),
    ])
    .collect()
}

/// A board, a number or a value: a prefix and hex digits.
fn of_digits(place: usize, content: &[u8]) -> Vec<String> {
    let (name, good, _) = FORMS[place];
    let prefix = &good[..=good.find('x').unwrap_or(0)];
    let with_prefix = [prefix.as_bytes(), content].concat();
    let raised = content.to_ascii_uppercase();
    let raised = [prefix.as_bytes(), raised.get(prefix.len()..).unwrap_or(&[])].concat();
    let is_digits = |digits: &[u8]| digits.iter().all(u8::is_ascii_hexdigit);
    let digits = content
        .strip_prefix(b"x")
        .filter(|digits| is_digits(digits));
    let count = digits.map_or(0, <[u8]>::len);
    also([
        (is_in_form(place, &with_prefix), "without its prefix"),
        (
            content.starts_with(prefix.as_bytes()) && is_in_form(place, &raised),
            "in lowercase",
        ),
        (name == "value" && count % 2 == 1, "of odd digits"),
        (name == "value" && count == 512, "of 256 bytes"),
    ])
    .collect()
}
