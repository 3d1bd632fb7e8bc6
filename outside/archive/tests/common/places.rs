//! Where in a text of lists a refusal's line lies, as names that the tests count. The places are
//! found by the headers of the text, and not by either side.

/// The lists of a text, by the names that their places begin with.
pub const ONE: &[&str] = &[""];
pub const TWO: &[&str] = &["left ", "right "];

/// A refusal's number and place, for example `7 at the last right gate`. The lines above the
/// refusal's are without fault.
pub fn refusal(text: &[u8], number: u64, line: u64, lists: &[&str]) -> String {
    format!("{number} at {}", place(text, line, lists))
}

fn place(text: &[u8], line: u64, lists: &[&str]) -> String {
    let mut header = 1;
    for list in lists {
        if line == header {
            return format!("the {list}header");
        }
        let (gates, outputs) = counts(text, header);
        if line <= header + gates {
            return which(line - header, gates, list, "gate");
        }
        if line <= header + gates + outputs {
            return which(line - header - gates, outputs, list, "output");
        }
        header += 1 + gates + outputs;
    }
    "the end".into()
}

/// The gates and outputs that the header at this line counts.
fn counts(text: &[u8], header: u64) -> (u64, u64) {
    let mut lines = text.split(|&byte| byte == b'\n');
    let line = lines.nth(header as usize - 1).unwrap_or_default();
    let field = |from: usize, to: usize| {
        let digits = line.get(from..to).and_then(|d| std::str::from_utf8(d).ok());
        digits.and_then(|digits| u64::from_str_radix(digits, 16).ok())
    };
    let counts = field(4, 8).zip(field(8, 10));
    counts.expect("the lines above a refusal's are without fault")
}

/// The name of the one with this number, from 1, out of so many.
pub fn which(number: u64, count: u64, list: &str, what: &str) -> String {
    let ordinal = match number {
        _ if count == 1 => "only",
        1 => "first",
        _ if number == count => "last",
        _ => "middle",
    };
    format!("the {ordinal} {list}{what}")
}

/// Every refusal that reading these lists can meet, at every place where it can fall due.
pub fn refusals(lists: &[&str]) -> Vec<String> {
    let mut all = Vec::new();
    let mut add = |numbers: &[u8], place: String| {
        all.extend(numbers.iter().map(|number| format!("{number} at {place}")));
    };
    for list in lists {
        add(&[2, 3, 4, 5], format!("the {list}header"));
        for what in ["gate", "output"] {
            for ordinal in ["only", "first", "middle", "last"] {
                add(&[2, 3, 4, 7], format!("the {ordinal} {list}{what}"));
            }
        }
    }
    if lists.len() > 1 {
        add(&[6], "the right header".into());
    }
    add(&[2, 3], "the end".into());
    all
}
