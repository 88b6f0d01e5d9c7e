//! The names of a voice's words, for a difference that is shown.

/// The words of a voice: a name, and how many there are of it.
const SLOTS: [(&str, usize); 32] = [
    ("nmcp", 1),
    ("nlpf", 1),
    ("stage", 1),
    ("log gain", 1),
    ("rate", 1),
    ("alpha", 1),
    ("beta", 1),
    ("volume", 1),
    ("fperiod", 1),
    ("no-data", 1),
    ("low", 1),
    ("high", 1),
    ("meter", 1),
    ("samples left", 1),
    ("first flag", 1),
    ("pitch", 1),
    ("counter", 1),
    ("increment", 1),
    ("end pitch", 1),
    ("line", 64),
    ("filter tap", 64),
    ("next", 1),
    ("used", 1),
    ("queue", 64),
    ("coefficient", 64),
    ("coefficient's increment", 64),
    ("target", 64),
    ("d11", 6),
    ("d12", 6),
    ("d21", 384),
    ("d22", 6),
    ("d", 512),
];

/// The name of a place in the words of a voice.
pub fn slot(mut place: usize) -> String {
    for (name, count) in SLOTS {
        if place < count {
            return match count {
                1 => name.to_string(),
                _ => format!("{name}[{place}]"),
            };
        }
        place -= count;
    }
    unreachable!("no word so far out")
}
