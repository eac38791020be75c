//! Ways to spoil a line of a script, each against one rule of the format.

use crate::floor::Call;
use crate::random::Random;
use crate::script;

/// Turns a good line (without its end) into a bad one.
type Spoil = fn(&mut Random, Vec<u8>) -> Vec<u8>;

/// For a call that names a ledger.
pub const OF_CALLS: [(&str, Spoil); 21] = [
    ("empty line", |_, _| Vec::new()),
    ("two spaces", |random, line| at_space(random, line, b"  ")),
    ("no space", |random, line| at_space(random, line, b"")),
    ("tab for a space", |random, line| {
        at_space(random, line, b"\t")
    }),
    ("comma for a space", |random, line| {
        at_space(random, line, b",")
    }),
    ("space after", |_, line| [&line[..], b" "].concat()),
    ("space before", |_, line| [b" ", &line[..]].concat()),
    ("carriage return", |_, line| [&line[..], b"\r"].concat()),
    ("two digits", two_digits),
    ("no digit", no_digit),
    ("lower case", |_, line| line.to_ascii_lowercase()),
    ("high byte", |random, line| {
        any_byte(random, line, |byte| byte | 128)
    }),
    ("zero byte", |random, line| any_byte(random, line, |_| 0)),
    ("field missing", |_, line| line[..line.len() - 2].to_vec()),
    ("field too many", |_, line| [&line[..], b" 1"].concat()),
    ("letter missing", |_, line| line[1..].to_vec()),
    ("unknown letter", unknown_letter),
    ("begin with a field", |_, _| b"B 0".to_vec()),
    ("begin with a space", |_, _| b"B ".to_vec()),
    ("second opening", |_, _| b"F 2 YY".to_vec()),
    ("any bytes", any_bytes),
];

/// For an opening line.
pub const OF_OPENINGS: [(&str, Spoil); 24] = [
    ("opening: empty line", |_, _| Vec::new()),
    ("opening: letter too many", |_, line| {
        [&line[..], b"Y"].concat()
    }),
    ("opening: letter too few", |_, line| {
        line[..line.len() - 1].to_vec()
    }),
    ("opening: no letters", |_, line| line[..3].to_vec()),
    ("opening: no letters after a space", |_, line| {
        line[..4].to_vec()
    }),
    ("opening: no size", |_, line| [b"F ", &line[4..]].concat()),
    ("opening: size 0", |_, _| b"F 0 Y".to_vec()),
    ("opening: size 0, no letters", |_, _| b"F 0 ".to_vec()),
    ("opening: size 10", |_, _| b"F 10 YYYYYYYYYY".to_vec()),
    ("opening: two digits", |_, line| {
        [b"F 0", &line[2..]].concat()
    }),
    ("opening: colon for ten", |_, _| b"F : YYYYYYYYYY".to_vec()),
    ("opening: two spaces", |random, line| {
        at_space(random, line, b"  ")
    }),
    ("opening: no space", |random, line| {
        at_space(random, line, b"")
    }),
    ("opening: tab for a space", |random, line| {
        at_space(random, line, b"\t")
    }),
    ("opening: space after", |_, line| [&line[..], b" "].concat()),
    ("opening: space before", |_, line| {
        [b" ", &line[..]].concat()
    }),
    ("opening: space among letters", |_, line| {
        [&line[..5], b" ", &line[5..]].concat()
    }),
    ("opening: carriage return", |_, line| {
        [&line[..], b"\r"].concat()
    }),
    ("opening: lower case", opening_lower_case),
    ("opening: other letter", other_vote),
    ("opening: high byte", |random, line| {
        any_byte(random, line, |byte| byte | 128)
    }),
    ("opening: byte order mark", |_, line| {
        [&b"\xef\xbb\xbf"[..], &line[..]].concat()
    }),
    ("opening: other first letter", |_, line| {
        [b"G", &line[1..]].concat()
    }),
    ("opening: a call instead", |random, _| {
        call_naming_ledgers(random)
    }),
];

/// For a script as a whole.
pub const OF_SCRIPTS: [&str; 6] = [
    "script: last line without its end",
    "script: opening without its end",
    "script: empty",
    "script: one byte too long",
    "script: many bytes too long",
    "script: longest, last line without its end",
];

/// A good line for a call that names one ledger or two.
pub fn call_naming_ledgers(random: &mut Random) -> Vec<u8> {
    let (one, other) = (random.below(10), random.below(10));
    let call = match random.below(5) {
        0 => Call::Step { ledger: one },
        1 => Call::Deliver {
            from: one,
            to: other,
        },
        2 => Call::Expire { by: one, other },
        3 => Call::Stop { ledger: one },
        _ => Call::Restart { ledger: one },
    };
    script::call_line(call).into_bytes()
}

/// Puts something else in the place of one of the line's spaces.
fn at_space(random: &mut Random, line: Vec<u8>, instead: &[u8]) -> Vec<u8> {
    let spaces: Vec<usize> = (0..line.len()).filter(|&at| line[at] == b' ').collect();
    let at = spaces[random.below(spaces.len())];
    [&line[..at], instead, &line[at + 1..]].concat()
}

/// Changes one of the line's bytes.
fn any_byte(random: &mut Random, mut line: Vec<u8>, change: fn(u8) -> u8) -> Vec<u8> {
    let at = random.below(line.len());
    line[at] = change(line[at]);
    line
}

/// The places of the line's digits: every other byte from the third on.
fn digit_place(random: &mut Random, line: &[u8]) -> usize {
    2 + 2 * random.below((line.len() - 1) / 2)
}

fn two_digits(random: &mut Random, line: Vec<u8>) -> Vec<u8> {
    let at = digit_place(random, &line);
    let extra = b'0' + random.below(10) as u8;
    [&line[..at], &[extra], &line[at..]].concat()
}

/// The bytes just before `0` and just after `9` are among those tried.
fn no_digit(random: &mut Random, mut line: Vec<u8>) -> Vec<u8> {
    let at = digit_place(random, &line);
    line[at] = b"/:-+aAO "[random.below(8)];
    line
}

fn unknown_letter(random: &mut Random, mut line: Vec<u8>) -> Vec<u8> {
    line[0] = b"ACFGLMNWYZ@[0"[random.below(13)];
    line
}

/// Either the first letter or the last vote.
fn opening_lower_case(random: &mut Random, mut line: Vec<u8>) -> Vec<u8> {
    let at = if random.percent(50) {
        0
    } else {
        line.len() - 1
    };
    line[at] = line[at].to_ascii_lowercase();
    line
}

fn other_vote(random: &mut Random, mut line: Vec<u8>) -> Vec<u8> {
    let at = random.between(4, line.len() - 1);
    line[at] = b"AXMOZ012-"[random.below(9)];
    line
}

fn any_bytes(random: &mut Random, line: Vec<u8>) -> Vec<u8> {
    let length = random.between(1, 12);
    let bytes: Vec<u8> = (0..length)
        .map(|_| random.byte())
        .filter(|&b| b != b'\n')
        .collect();
    let good = script::read_call(&bytes).is_some();
    if good {
        [&bytes[..], &line[..], b"?"].concat()
    } else {
        bytes
    }
}
