//! Streams of cases: the hand-made ones of a call in a fixed order, then seeded random ones.

use crate::at_random::at_random;
use crate::by_hand::by_hand;
use crate::case::Case;
use crate::packed_by_hand::packed_by_hand;
use crate::rng::Rng;

/// A case with a few words on what it shows.
pub struct Named {
    pub name: String,
    pub case: Case,
}

/// The calls that have a stream of their own.
pub const CALLS: [&str; 17] = [
    "read", "rows", "over", "meet", "join", "part", "disputes", "decide", "compare", "winner", "findings", "pack",
    "open", "opened", "repack", "rig", "edit",
];

/// The calls on packed tables, which the name `packed` stands for.
const PACKED: [&str; 5] = ["pack", "open", "opened", "repack", "rig"];

/// So many cases of one call, or of all calls if none is named. None if there is no such call.
pub fn stream(call: Option<&str>, seed: u64, count: usize) -> Option<Vec<Named>> {
    let calls: Vec<&str> = match call {
        None => CALLS.to_vec(),
        Some("packed") => PACKED.to_vec(),
        Some(call) => vec![*CALLS.iter().find(|&&known| known == call)?],
    };
    let by_hand = match call {
        Some("packed") => packed_by_hand(),
        _ => calls.iter().flat_map(|call| by_hand(call)).collect(),
    };
    let mut cases: Vec<Named> = by_hand.into_iter().map(|(name, case)| Named { name, case }).collect();
    let mut rng = Rng::new(seed);
    for number in cases.len()..count {
        let call = calls[number % calls.len()];
        cases.push(Named { name: format!("random, number {number}"), case: at_random(&mut rng, call) });
    }
    cases.truncate(count);
    Some(cases)
}

#[cfg(test)]
mod tests {
    use super::*;

    #[test]
    fn lines_are_read_back_as_their_cases() {
        for named in stream(None, 1, 900).unwrap() {
            let line = named.case.to_string();
            assert_eq!(Case::parse(&line).as_ref(), Ok(&named.case), "{}", named.name);
        }
    }

    #[test]
    fn a_seed_gives_one_stream_and_a_longer_one_begins_with_it() {
        let lines = |seed, count| -> Vec<String> {
            stream(Some("read"), seed, count).unwrap().iter().map(|named| named.case.to_string()).collect()
        };
        let long = lines(7, 260);
        assert_eq!(long.len(), 260);
        assert_eq!(lines(7, 200), long[..200]);
        assert_ne!(lines(8, 260), long);
    }

    #[test]
    fn random_lines_are_short() {
        for call in ["read", "rows"] {
            let by_hand = by_hand(call).len();
            for named in &stream(Some(call), 3, by_hand + 300).unwrap()[by_hand..] {
                assert!(named.case.to_string().len() < 2100, "{call} {}", named.name);
            }
        }
    }

    #[test]
    fn every_answer_and_refusal_is_met() {
        let met = |call: &str, count: usize| -> Vec<String> {
            let cases = stream(Some(call), 5, count).unwrap();
            cases.iter().map(|named| named.case.answer()).collect()
        };
        let expect = |call: &str, starts: &[&str]| {
            let answers = met(call, 400);
            for start in starts {
                assert!(answers.iter().any(|answer| answer.starts_with(start)), "{call}: no answer {start}");
            }
        };
        expect(
            "read",
            &[
                "taken",
                "refused 6 ",
                "refused 7 ",
                "refused 8 ",
                "refused 9 ",
                "refused 10 ",
                "refused 3 ",
                "refused 1 ",
            ],
        );
        expect("rows", &["rows 1\n", "rows 1152\n", "refused 5 layer 0 line 0 column 0\n", "refused 6 ", "refused 1 "]);
        expect("part", &["rows", "refused 3 layer 0"]);
        expect("disputes", &["disputes 0\n", "disputes 1\n"]);
        expect("compare", &["below\n", "fails "]);
        expect("winner", &["none\n", "text 1 line", "text 2 line", "text 1 refused", "text 2 refused"]);
        expect("findings", &["findings 0\n", "findings 2016\n", "refused 5 "]);
        expect("pack", &["packed 1\n", "packed 1152\n", "refused 5 "]);
        expect(
            "open",
            &["opened", "refused 11 ", "refused 12 ", "refused 13 ", "refused 14 ", "refused 15 ", "refused 16 "],
        );
        expect("decide", &["decision 0\n", "decision 1\n", "decision 2\n", "decision 3\n"]);
        let answers = ["answer 0\n", "answer 1\n", "answer 2\n", "answer 111\n", "answer 112\n", "answer 113\n"];
        expect("rig", &answers);
        expect("rig", &["answer 114\n", "answer 115\n", "answer 116\n"]);
        expect("edit", &["taken", "refused 2"]);
    }
}
