//! Hand-made rule texts: what is taken, and every fault at its first, a middle and its last place.

use crate::model::{Kind, MAX_RULES};
use crate::text::MAX_TEXT;

/// A text with a few words on what it shows.
pub struct Named {
    pub name: String,
    pub kind: Kind,
    pub text: Vec<u8>,
}

const GOOD: &str = "allow 10.0.0.0-10.0.0.255 * 10.1.0.5 443 6";
const SHORT: &str = "deny * * * * *\n";

/// All of them, in a fixed order.
pub fn all() -> Vec<Named> {
    let mut list = List(Vec::new());
    taken(&mut list);
    sizes(&mut list);
    letters(&mut list);
    word_counts(&mut list);
    decisions(&mut list);
    numbers(&mut list);
    reversed(&mut list);
    full_books(&mut list);
    orders(&mut list);
    list.0
}

struct List(Vec<Named>);

impl List {
    fn add(&mut self, kind: Kind, name: &str, text: impl Into<Vec<u8>>) {
        self.0.push(Named { name: name.to_string(), kind, text: text.into() });
    }

    fn verdicts(&mut self, name: &str, text: impl Into<Vec<u8>>) {
        self.add(Kind::Verdicts, name, text);
    }

    fn marks(&mut self, name: &str, text: impl Into<Vec<u8>>) {
        self.add(Kind::Marks, name, text);
    }
}

fn taken(list: &mut List) {
    list.verdicts("no byte at all", "");
    list.verdicts("one line feed", "\n");
    list.verdicts("one rule", format!("{GOOD}\n"));
    list.verdicts("one rule without line feed", GOOD);
    list.verdicts("an empty line before the last rule, which lacks its line feed", format!("\n{GOOD}"));
    list.verdicts("a lone # without line feed", "#");
    list.verdicts("rules, comments and empty lines", format!("# a\n\n{GOOD}\n#{GOOD}\n\n\n{SHORT}#\n"));
    list.verdicts("a comment with every letter", [b"#".to_vec(), (32..=126).collect(), b"\n".to_vec()].concat());
    list.verdicts("smallest values", "deny 0.0.0.0 0 0.0.0.0 0 0\n");
    list.verdicts("largest values", "deny 255.255.255.255 65535 255.255.255.255 65535 255\n");
    list.verdicts(
        "whole ranges written out",
        "allow 0.0.0.0-255.255.255.255 0-65535 0.0.0.0-255.255.255.255 0-65535 0-255\n",
    );
    list.verdicts("equal ends", "allow 1.2.3.4-1.2.3.4 9-9 0.0.0.0-0.0.0.0 65535-65535 6-6\n");
    list.verdicts("ends one apart", "allow 1.2.3.255-1.2.4.0 9-10 0.0.0.0-0.0.0.1 65534-65535 99-100\n");
    let words = ["log", "meter", "log+meter", "copy", "log+copy", "meter+copy", "log+meter+copy", "hold"];
    let held = ["log+hold", "meter+hold", "log+meter+hold", "copy+hold", "log+copy+hold", "meter+copy+hold"];
    let all = words.into_iter().chain(held).chain(["log+meter+copy+hold"]);
    list.marks("all fifteen words", all.map(|word| format!("{word} * * * * *\n")).collect::<String>());
}

/// A text of so many bytes: one rule and a long comment.
fn long(bytes: usize) -> Vec<u8> {
    let mut text = format!("{SHORT}#").into_bytes();
    text.resize(bytes - 1, b'x');
    text.push(b'\n');
    text
}

fn sizes(list: &mut List) {
    list.verdicts("16,384 bytes", long(MAX_TEXT));
    let mut last = long(MAX_TEXT);
    last[MAX_TEXT - 1] = 127;
    list.verdicts("16,384 bytes, the last one bad", last);
    list.verdicts("16,385 bytes", long(MAX_TEXT + 1));
    list.verdicts("16,385 bytes, all of them bad", vec![0; MAX_TEXT + 1]);
}

fn letters(list: &mut List) {
    for byte in [0, 9, 31, 127, 128, 255] {
        let mut text = GOOD.as_bytes().to_vec();
        text[0] = byte;
        list.verdicts(&format!("byte {byte} at the first place"), text);
    }
    list.verdicts("a tab for the first space", format!("{SHORT}{}\n", GOOD.replacen(' ', "\t", 1)));
    list.verdicts("a carriage return before the line feed", format!("{GOOD}\r\n{GOOD}\r\n"));
    list.verdicts("a carriage return alone in a line", format!("{GOOD}\n\r\n"));
    list.verdicts("a carriage return behind the last line feed", format!("{GOOD}\n\r"));
    list.verdicts("a bad letter at the last place, without line feed", format!("{SHORT}{SHORT}{GOOD}\x7f"));
    list.verdicts("a bad letter inside a number of line 4 of 5", format!("{SHORT}\n{SHORT}deny * 1\x002 * * *\n#\n"));
    list.verdicts("a bad letter right behind #", "#\u{e9}\n");
    list.verdicts("a bad letter at the end of a comment", format!("{SHORT}# note\x01\n{SHORT}"));
    list.verdicts("a bad letter before #", format!("{SHORT}\t# note\n"));
    list.verdicts("two bad letters", "deny \x02 \x01 * * *\n");
    list.verdicts("a bad letter behind too few words", "deny *\x1f\n");
    list.verdicts("a bad letter behind an unknown decision", "drop * * * * \t\n");
    list.verdicts("a bad letter behind a malformed and a reversed range", "deny 1 2-1 * * *\r\n");
}

fn word_counts(list: &mut List) {
    let words = ["deny", "*", "*", "*", "*", "*", "*", "*"];
    for count in [1, 2, 3, 4, 5, 7, 8] {
        list.verdicts(&format!("{count} words"), words[..count].join(" ") + "\n");
    }
    for place in 0..7 {
        let mut line = words[..6].to_vec();
        line.insert(place, "");
        list.verdicts(&format!("word {} empty, seven in all", place + 1), line.join(" ") + "\n");
    }
    list.verdicts("word 6 empty, six in all", "deny * * * * ");
    list.verdicts("word 3 empty, six in all", format!("{SHORT}deny *  * * *\n{SHORT}"));
    list.verdicts("words 2 and 5 empty", "deny  * *  * *\n");
    list.verdicts("word 2 empty, eight in all", "deny  * * * * * *\n");
    list.verdicts("word 8 empty", "deny * * * * * * \n");
    list.verdicts("one space", " \n");
    list.verdicts("a line of spaces, last and without line feed", format!("{SHORT}\n   "));
    list.verdicts("an indented comment", format!("{SHORT} # note\n"));
    list.verdicts("a comment behind a rule", "deny * * * * * # note\n");
}

fn decisions(list: &mut List) {
    for word in ["none", "Allow", "den", "denyx", "log", "*"] {
        list.verdicts(&format!("the word {word} for verdicts"), format!("{word} * * * * *\n"));
    }
    for word in ["none", "allow", "meter+log", "log+hold+copy", "log+log", "log+", "+log", "log++copy"] {
        list.marks(&format!("the word {word} for marks"), format!("hold * * * * *\n{word} * * * * *"));
    }
}

fn numbers(list: &mut List) {
    let addresses = [
        "1.2.3",
        "1.2.3.4.5",
        "1..3.4",
        "1.2.3.",
        "256.0.0.0",
        "0.0.0.256",
        "01.2.3.4",
        "1.2.3.4-5",
        "1.2.3.4--1.2.3.5",
        "16909060",
    ];
    for (i, word) in addresses.into_iter().enumerate() {
        // The source address and the destination address by turns.
        let line = if i % 2 == 0 { format!("deny {word} * * * *") } else { format!("deny * * {word} * *") };
        list.verdicts(&format!("{word} as an address"), line);
    }
    let ports =
        ["65536", "00", "-", "1-", "-1", "1-2-3", "*-1", "1-*", "1/", ":", "4294967297", "18446744073709551617"];
    for (i, word) in ports.into_iter().enumerate() {
        let line = if i % 2 == 0 { format!("deny * {word} * * *") } else { format!("deny * * * {word} *") };
        list.verdicts(&format!("{word} as a port"), line + "\n");
    }
    for word in ["256", "1-256", "6a"] {
        list.verdicts(&format!("{word} as a protocol"), format!("{SHORT}{SHORT}deny * * * * {word}\n{SHORT}"));
    }
}

fn reversed(list: &mut List) {
    let lines = [
        "deny 0.0.0.1-0.0.0.0 * * * *",
        "deny * 65535-65534 * * *",
        "deny * * 255.255.255.255-0.0.0.0 * *",
        "deny * * * 100-99 *",
        "deny * * * * 255-0",
    ];
    for (i, line) in lines.into_iter().enumerate() {
        list.verdicts(&format!("field {} reversed", i + 1), format!("{SHORT}\n{line}\n{SHORT}"));
    }
    list.marks("reversed in the last line, without line feed", "log * * * * *\nlog * * * * 10-9");
}

fn full_books(list: &mut List) {
    let full = SHORT.repeat(MAX_RULES);
    list.verdicts("64 rules", full.clone());
    list.verdicts("64 rules, then a comment and an empty line", format!("{full}# end\n\n"));
    list.verdicts("65 rules", format!("{full}{SHORT}"));
    list.verdicts(
        "65 rules, a comment before the last, which lacks its line feed",
        format!("{full}#\n\n{}", SHORT.trim_end()),
    );
    list.verdicts("66 rules", format!("{full}{SHORT}{SHORT}"));
    for (what, line) in [
        ("a bad letter", "deny * * * * *\r"),
        ("a seventh word", "deny * * * * * *"),
        ("an unknown decision", "none * * * * *"),
        ("a malformed range", "deny * * * * 256"),
        ("a reversed range", "deny * * * 2-1 *"),
        ("no fault, and a bad one behind it", "deny * * * * *\n\0"),
    ] {
        list.verdicts(&format!("65 rules, the last with {what}"), format!("{full}{line}\n"));
    }
    list.verdicts("64 rules and a bad letter in a comment", format!("{full}#\t\n{SHORT}"));
}

fn orders(list: &mut List) {
    list.verdicts("too few words with an unknown decision", "drop * * * *\n");
    list.verdicts("too many words with a malformed one", "deny 1 * * * * *\n");
    list.verdicts("an empty word behind a malformed one", "deny 1 2-1  * *\n");
    list.verdicts("an unknown decision before a malformed word", "drop 1 2-1 * * *\n");
    list.verdicts("a malformed word before a reversed one", "deny 1.2.3 2-1 * * *\n");
    list.verdicts("a reversed word before a malformed one", "deny * 2-1 1.2.3 * *\n");
    list.verdicts("two reversed words", "deny * * 1.1.1.2-1.1.1.1 2-1 *\n");
    list.verdicts("two malformed words", "deny * * * 65536 256\n");
    list.verdicts("a malformed high end below the low one", "deny * 2-01 * * *\n");
    list.verdicts("a too large low end above the high one", "deny * * * * 256-2\n");
    list.verdicts("a third value behind a reversed pair", "deny * 3-2-1 * * *\n");
    list.verdicts("a malformed word in line 1, a bad letter in line 2", "deny * 01 * * *\n\0\n");
    list.verdicts("a reversed word in line 2, too few words in line 3", format!("{SHORT}deny * 2-1 * * *\ndeny\n"));
    list.verdicts("an unknown decision in line 2, which lacks its line feed", format!("{SHORT}drop * * * * *"));
    list.verdicts("faults behind the last good line only", format!("{SHORT}{SHORT}{SHORT}x"));
}

#[cfg(test)]
mod tests {
    use super::*;
    use crate::model::Refusal;
    use crate::text::read;

    #[test]
    fn every_refusal_of_reading_is_met() {
        let faults: Vec<_> = all().iter().map(|named| read(named.kind, &named.text).fault).collect();
        let met = |refusal| faults.iter().flatten().filter(|fault| fault.refusal == refusal).count();
        assert!(met(Refusal::TextTooLong) >= 2);
        for refusal in [
            Refusal::BadLetter,
            Refusal::BadWordCount,
            Refusal::UnknownDecision,
            Refusal::Malformed,
            Refusal::Reversed,
            Refusal::BookFull,
        ] {
            assert!(met(refusal) >= 4, "{refusal}");
        }
        assert!(faults.iter().filter(|fault| fault.is_none()).count() >= 15);
    }

    #[test]
    fn names_and_texts_are_told_apart() {
        let all = all();
        for (i, named) in all.iter().enumerate() {
            for other in &all[..i] {
                assert_ne!(named.name, other.name);
                assert!(named.kind != other.kind || named.text != other.text, "{} {}", named.name, other.name);
            }
            assert!(named.text.len() <= 1050 || named.text.len() >= 16_384, "{}", named.name);
        }
    }
}
