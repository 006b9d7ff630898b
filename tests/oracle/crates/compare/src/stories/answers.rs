//! Answers: reads, refusals, measured text, and lines that are no call.

use crate::author::{Author, id};
use crate::stories::states::{table, tables};
use crate::styles;
use crate::texts;

/// Each refusal that the tree of the moment can give.
pub fn refusals(author: &mut Author) {
    match author.rng.below(6) {
        0 => {
            let dead = author.some_stale();
            for word in ["insert", "remove", "field", "text", "cursor", "metres", "rect", "live", "first"] {
                author.call_on(word, dead);
            }
            for word in ["next", "confirm", "ramp", "office"] {
                author.call_on(word, dead);
            }
            let style = styles::style(&mut author.rng, author.sizes);
            author.style(dead, &style);
            table(author, dead);
        }
        1 => {
            let parent = author.some_live();
            let room = author.ui().limits().nodes - author.ui().live();
            if room < 30 {
                while author.insert(parent).is_some() {}
            }
            author.call_on("remove", parent);
        }
        2 => {
            let root = author.root();
            author.call_on("remove", root);
            author.call("remove 0 2");
        }
        3 => {
            let node = author.some_live();
            for word in ["text", "cursor", "metres", "confirm", "ramp", "office"] {
                author.call_on(word, node);
            }
        }
        4 => {
            let node = author.some_live();
            let pool = author.ui().patch_pool().len();
            for at in [0, 7, 8, 15] {
                let mut entries = vec!["65535".to_string(); 16];
                entries[at] = pool.to_string();
                author.call(format!("table {} {}", id(node), entries.join(" ")));
            }
        }
        _ if author.rng.chance(60) => {
            let many = 63 + author.rng.below(4);
            while author.waiting() < many && author.waiting() < 65 {
                author.call("patch 1 row auto auto 0 0 0 0 0 0 0 0 0 0 start start 1 2 3 4");
            }
            if many > 65 {
                author.call("patch 0 row auto auto 0 0 0 0 0 0 0 0 0 0 start start 1 2 3 4");
            }
            author.call("pool");
            tables(author);
        }
        _ => {}
    }
}

pub fn measure(author: &mut Author) {
    for _ in 0..3 {
        let hex = texts::hex(&mut author.rng);
        author.call(format!("measure {hex}"));
    }
}

pub fn reads(author: &mut Author) {
    for _ in 0..4 {
        let node = author.some_id();
        let word = author
            .rng
            .pick(&["rect", "rect", "first", "next", "live", "text", "cursor", "metres", "ramp", "office"]);
        author.call_on(word, node);
    }
    if author.rng.chance(10) {
        author.call("ship");
    }
    let hash = author.rng.bits();
    author.call(format!("absorb {hash:016x}"));
    let word = author.rng.pick(&["focus", "pressed", "output"]);
    author.call(word);
}

/// Lines that are no call: each must write `?` and change nothing.
pub fn malformed(author: &mut Author) {
    const WHOLE: [&str; 75] = [
        "",
        "#",
        "# a comment",
        " ",
        "press ",
        " press",
        "presses",
        "PRESS",
        "press 0",
        "move 1",
        "move  1 2",
        "move 1 2 3",
        "move 01 2",
        "move +1 2",
        "move -0 2",
        "move 2147483648 0",
        "move 0 -2147483649",
        "insert 0",
        "insert -1 1",
        "insert 4294967296 1",
        "live 0 18446744073709551616",
        "solve 0 9223372036854775808",
        "char -1",
        "char 4294967296",
        "edit up",
        "absorb 123",
        "absorb CBF29CE484222325",
        "measure 0",
        "measure 0G",
        "measure",
        "new",
        "new 4294967296",
        "origin",
        "origin 1 2",
        "origin -1",
        "origin 4294967296",
        "origin 01",
        "label",
        "label 0",
        "label 0G",
        "label 0g",
        "label 41 42",
        "label --",
        "label ",
        "labels 41",
        "lines",
        "lines 1",
        "lines 1 2 3",
        "lines 1 1101",
        "lines 1 -1",
        "lines 01 1",
        "lines 1 01",
        "lines -1 1",
        "lines 4294967296 1",
        "line 1 1",
        "confirm",
        "confirm 0",
        "confirm 0 1 2",
        "confirm 00 1",
        "confirm -1 1",
        "confirm 4294967296 1",
        "confirm 0 18446744073709551616",
        "Confirm 0 1",
        "confirmed 0 1",
        "ship 0",
        "ship 0 1",
        "ship ",
        "ships",
        "ramp",
        "ramp 0",
        "ramp 0 1 2",
        "ramp 0  1",
        "office",
        "office 0",
        "office 0 1 0",
    ];
    for _ in 0..3 {
        let line = author.rng.pick(&WHOLE);
        author.call(line);
    }
    let node = author.some_live();
    let style = styles::style(&mut author.rng, author.sizes);
    let mut words: Vec<_> = format!("style {} {style}", id(node)).split(' ').map(str::to_string).collect();
    let at = author.rng.below(words.len());
    match author.rng.below(5) {
        0 => words[at] = String::new(),
        1 => {
            words.remove(at);
        }
        2 => words.insert(at, "0".to_string()),
        3 => words[at].push_str(author.rng.pick(&["\t", "\r", "\u{0}", "é", "x", "-"])),
        _ => {
            words[at] =
                author.rng.pick(&["256", "-1", "4294967296", "Auto", "9223372036854775808", "00"]).to_string()
        }
    }
    author.call(words.join(" "));
}
