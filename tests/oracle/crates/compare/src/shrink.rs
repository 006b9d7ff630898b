//! Cuts a script down while a condition holds of it.

/// Leaves out runs of lines, from long ones to single ones, until no single line can go.
pub fn lines(script: &[String], mut holds: impl FnMut(&[String]) -> bool) -> Vec<String> {
    let mut kept = script.to_vec();
    let mut run = kept.len().div_ceil(2).max(1);
    loop {
        let mut at = 0;
        let mut cut = false;
        while at < kept.len() {
            let end = (at + run).min(kept.len());
            let shorter = [&kept[..at], &kept[end..]].concat();
            if holds(&shorter) {
                kept = shorter;
                cut = true;
            } else {
                at = end;
            }
        }
        if run > 1 {
            run = run.div_ceil(2);
        } else if !cut {
            return kept;
        }
    }
}

/// Puts `0`, `auto`, `start` or `row` for words that can have it, one at a time.
pub fn words(script: &[String], mut holds: impl FnMut(&[String]) -> bool) -> Vec<String> {
    let mut kept = script.to_vec();
    for line in 0..kept.len() {
        let words: Vec<_> = kept[line].split(' ').map(str::to_string).collect();
        if !matches!(words[0].as_str(), "style" | "patch" | "table" | "solve" | "move") {
            continue;
        }
        let first = if words[0] == "style" || words[0] == "table" { 3 } else { 1 };
        for at in first..words.len() {
            for plain in ["auto", "start", "row", "0", "1", "65535"] {
                let mut words: Vec<_> = kept[line].split(' ').collect();
                if words[at] == plain {
                    break;
                }
                words[at] = plain;
                let mut simpler = kept.clone();
                simpler[line] = words.join(" ");
                if holds(&simpler) {
                    kept = simpler;
                    break;
                }
            }
        }
    }
    kept
}
