//! Short stories that scripts are made of. Each leads the tree into a corner where a small fault in
//! a desk shows; a story that does not suit the tree of the moment writes little or nothing.

mod answers;
mod boxes;
mod fields;
mod labels;
mod marks;
mod pointer;
mod starts;
mod states;
mod tree;

use crate::author::{Author, id};

type Story = fn(&mut Author);

/// The stories with how often each is told.
const STORIES: [(usize, Story); 45] = [
    (12, tree::grow_tree),
    (7, tree::restyle),
    (8, tree::pass),
    (8, tree::tidy),
    (6, tree::remove_some),
    (2, tree::deep_chain),
    (2, starts::anew),
    (2, starts::refused),
    (6, starts::corner),
    (10, pointer::wander),
    (10, pointer::click_some),
    (10, pointer::reuse_under_press),
    (6, pointer::reuse_under_focus),
    (6, pointer::press_around_insert),
    (4, pointer::overflow),
    (6, fields::panel_of_fields),
    (4, fields::nine_fields),
    (8, fields::type_some),
    (7, fields::fill_field),
    (7, fields::read_metres),
    (3, fields::clear_with_spaces),
    (8, marks::touch_confirmed),
    (3, marks::full_and_confirmed),
    (4, marks::unconfirmed),
    (7, marks::next_ship),
    (4, marks::taken_again),
    (2, marks::across_a_start),
    (9, states::wear),
    (7, states::swap_pool),
    (5, states::moved_under_pointer),
    (7, boxes::share_growth),
    (7, boxes::stop_sums),
    (4, boxes::overlap),
    (5, boxes::gaps),
    (6, boxes::centre),
    (9, labels::notice),
    (3, labels::blanks),
    (4, labels::bounds),
    (4, labels::ill_formed),
    (2, labels::across_a_start),
    (2, labels::pieces),
    (4, answers::refusals),
    (3, answers::measure),
    (12, answers::reads),
    (3, answers::malformed),
];

pub fn tell(author: &mut Author) {
    let story = author.rng.weighted(&STORIES);
    story(author);
}

/// The start of a script: events before the first tree, the tree, events before the first pass.
pub fn opening(author: &mut Author) {
    if author.rng.chance(6) {
        return tree::crowd(author);
    }
    if author.rng.chance(15) {
        pointer::early_events(author);
    }
    starts::new_tree(author);
    if author.rng.chance(30) {
        pointer::early_events(author);
    }
    tree::grow_tree(author);
    tree::tidy(author);
}

/// The end: everything that an answer can show is read. At times a line that is too long ends the run.
pub fn closing(author: &mut Author) {
    for line in last_reads(author) {
        author.call(line);
    }
    if author.rng.chance(9) {
        let word = author.rng.pick(&["#", "new 1 ", "x"]);
        author.end_with([word.repeat(1_025).split_at(1_025).0.to_string(), "new 1".to_string()]);
    }
}

/// The reads that end a script.
pub fn last_reads(author: &Author) -> Vec<String> {
    let mut lines = Vec::new();
    for node in author.live().into_iter().take(30) {
        lines.extend(["rect", "first", "next"].map(|word| format!("{word} {}", id(node))));
        if author.ui().field_text(node).is_some() {
            let words = ["text", "cursor", "metres", "ramp", "office"];
            lines.extend(words.map(|word| format!("{word} {}", id(node))));
        }
    }
    lines.extend(author.given().into_iter().take(20).map(|node| format!("live {}", id(node))));
    lines.extend(
        ["focus", "pressed", "absorb cbf29ce484222325", "output", "output", "output"].map(str::to_string),
    );
    lines
}
