//! How often a tree's lists hang on what rule 2 mends: they are worked out
//! again with another mapping.

use crate::deep::lists_in_turn;
use crate::mended::{self, has_full_control, other_where_it_brings_in};
use crate::report::Report;
use second::tree::{Calls, Object, Settings, Tree};

type Lists = Vec<Option<Vec<u8>>>;

pub fn count(report: &mut Report, tree: &Tree) {
    let (settings, objects) = (tree.settings(), tree.objects());
    let lists = mapped(settings, &objects, settings.mapping);
    if settings.rule != mended::RULE {
        if lists.iter().flatten().any(|list| has_full_control(list)) {
            report.add_times("by rule 1, 10000000 stays", 1);
        }
        return;
    }
    let [read, write, execute, _] = settings.mapping;
    let without = mapped(settings, &objects, [read, write, execute, 0]);
    let brought_in = settings.mapping.map(other_where_it_brings_in);
    let others = mapped(settings, &objects, brought_in);
    let found = [
        ("by rule 2, 10000000 decides", lists != without),
        (
            "by rule 2, 10000000 decides below the root",
            lists.iter().skip(1).ne(without.iter().skip(1)),
        ),
        ("by rule 2, a generic bit brought in", lists != others),
    ];
    for (what, _) in found.into_iter().filter(|&(_, yes)| yes) {
        report.add_times(what, 1);
    }
}

/// Masks make no list longer.
fn mapped(settings: &Settings, objects: &[Object], mapping: [u32; 4]) -> Lists {
    let settings = Settings {
        mapping,
        ..settings.clone()
    };
    lists_in_turn(&settings, objects).expect("the tree stands")
}
