//! What a condition comes to, for an allow and for a deny, and what stands
//! behind and before it.

use super::super::make::{
    READ, WRITE, allow, asked_type, deny, of_entries, of_list, person, stranger,
};
use super::{ALLOW, DENY, a_is_1, asked_with, entry};
use crate::ace::INHERIT_ONLY;
use crate::cases::build::{EntryPlan, creator_sid, good_list};
use crate::cases::condition::make::{
    both, compared, exists, literal, name, negated, not, of_truth, stored, table,
};
use crate::cases::inherit::result;
use crate::cases::inherit::ways::bare;
use crate::computing::{Request, setting};
use crate::condition::{MOST_TOKENS, Truth, code};
use crate::records::Case;

const BOTH: u32 = READ | WRITE;

pub fn cases() -> Vec<Case> {
    let mut cases = pairs();
    cases.extend(triples());
    cases.extend(without_a_table());
    cases.extend(that_do_not_count());
    cases.extend(levels());
    cases.extend(beside_object_entries());
    cases.extend(on_computed_lists());
    cases.extend(many_tokens());
    cases
}

/// Allow and deny of each truth, and the entries without a condition.
fn each_entry(mask: u32) -> Vec<EntryPlan> {
    let conditional = Truth::ALL
        .into_iter()
        .flat_map(|truth| [ALLOW, DENY].map(|entry_type| entry(entry_type, mask, truth)));
    conditional.chain([allow(mask), deny(mask)]).collect()
}

/// Alone, and each behind each: the second would decide what the first leaves.
fn pairs() -> Vec<Case> {
    let mut cases = Vec::new();
    for first in each_entry(READ) {
        for wanted in [READ, BOTH, 0] {
            let question = of_entries(std::slice::from_ref(&first), wanted);
            cases.push(asked_with(question, a_is_1()));
        }
        for second in each_entry(BOTH) {
            for wanted in [READ, WRITE, BOTH] {
                let question = of_entries(&[first.clone(), second.clone()], wanted);
                cases.push(asked_with(question, a_is_1()));
            }
        }
    }
    cases
}

/// Two of a kind before a third that grants or denies all.
fn triples() -> Vec<Case> {
    let mut cases = Vec::new();
    for entry_types in [[ALLOW, ALLOW], [ALLOW, DENY], [DENY, ALLOW], [DENY, DENY]] {
        for first in Truth::ALL {
            for second in Truth::ALL {
                for third in [allow(BOTH), deny(BOTH)] {
                    let [first_type, second_type] = entry_types;
                    let plans = [
                        entry(first_type, READ, first),
                        entry(second_type, BOTH, second),
                        third,
                    ];
                    cases.push(asked_with(of_entries(&plans, BOTH), a_is_1()));
                }
            }
        }
    }
    cases
}

/// Asked by either call; names are missing then.
fn without_a_table() -> Vec<Case> {
    let mut cases = Vec::new();
    for truth in Truth::ALL {
        for entry_type in [ALLOW, DENY] {
            let plan = EntryPlan {
                expression: stored(of_truth(truth)),
                ..entry(entry_type, READ, truth)
            };
            for behind in [None, Some(allow(READ)), Some(deny(READ))] {
                let plans: Vec<EntryPlan> =
                    [Some(plan.clone()), behind].into_iter().flatten().collect();
                let question = of_entries(&plans, READ);
                cases.push(Case::MayOpen(question.clone()));
                cases.push(asked_with(question, Vec::new()));
            }
        }
    }
    cases
}

/// True, but IO, for a stranger or without the bit.
fn that_do_not_count() -> Vec<Case> {
    let mut cases = Vec::new();
    for entry_type in [ALLOW, DENY] {
        let plan = entry(entry_type, READ, Truth::True);
        let passed_over = [
            EntryPlan {
                flags: INHERIT_ONLY,
                ..plan.clone()
            },
            plan.clone().naming(stranger()),
            plan.clone().naming(creator_sid(0)),
            EntryPlan {
                mask: WRITE,
                ..plan
            },
        ];
        for passed in passed_over {
            for behind in [allow(READ), deny(READ)] {
                let plans = [passed.clone(), behind];
                cases.push(asked_with(of_entries(&plans, READ), a_is_1()));
            }
            let question = of_entries(&[passed], READ);
            cases.push(asked_with(question.clone(), a_is_1()));
            let holding = question.holding(&[creator_sid(0), person(), stranger()]);
            cases.push(asked_with(holding, a_is_1()));
        }
    }
    // All other flags are not looked at.
    for flags in 0..32 {
        let plan = EntryPlan {
            flags,
            ..entry(ALLOW, READ, Truth::True)
        };
        cases.push(asked_with(of_entries(&[plan], READ), a_is_1()));
    }
    cases
}

/// Crew of level 3 may read, those away are kept out: by many tables.
fn levels() -> Vec<Case> {
    let at_least_3 = stored(compared(name("level"), code::COMPARISONS[5], literal(3)));
    let away = stored(both(
        exists("away"),
        not(compared(name("away"), code::COMPARISONS[0], literal(0))),
    ));
    let plans = [
        EntryPlan {
            expression: away,
            ..entry(DENY, BOTH, Truth::True)
        },
        EntryPlan {
            expression: at_least_3,
            ..entry(ALLOW, READ, Truth::True)
        },
        allow(WRITE),
    ];
    let tables = [
        table(&[]),
        table(&[("level", 3)]),
        table(&[("level", 2)]),
        table(&[("level", -1), ("away", 0)]),
        table(&[("away", 0), ("level", 9)]),
        table(&[("away", 1), ("level", 9)]),
        table(&[("away", i64::MIN)]),
    ];
    let mut cases = Vec::new();
    for table in tables {
        for wanted in [READ, WRITE, BOTH] {
            cases.push(asked_with(of_entries(&plans, wanted), table.clone()));
        }
    }
    cases
}

/// Those of the asked type and of another, before and behind.
fn beside_object_entries() -> Vec<Case> {
    let mut cases = Vec::new();
    for truth in Truth::ALL {
        for entry_type in [ALLOW, DENY] {
            let conditional = entry(entry_type, READ, truth);
            for object_type in [5, 6] {
                let object = EntryPlan {
                    entry_type: object_type,
                    word: 1,
                    ..allow(READ)
                };
                for plans in [
                    [conditional.clone(), object.clone()],
                    [object.clone(), conditional.clone()],
                ] {
                    let question = of_entries(&plans, READ);
                    let other_type = question.clone().of_object_type([0xEE; 16]);
                    cases.push(asked_with(question, a_is_1()));
                    cases.push(asked_with(other_type, a_is_1()));
                }
            }
        }
    }
    cases
}

/// The owner by a placeholder; the condition is what it was above.
fn on_computed_lists() -> Vec<Case> {
    let mut cases = Vec::new();
    for truth in Truth::ALL {
        for entry_type in [ALLOW, DENY] {
            let conditional = EntryPlan {
                flags: 0x03,
                mask: 0x1000_0000,
                ..entry(entry_type, 0, truth).naming(creator_sid(0))
            };
            let behind = EntryPlan {
                flags: 0x03,
                ..allow(READ)
            };
            let request = Request {
                owner: person(),
                types: asked_type().to_vec(),
                ..bare().with_parent(good_list(&[conditional, behind]))
            };
            for kind in [0, setting::CONTAINER] {
                let list = result(&request.clone().with(kind));
                let question = of_list(list, READ);
                cases.push(asked_with(question.clone(), a_is_1()));
                cases.push(Case::MayOpen(question));
            }
        }
    }
    cases
}

/// A list of entries with 64 tokens each, of which the last is true.
fn many_tokens() -> Vec<Case> {
    let long = |truth: Truth| negated(of_truth(truth), MOST_TOKENS - 3);
    let mut plans = vec![
        EntryPlan {
            expression: stored(long(Truth::Unknown)),
            ..entry(ALLOW, READ, Truth::Unknown)
        };
        6
    ];
    plans.push(EntryPlan {
        expression: stored(long(Truth::False)),
        ..entry(ALLOW, READ, Truth::False)
    });
    vec![
        Case::MayOpen(of_entries(&plans, READ)),
        asked_with(of_entries(&plans, READ), a_is_1()),
    ]
}
