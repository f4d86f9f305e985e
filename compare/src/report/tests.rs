use super::*;
use crate::floors::{
    ACCESS, COMPUTE, CONDITION, DEEP, LIST, ORDER, PROGRAM, SCRIPT, SIDEBYSIDE, TREE, WORDING,
};

static ALL: [&Floors; 11] = [
    &LIST,
    &COMPUTE,
    &TREE,
    &DEEP,
    &ORDER,
    &SCRIPT,
    &PROGRAM,
    &ACCESS,
    &CONDITION,
    &WORDING,
    &SIDEBYSIDE,
];

fn of_cases(floors: &'static Floors, cases: usize) -> Report {
    let mut report = Report::new("tried", floors);
    for _ in 0..cases {
        report.add_case(None);
    }
    report
}

/// Everything came just as often as is asked for.
fn at_the_floors(floors: &'static Floors) -> Report {
    let mut report = of_cases(floors, floors.cases);
    for (what, floor) in floors.counts() {
        report.count(what, floor, "times");
    }
    for &(what, floor) in floors.greatest {
        report.reach(what, floor);
    }
    report
}

fn asked(floors: &'static Floors) -> impl Iterator<Item = Counted> {
    let asked = floors.counts().filter(|&(_, floor)| floor > 0);
    asked.map(|(what, _)| what)
}

#[test]
fn what_meets_its_floors_passes() {
    for floors in ALL {
        assert_eq!(at_the_floors(floors).shortfalls(), [""; 0]);
    }
}

#[test]
fn whatever_never_came_fails() {
    for floors in ALL {
        for what in asked(floors) {
            let mut report = at_the_floors(floors);
            report.counts.remove(&what);
            let lines = report.shortfalls();
            assert_eq!(lines.len(), 1, "{what:?}");
            let begin = format!("too seldom: {} came 0 times, ", named(what));
            assert!(lines[0].starts_with(&begin), "{}", lines[0]);
            assert!(report.text().contains(&begin));
        }
    }
}

#[test]
fn one_less_than_its_floor_fails() {
    for floors in ALL {
        for what in asked(floors) {
            let mut report = at_the_floors(floors);
            report.counts.get_mut(&what).unwrap().times -= 1;
            assert_eq!(report.shortfalls().len(), 1, "{what:?}");
        }
    }
}

/// But for trees that are built to their limits and refuse what others refuse.
#[test]
fn every_number_in_a_table_is_asked_for() {
    for floors in [
        &LIST,
        &COMPUTE,
        &TREE,
        &ORDER,
        &SCRIPT,
        &PROGRAM,
        &ACCESS,
        &CONDITION,
        &WORDING,
        &SIDEBYSIDE,
    ] {
        assert_eq!(asked(floors).count(), floors.counts().count());
    }
}

#[test]
fn a_number_that_the_call_cannot_give_fails() {
    let mut report = at_the_floors(&TREE);
    report.add_call("set mark", 6);
    let line = "not in the table: set mark 6 came 1 times in 10000 cases";
    assert_eq!(report.shortfalls(), [line]);
    let mut few = of_cases(&TREE, 1);
    few.add_call("set mark", 6);
    assert_eq!(few.shortfalls().len(), 1);
}

#[test]
fn a_limit_that_was_not_reached_fails() {
    let mut report = at_the_floors(&DEEP);
    report.greatest.insert("greatest depth", 63);
    let line = "not reached: greatest depth is 63, 64 is asked for";
    assert_eq!(report.shortfalls(), [line]);
}

#[test]
fn floors_follow_the_number_of_cases() {
    let mut report = of_cases(&SCRIPT, 2 * SCRIPT.cases);
    for (what, floor) in SCRIPT.counts() {
        report.count(what, 2 * floor, "times");
    }
    assert_eq!(report.shortfalls(), [""; 0]);
    report.counts.get_mut(&("listing", None)).unwrap().times -= 1;
    assert_eq!(report.shortfalls().len(), 1);
}

#[test]
fn few_cases_are_asked_for_nothing_and_that_is_told() {
    let report = of_cases(&LIST, LIST.least_cases - 1);
    assert_eq!(report.shortfalls(), [""; 0]);
    let line = "floors are not asked for under 50000 cases\n";
    assert!(report.text().contains(line));
    let enough = of_cases(&LIST, LIST.least_cases);
    assert!(!enough.shortfalls().is_empty());
}

#[test]
fn what_a_machine_cannot_have_is_told_and_not_asked_for() {
    let name = "writes to a full terminal that came back short";
    let mut report = at_the_floors(&PROGRAM);
    report.counts.remove(&(name, None));
    assert_eq!(report.shortfalls().len(), 1);
    report.not_asked_here(name, "there is none");
    assert_eq!(report.shortfalls(), [""; 0]);
    assert!(report.text().contains("not asked for here: "));
}
