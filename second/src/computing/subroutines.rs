//! The subroutines of MS-DTYP 2.5.3.4, as documents 01 and 02 change them.
//! Each takes entries and gives entries; bytes come later.

use super::inputs::{Inputs, Mapping, Rule};
use crate::ace::{
    Ace, CONTAINER_INHERIT, GENERIC, INHERIT_ONLY, INHERITED, NO_PROPAGATE, OBJECT_INHERIT,
};
use crate::identity::{Identity, Role};
use crate::list::Guid;

const GENERIC_READ: u32 = 0x8000_0000;
const GENERIC_WRITE: u32 = 0x4000_0000;
const GENERIC_EXECUTE: u32 = 0x2000_0000;
const GENERIC_ALL: u32 = 0x1000_0000;
const DACL_AUTO_INHERITED: u32 = 0x0400;

/// The rows of document 01's table.
#[derive(Clone, Copy, Debug, PartialEq, Eq, PartialOrd, Ord)]
pub enum Branch {
    ParentAlone,
    CreatorByRule1,
    CreatorByRule2,
    DefaultList,
    OwnEntries,
}

impl Branch {
    pub const ALL: [Branch; 5] = [
        Branch::ParentAlone,
        Branch::CreatorByRule1,
        Branch::CreatorByRule2,
        Branch::DefaultList,
        Branch::OwnEntries,
    ];

    pub fn name(self) -> &'static str {
        match self {
            Branch::ParentAlone => "row 1, from the parent",
            Branch::CreatorByRule1 => "row 2, creator by rule 1",
            Branch::CreatorByRule2 => "row 3, creator by rule 2",
            Branch::DefaultList => "row 4, the default list",
            Branch::OwnEntries => "row 5, own entries",
        }
    }

    fn of(inputs: &Inputs) -> Branch {
        let parent = inputs.parent.as_deref().unwrap_or_default();
        let creator_counts = inputs.creator.is_some() && !inputs.default_descriptor;
        if contains_inheritable_aces(parent) {
            match (creator_counts, inputs.rule) {
                (false, _) => Branch::ParentAlone,
                (true, Rule::One) => Branch::CreatorByRule1,
                (true, Rule::Two) => Branch::CreatorByRule2,
            }
        } else if inputs.creator.is_none() {
            Branch::DefaultList
        } else {
            Branch::OwnEntries
        }
    }
}

pub struct Computed {
    pub branch: Branch,
    pub acl: Option<Vec<Ace>>,
    pub control: u32,
}

#[derive(Clone, Copy, PartialEq, Eq)]
enum CopyFilter {
    AllAces,
    InheritedAces,
}

/// ComputeACL: the branches.
pub fn compute_acl(inputs: &Inputs) -> Computed {
    let branch = Branch::of(inputs);
    let inherits_automatically = inputs.auto_inherit && !inputs.protected;
    let own_entries = || inputs.creator.as_deref().map(pre_process_acl_from_creator);
    let (before, filter, control) = match branch {
        Branch::ParentAlone => (Some(parent_part(inputs)), CopyFilter::InheritedAces, 0),
        Branch::CreatorByRule1 | Branch::CreatorByRule2 => {
            let own = own_entries().unwrap_or_default();
            let (mut acl, filter) = match inputs.rule {
                Rule::One => (creator_part(&own, inputs), CopyFilter::InheritedAces),
                Rule::Two => (own, CopyFilter::AllAces),
            };
            let mut control = 0;
            if inherits_automatically {
                acl.extend(parent_part(inputs));
                control = DACL_AUTO_INHERITED;
            }
            (Some(acl), filter, control)
        }
        Branch::DefaultList => (inputs.default_list.clone(), CopyFilter::AllAces, 0),
        Branch::OwnEntries => (own_entries(), CopyFilter::AllAces, 0),
    };
    Computed {
        branch,
        acl: before.map(|acl| post_process_acl(acl, filter, inputs)),
        control,
    }
}

fn parent_part(inputs: &Inputs) -> Vec<Ace> {
    let parent = inputs.parent.as_deref().unwrap_or_default();
    compute_inherited_acl_from_parent(parent, inputs.is_container, &inputs.object_types)
}

fn creator_part(own: &[Ace], inputs: &Inputs) -> Vec<Ace> {
    compute_inherited_acl_from_creator(own, inputs.is_container, &inputs.object_types)
}

fn contains_inheritable_aces(acl: &[Ace]) -> bool {
    acl.iter().any(Ace::is_inheritable)
}

/// IO entries are treated like any other, even if the published page passes
/// over them.
fn compute_inherited_acl_from_parent(
    acl: &[Ace],
    is_container: bool,
    object_types: &[Guid],
) -> Vec<Ace> {
    let mut inherited: Vec<Ace> = applying(acl, is_container, object_types)
        .map(|ace| ace.with_flags(INHERITED))
        .collect();
    if is_container {
        let propagating = acl
            .iter()
            .filter(|ace| ace.is_inheritable() && !ace.has(NO_PROPAGATE));
        inherited
            .extend(propagating.map(|ace| ace.with_flags(ace.flags | INHERITED | INHERIT_ONLY)));
    }
    inherited
}

/// Copies get no INHERITED, and NP isn't looked at.
fn compute_inherited_acl_from_creator(
    acl: &[Ace],
    is_container: bool,
    object_types: &[Guid],
) -> Vec<Ace> {
    let mut explicit: Vec<Ace> = applying(acl, is_container, object_types)
        .map(|ace| ace.with_flags(0))
        .collect();
    if is_container {
        let inheritable = acl.iter().filter(|ace| ace.is_inheritable());
        explicit.extend(inheritable.map(|ace| ace.with_flags(ace.flags | INHERIT_ONLY)));
    }
    explicit
}

/// The entries that the new object itself is to have: a container those
/// with CI, another object those with OI; object entries by their ObjectType.
fn applying<'a>(
    acl: &'a [Ace],
    is_container: bool,
    object_types: &'a [Guid],
) -> impl Iterator<Item = &'a Ace> {
    let wanted = if is_container {
        CONTAINER_INHERIT
    } else {
        OBJECT_INHERIT
    };
    let names_the_object = move |ace: &Ace| match ace.object_type {
        _ if !ace.entry_type.is_object() => true,
        Some(guid) => object_types.contains(&guid),
        None => false,
    };
    acl.iter()
        .filter(move |ace| ace.has(wanted) && names_the_object(ace))
}

/// The own entries: those of the creator that aren't inherited ones.
fn pre_process_acl_from_creator(acl: &[Ace]) -> Vec<Ace> {
    let own = acl.iter().filter(|ace| !ace.has(INHERITED));
    own.cloned().collect()
}

/// The last step.
fn post_process_acl(acl: Vec<Ace>, filter: CopyFilter, inputs: &Inputs) -> Vec<Ace> {
    acl.into_iter()
        .filter(|ace| filter == CopyFilter::AllAces || ace.has(INHERITED))
        .map(|ace| Ace {
            mask: map_generic_bits(ace.mask, inputs.rule, &inputs.mapping),
            sid: substitute(ace.sid, &inputs.owner, &inputs.group),
            ..ace
        })
        .collect()
}

fn substitute(sid: Identity, owner: &Identity, group: &Identity) -> Identity {
    match sid.role() {
        Role::CreatorOwner => owner.clone(),
        Role::CreatorGroup => group.clone(),
        Role::Ordinary => sid,
    }
}

fn map_generic_bits(mask: u32, rule: Rule, mapping: &Mapping) -> u32 {
    if rule.mends() {
        mended(mask, mapping)
    } else {
        as_printed(mask, mapping)
    }
}

/// The generic bits stay, and 10000000 adds nothing.
fn as_printed(mask: u32, mapping: &Mapping) -> u32 {
    let additions = [
        (GENERIC_READ, mapping.read),
        (GENERIC_WRITE, mapping.write),
        (GENERIC_EXECUTE, mapping.execute),
    ];
    joined(mask, &additions)
}

/// 10000000 joins "all" too. Then the four generic bits are cleared, also
/// those that a mapping brought in.
fn mended(mask: u32, mapping: &Mapping) -> u32 {
    let additions = [
        (GENERIC_READ, mapping.read),
        (GENERIC_WRITE, mapping.write),
        (GENERIC_EXECUTE, mapping.execute),
        (GENERIC_ALL, mapping.all),
    ];
    joined(mask, &additions) & !GENERIC
}

/// The mask as it came decides.
fn joined(mask: u32, additions: &[(u32, u32)]) -> u32 {
    let asked_for = additions.iter().filter(|(bit, _)| mask & bit != 0);
    asked_for.fold(mask, |new, (_, addition)| new | addition)
}
