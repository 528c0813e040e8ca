//! Wrong recipes for a rule: each is the reference's with one part changed.

use reference::compile::{rule, Made, Marked, RuleRecipe, Workshop};
use reference::machine::{given, Machine};
use reference::syntax::{Rule, RuleKind};

pub type Named = (&'static str, RuleRecipe);

pub fn all() -> Vec<Named> {
    [wrong_meanings(), wrong_stages()].concat()
}

/// The recipes that make other cards; the meaning alone has to show it.
pub fn wrong_meanings() -> Vec<Named> {
    use RuleKind::{Forbids, Obliges, Restricts};
    vec![
        ("one mark where two are due", one_mark),
        ("sides of two contexts", mixed_contexts),
        ("complement before erasing", complement_first),
        ("contexts extended", extended),
        ("the last context left out", without_last_context),
        ("< read as >", |workshop, rule| read_as(workshop, rule, Forbids, Restricts)),
        ("< read as ^", |workshop, rule| read_as(workshop, rule, Forbids, Obliges)),
        ("^ read as >", |workshop, rule| read_as(workshop, rule, Obliges, Restricts)),
        ("^ without its complement", |workshop, rule| read_as(workshop, rule, Obliges, Forbids)),
        ("^ complemented at the end", complement_last),
        ("^ with its sides complemented", complemented_sides),
        ("sides of two contexts in < and ^", |workshop, rule| in_sisters(workshop, rule, mixed_contexts)),
        ("complement before erasing in < and ^", |workshop, rule| in_sisters(workshop, rule, complement_first)),
        ("contexts of < and ^ extended", |workshop, rule| in_sisters(workshop, rule, extended)),
        ("only the first context of < and ^", |workshop, rule| in_sisters(workshop, rule, first_context)),
        ("contexts of < and ^ met by &", |workshop, rule| in_sisters(workshop, rule, met)),
        ("contexts of < and ^ taken off", |workshop, rule| in_sisters(workshop, rule, taken_off)),
        ("an empty middle is no middle of <", |workshop, rule| without_empty_middle(workshop, rule, Forbids)),
        ("an empty middle is no middle of ^", |workshop, rule| without_empty_middle(workshop, rule, Obliges)),
    ]
}

/// The recipes that make the same cards with other stages. What `<` and `^`
/// erase is l p r once the marks are gone, so fewer marks make the same cards.
fn wrong_stages() -> Vec<Named> {
    vec![
        ("one mark in < and ^", |workshop, rule| in_sisters(workshop, rule, one_mark)),
        ("no mark in < and ^", |workshop, rule| in_sisters(workshop, rule, no_mark)),
        ("joined from the right", from_the_right),
        ("contexts united, one minus", one_minus),
        ("contexts before X", contexts_first),
        ("all sides before the joins", all_sides_first),
        ("joins before the right side", joins_before_right),
        ("< and ^ joined from the right", |workshop, rule| in_sisters(workshop, rule, from_the_right)),
        ("all sides of < and ^ before the joins", |workshop, rule| in_sisters(workshop, rule, all_sides_first)),
        ("joins of < and ^ before the right side", |workshop, rule| in_sisters(workshop, rule, joins_before_right)),
        ("sides of < and ^ before p", |workshop, rule| in_sisters(workshop, rule, sides_before_p)),
        ("sides of ^ before q", sides_before_q),
        ("q in no peak", q_not_counted),
        ("q by a written .*", q_by_written_all),
        ("contexts united from the right", |workshop, rule| in_sisters(workshop, rule, united_from_the_right)),
        ("contexts united behind the last one", |workshop, rule| in_sisters(workshop, rule, united_last)),
    ]
}

/// The recipe for `<` and `^` alone.
fn in_sisters(workshop: &mut Workshop, original: &Rule, recipe: RuleRecipe) -> Made {
    match original.kind {
        RuleKind::Restricts => rule(workshop, original),
        RuleKind::Forbids | RuleKind::Obliges => recipe(workshop, original),
    }
}

/// The recipe with other joins.
fn joining(workshop: &mut Workshop, rule: &Rule, joined: fn(&mut Workshop, [&Machine; 5]) -> Made) -> Made {
    let (all, mark) = (given::all_words(workshop.symbols), given::mark(workshop.symbols));
    let p = workshop.middles(rule)?;
    let mut marked = match rule.kind {
        RuleKind::Restricts => Some(joined(workshop, [&all, &mark, &p, &mark, &all])?),
        RuleKind::Forbids | RuleKind::Obliges => None,
    };
    for (left, right) in &rule.contexts {
        let (l, r) = (workshop.choice(left)?, workshop.choice(right)?);
        let fitting = joined(workshop, [&l, &mark, &p, &mark, &r])?;
        marked = workshop.with_context(rule.kind, marked, fitting)?;
    }
    workshop.excluding(marked)
}

fn one_mark(workshop: &mut Workshop, rule: &Rule) -> Made {
    joining(workshop, rule, |workshop, [l, mark, p, _, r]| workshop.joined(&[l, mark, p, r]))
}

fn no_mark(workshop: &mut Workshop, rule: &Rule) -> Made {
    joining(workshop, rule, |workshop, [l, _, p, _, r]| workshop.joined(&[l, p, r]))
}

fn from_the_right(workshop: &mut Workshop, rule: &Rule) -> Made {
    joining(workshop, rule, |workshop, parts| {
        let mut so_far = parts[4].clone();
        for part in parts[..4].iter().rev() {
            so_far = workshop.concatenation(part, &so_far)?;
        }
        Ok(so_far)
    })
}

fn extended(workshop: &mut Workshop, rule: &Rule) -> Made {
    let (all, mark) = (given::all_words(workshop.symbols), given::mark(workshop.symbols));
    let p = workshop.middles(rule)?;
    let mut marked = workshop.before_contexts(rule.kind, &p)?;
    for (left, right) in &rule.contexts {
        let (l, r) = (workshop.choice(left)?, workshop.choice(right)?);
        let fitting = workshop.joined(&[&all, &l, &mark, &p, &mark, &r, &all])?;
        marked = workshop.with_context(rule.kind, marked, fitting)?;
    }
    workshop.excluding(marked)
}

fn mixed_contexts(workshop: &mut Workshop, original: &Rule) -> Made {
    let mut mixed = original.clone();
    mixed.contexts.clear();
    for (left, _) in &original.contexts {
        for (_, right) in &original.contexts {
            mixed.contexts.push((left.clone(), right.clone()));
        }
    }
    rule(workshop, &mixed)
}

fn without_last_context(workshop: &mut Workshop, original: &Rule) -> Made {
    let mut shorter = original.clone();
    if shorter.contexts.len() > 3 {
        shorter.contexts.pop();
    }
    rule(workshop, &shorter)
}

fn first_context(workshop: &mut Workshop, original: &Rule) -> Made {
    rule(workshop, &Rule { contexts: original.contexts[..1].to_vec(), ..original.clone() })
}

fn read_as(workshop: &mut Workshop, original: &Rule, from: RuleKind, to: RuleKind) -> Made {
    let kind = if original.kind == from { to } else { original.kind };
    rule(workshop, &Rule { kind, ..original.clone() })
}

/// A context's l M p M r.
fn fitting(workshop: &mut Workshop, p: &Machine, (l, r): &(Machine, Machine)) -> Made {
    let mark = given::mark(workshop.symbols);
    workshop.joined(&[l, &mark, p, &mark, r])
}

/// The two sides of each context.
fn all_sides(workshop: &mut Workshop, rule: &Rule) -> Result<Vec<(Machine, Machine)>, u8> {
    rule.contexts.iter().map(|(left, right)| Ok((workshop.choice(left)?, workshop.choice(right)?))).collect()
}

/// Each context's l M p M r in turn.
fn all_fitting(workshop: &mut Workshop, rule: &Rule, p: &Machine) -> Result<Vec<Machine>, u8> {
    let mut found = Vec::new();
    for (left, right) in &rule.contexts {
        let sides = (workshop.choice(left)?, workshop.choice(right)?);
        found.push(fitting(workshop, p, &sides)?);
    }
    Ok(found)
}

/// Those so far with each of the rest.
fn all_taken(workshop: &mut Workshop, rule: &Rule, so_far: Option<Machine>, rest: Vec<Machine>) -> Made {
    let mut marked = so_far;
    for fitting in rest {
        marked = workshop.with_context(rule.kind, marked, fitting)?;
    }
    workshop.excluding(marked)
}

/// Those so far with each context in turn, as the kind wants it.
fn in_turn(workshop: &mut Workshop, rule: &Rule, p: &Machine, so_far: Option<Machine>) -> Marked {
    in_turn_by(workshop, rule, p, so_far, |workshop, so_far, fitting| workshop.with_context(rule.kind, so_far, fitting))
}

/// The same by another way to take a context.
fn in_turn_by(
    workshop: &mut Workshop,
    rule: &Rule,
    p: &Machine,
    mut marked: Option<Machine>,
    taken: impl Fn(&mut Workshop, Option<Machine>, Machine) -> Marked,
) -> Marked {
    for (left, right) in &rule.contexts {
        let sides = (workshop.choice(left)?, workshop.choice(right)?);
        let fitting = fitting(workshop, p, &sides)?;
        marked = taken(workshop, marked, fitting)?;
    }
    Ok(marked)
}

fn complement_first(workshop: &mut Workshop, rule: &Rule) -> Made {
    let (all, mark) = (given::all_words(workshop.symbols), given::mark(workshop.symbols));
    let p = workshop.middles(rule)?;
    let so_far = workshop.before_contexts(rule.kind, &p)?;
    let x = in_turn(workshop, rule, &p, so_far)?;
    let marked = workshop.joined(&[&all, &mark, &all, &mark, &all])?;
    let rest = workshop.difference(&marked, &x.expect("something marked"))?;
    workshop.erase(&rest)
}

/// `^` with p for q, and what comes of it complemented.
fn complement_last(workshop: &mut Workshop, original: &Rule) -> Made {
    let allowed = read_as(workshop, original, RuleKind::Obliges, RuleKind::Forbids)?;
    match original.kind {
        RuleKind::Obliges => workshop.difference(&given::all_words(workshop.symbols), &allowed),
        _ => Ok(allowed),
    }
}

/// `^` with `.*-l` for l and `.*-r` for r.
fn complemented_sides(workshop: &mut Workshop, rule: &Rule) -> Made {
    let all = given::all_words(workshop.symbols);
    let p = workshop.middles(rule)?;
    let mut marked = workshop.before_contexts(rule.kind, &p)?;
    for (left, right) in &rule.contexts {
        let (mut l, mut r) = (workshop.choice(left)?, workshop.choice(right)?);
        if rule.kind == RuleKind::Obliges {
            l = workshop.difference(&all, &l)?;
            r = workshop.difference(&all, &r)?;
        }
        let fitting = fitting(workshop, &p, &(l, r))?;
        marked = workshop.with_context(rule.kind, marked, fitting)?;
    }
    workshop.excluding(marked)
}

fn met(workshop: &mut Workshop, rule: &Rule) -> Made {
    paired(workshop, rule, Workshop::intersection)
}

fn taken_off(workshop: &mut Workshop, rule: &Rule) -> Made {
    paired(workshop, rule, Workshop::difference)
}

/// Another pair stage in place of `|`.
fn paired(workshop: &mut Workshop, rule: &Rule, pair: fn(&mut Workshop, &Machine, &Machine) -> Made) -> Made {
    let p = workshop.middles(rule)?;
    let marked = in_turn_by(workshop, rule, &p, None, |workshop, so_far, fitting| match so_far {
        None => Ok(Some(fitting)),
        Some(so_far) => pair(workshop, &so_far, &fitting).map(Some),
    })?;
    workshop.excluding(marked)
}

/// A kind's middles less `@`.
fn without_empty_middle(workshop: &mut Workshop, original: &Rule, kind: RuleKind) -> Made {
    if original.kind != kind {
        return rule(workshop, original);
    }
    let middles = workshop.middles(original)?;
    let p = workshop.difference(&middles, &given::empty_word(workshop.symbols))?;
    let marked = in_turn(workshop, original, &p, None)?;
    workshop.excluding(marked)
}

fn one_minus(workshop: &mut Workshop, original: &Rule) -> Made {
    if original.kind != RuleKind::Restricts {
        return rule(workshop, original);
    }
    let p = workshop.middles(original)?;
    let so_far = workshop.before_contexts(original.kind, &p)?;
    let united = in_turn_by(workshop, original, &p, None, |workshop, so_far, fitting| {
        workshop.with_context(RuleKind::Forbids, so_far, fitting)
    })?;
    all_taken(workshop, original, so_far, united.into_iter().collect())
}

fn contexts_first(workshop: &mut Workshop, original: &Rule) -> Made {
    if original.kind != RuleKind::Restricts {
        return rule(workshop, original);
    }
    let p = workshop.middles(original)?;
    let rest = all_fitting(workshop, original, &p)?;
    let so_far = workshop.before_contexts(original.kind, &p)?;
    all_taken(workshop, original, so_far, rest)
}

fn all_sides_first(workshop: &mut Workshop, rule: &Rule) -> Made {
    let p = workshop.middles(rule)?;
    let mut marked = workshop.before_contexts(rule.kind, &p)?;
    for sides in all_sides(workshop, rule)? {
        let fitting = fitting(workshop, &p, &sides)?;
        marked = workshop.with_context(rule.kind, marked, fitting)?;
    }
    workshop.excluding(marked)
}

fn joins_before_right(workshop: &mut Workshop, rule: &Rule) -> Made {
    let mark = given::mark(workshop.symbols);
    let p = workshop.middles(rule)?;
    let mut marked = workshop.before_contexts(rule.kind, &p)?;
    for (left, right) in &rule.contexts {
        let l = workshop.choice(left)?;
        let begun = workshop.joined(&[&l, &mark, &p, &mark])?;
        let r = workshop.choice(right)?;
        let fitting = workshop.concatenation(&begun, &r)?;
        marked = workshop.with_context(rule.kind, marked, fitting)?;
    }
    workshop.excluding(marked)
}

fn sides_before_p(workshop: &mut Workshop, original: &Rule) -> Made {
    all_sides(workshop, original)?;
    rule(workshop, original)
}

fn sides_before_q(workshop: &mut Workshop, original: &Rule) -> Made {
    if original.kind == RuleKind::Obliges {
        workshop.choice(&original.pattern)?;
        all_sides(workshop, original)?;
    }
    rule(workshop, original)
}

fn q_not_counted(workshop: &mut Workshop, rule: &Rule) -> Made {
    let p = workshop.middles(rule)?;
    if rule.kind == RuleKind::Obliges {
        workshop.stages.pop();
    }
    let so_far = workshop.before_contexts(rule.kind, &p)?;
    let marked = in_turn(workshop, rule, &p, so_far)?;
    workshop.excluding(marked)
}

fn q_by_written_all(workshop: &mut Workshop, original: &Rule) -> Made {
    if original.kind == RuleKind::Obliges {
        workshop.star(&given::any_letter(workshop.symbols))?;
    }
    rule(workshop, original)
}

/// The last two contexts are united first.
fn united_from_the_right(workshop: &mut Workshop, rule: &Rule) -> Made {
    let p = workshop.middles(rule)?;
    let mut rest = all_fitting(workshop, rule, &p)?.into_iter().rev();
    let mut so_far = rest.next().expect("a context");
    for fitting in rest {
        so_far = workshop.union(&fitting, &so_far)?;
    }
    workshop.excluding(Some(so_far))
}

/// Every context's joins come before the first `|`.
fn united_last(workshop: &mut Workshop, rule: &Rule) -> Made {
    let p = workshop.middles(rule)?;
    let rest = all_fitting(workshop, rule, &p)?;
    all_taken(workshop, rule, None, rest)
}
