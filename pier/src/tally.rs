//! How many replies of each kind there were, and the first refused plan in words.

use crate::reply::{ALLOWED, HOPELESS, NONE, REFUSED, STRETCH, UNFINISHED};
use crate::words::count;
use crate::{card, refusal, Status};

/// A kind of reply, refusals apart.
#[derive(Clone, Copy, PartialEq, Eq, Debug)]
pub enum Kind {
    Allowed,
    Unfinished,
    Hopeless,
    None,
    Stretch,
}

impl Kind {
    const NUMBER: usize = Kind::Stretch as usize + 1;

    fn word(self) -> &'static str {
        match self {
            Kind::Allowed => ALLOWED,
            Kind::Unfinished => UNFINISHED,
            Kind::Hopeless => HOPELESS,
            Kind::None => NONE,
            Kind::Stretch => STRETCH,
        }
    }
}

#[derive(Debug)]
pub struct Tally {
    kinds: &'static [Kind],
    counts: [usize; Kind::NUMBER],
    plans: usize,
    refused: usize,
    first: String,
    /// Has the card no letters?
    without_letters: bool,
}

impl Tally {
    /// From so many plans on the replies are counted in a last line.
    const MANY: usize = 10;

    /// For a card's replies of these kinds, the one without fault first.
    pub fn of(kinds: &'static [Kind], card: &[u8]) -> Tally {
        let without_letters = card::is_without_letters(card);
        Tally { kinds, counts: [0; Kind::NUMBER], plans: 0, refused: 0, first: String::new(), without_letters }
    }

    #[inline]
    pub fn note(&mut self, kind: Kind) {
        self.plans += 1;
        self.counts[kind as usize] += 1;
    }

    /// A letter that is not on the card; the plan is asked for where it must be
    /// told in words.
    pub fn note_foreign<'a>(&mut self, before: u64, plan: impl FnOnce() -> &'a [u8]) {
        self.refuse(|| foreign(plan(), before as usize));
    }

    pub fn note_refused(&mut self, number: u64) {
        self.refuse(|| refusal::of(number).when.into());
    }

    fn refuse(&mut self, what: impl FnOnce() -> String) {
        self.plans += 1;
        self.refused += 1;
        if self.refused == 1 {
            self.first = format!("the first is plan {}: {}", self.plans, what());
        }
    }

    /// Refused where a plan was, or, if that is asked for, where a plan has a fault.
    pub fn status(&self, strict: bool) -> Status {
        let faults = self.plans - self.counts[self.kinds[0] as usize];
        match if strict { faults } else { self.refused } {
            0 => Status::Fine,
            _ => Status::Refused,
        }
    }

    /// The refused plans, and where there are many plans the count of replies.
    pub fn message(&self) -> String {
        let plans = count(self.plans, "plan");
        let only = match self.without_letters {
            true => "; the card has no letters: only the empty plan can be judged",
            false => "",
        };
        let mut text = match self.refused {
            0 => String::new(),
            refused => format!("pier: {refused} of {plans} refused; {}{only}\n", self.first),
        };
        if self.plans >= Self::MANY {
            let kind = |kind: &Kind| format!("{} {}, ", self.counts[*kind as usize], kind.word());
            let kinds: String = self.kinds.iter().map(kind).collect();
            text += &format!("{plans}: {kinds}{} {REFUSED}\n", self.refused);
        }
        text
    }
}

/// The byte that is not on the card, in words.
fn foreign(plan: &[u8], before: usize) -> String {
    let place = if before == 0 { "at the beginning".into() } else { format!("after {}", count(before, "letter")) };
    match plan.get(before) {
        Some(b'\r') => format!("byte 0x0D {place}: the file has the line ends of Windows"),
        Some(b' ') => format!("a space {place}: a plan has letters only"),
        Some(b'\t') => format!("a tab {place}: a plan has letters only"),
        Some(0xEF) if plan[before..].starts_with(b"\xEF\xBB\xBF") => {
            format!("a byte-order mark {place}: save the plans without it")
        }
        Some(&byte @ 0x21..=0x7E) => format!("{} {place} is not on the card", byte as char),
        Some(byte) => format!("byte 0x{byte:02X} {place} is not on the card"),
        None => place,
    }
}

#[cfg(test)]
mod tests {
    use super::*;

    #[test]
    fn replies_are_counted_and_the_first_refused_plan_is_told() {
        let mut tally = Tally::of(&[Kind::Allowed, Kind::Unfinished, Kind::Hopeless], &card::FIRST_CARD);
        tally.note(Kind::Allowed);
        assert_eq!(tally.status(true), Status::Fine);
        tally.note_foreign(2, || b"ab\r");
        tally.note_foreign(0, || unreachable!());
        assert!(tally.message().starts_with("pier: 2 of 3 plans refused; the first is plan 2"));
        assert!(tally.message().contains("Windows") && tally.message().lines().count() == 1);
        for _ in 0..7 {
            tally.note(Kind::Hopeless);
        }
        assert_eq!(tally.message().lines().last(), Some("10 plans: 1 allowed, 0 unfinished, 7 hopeless, 2 refused"));
        assert_eq!(tally.status(false), Status::Refused);
    }

    #[test]
    fn a_letter_on_a_card_without_letters_is_told() {
        let mut tally = Tally::of(&[Kind::Allowed], &card::without_letters(card::PLAN_MAY_END));
        tally.note(Kind::Allowed);
        assert_eq!(tally.message(), "");
        tally.note_foreign(0, || b"ab");
        assert_eq!(
            tally.message(),
            "pier: 1 of 2 plans refused; the first is plan 2: a at the beginning is not on the card; \
             the card has no letters: only the empty plan can be judged\n"
        );
    }

    #[test]
    fn a_fault_is_a_refusal_only_where_that_is_asked_for() {
        let mut tally = Tally::of(&[Kind::None, Kind::Stretch], &card::FIRST_CARD);
        for _ in 0..5 {
            tally.note(Kind::None);
            tally.note(Kind::Stretch);
        }
        assert_eq!(tally.message(), "10 plans: 5 none, 5 stretch, 0 refused\n");
        assert_eq!((tally.status(false), tally.status(true)), (Status::Fine, Status::Refused));
        tally.note_refused(21);
        assert_eq!(tally.status(false), Status::Refused);
    }
}
