//! Counts what a run met, so that a refusal or a tie that a generator misses shows.

use crate::credited::{Credited, InForce, Lookup, LOOKUPS, SHAPES};
use crate::joins::Joins;
use crate::oracle::Account;
use crate::packings::Packings;
use crate::records::*;
use crate::supplemental::Supplemental;
use std::cmp::Ordering;
use std::collections::{BTreeMap, BTreeSet};
use std::fmt;

/// What a log can be refused for, number and list. 17 cannot be met: after 16 no sum passes its bound. 18 is for a buffer.
pub(crate) const OF_LOGS: [(u64, u64); 24] = [
    (1, NO_LIST),
    (2, NO_LIST),
    (3, NO_LIST),
    (4, NO_LIST),
    (5, NO_LIST),
    (6, STATES),
    (6, STANDARDS),
    (6, UNITS),
    (7, STATES),
    (7, STANDARDS),
    (7, UNITS),
    (8, STATES),
    (9, STATES),
    (9, STANDARDS),
    (9, UNITS),
    (10, STATES),
    (11, NO_LIST),
    (12, STANDARDS),
    (13, STANDARDS),
    (14, UNITS),
    (15, UNITS),
    (16, NO_LIST),
    (19, STANDARDS),
    (19, UNITS),
];

/// Refused to a module that the tool does not have.
const STRAY: (u64, u64) = (7, NO_LIST);

/// How many remainders may be equal.
const TIED: [usize; 4] = [2, 3, 4, 5];

/// So many equal remainders, and how many of them may get one where the others get none.
fn ties(tied: usize) -> impl Iterator<Item = (usize, usize)> {
    (1..tied).map(move |getting| (tied, getting))
}

/// The names of what was counted never.
pub(crate) fn missed(names: &[&str], counts: &[u64]) -> Vec<String> {
    let counted = names.iter().zip(counts);
    let never = counted.filter(|(_, count)| **count == 0);
    never.map(|(name, _)| name.to_string()).collect()
}

/// How many were accepted, and how many refused by number and list.
#[derive(Default)]
pub struct Verdicts {
    accepted: u64,
    refused: BTreeMap<(u64, u64), u64>,
}

impl Verdicts {
    pub fn count<T>(&mut self, verdict: &Result<T, Refusal>) {
        match verdict {
            Ok(_) => self.accepted += 1,
            Err(refusal) => {
                *self
                    .refused
                    .entry((refusal.number, refusal.list))
                    .or_default() += 1
            }
        }
    }

    fn met(&self, number: u64, list: u64) -> bool {
        self.refused.contains_key(&(number, list))
    }

    /// Those of number and list that were not met.
    pub(crate) fn never_met(&self, due: &[(u64, u64)]) -> Vec<String> {
        due.iter()
            .filter(|(number, list)| !self.met(*number, *list))
            .map(|(number, list)| format!("{number} list {list}"))
            .collect()
    }

    pub(crate) fn refused(&self) -> u64 {
        self.refused.values().sum()
    }

    fn summary(&self, what: &str) -> String {
        let refused = self.refused();
        format!(
            "{} {what}, {} accepted, {refused} refused",
            self.accepted + refused,
            self.accepted,
        )
    }
}

#[derive(Default)]
pub struct Tally {
    pub logs: Verdicts,
    pub short_buffers: u64,
    /// The accepted logs by how many a bar of theirs has missing; those with a tie that decides, and by what it decides.
    missing: [u64; 5],
    tied: u64,
    ties: BTreeMap<(usize, usize), u64>,
    /// Those with an OEE below, at or above the report's in a bar.
    oee: BTreeMap<Ordering, u64>,
    /// The accepted logs by what they have of the `SHAPES`.
    credited: [u64; SHAPES.len()],
    pub short_listings: u64,
    /// Of the lookups, and those not refused by what they are of the `LOOKUPS`.
    lookups: Verdicts,
    kinds: [u64; LOOKUPS.len()],
    /// Of the calls for supplemental figures.
    pub supplemental: Verdicts,
    above_zero: u64,
    /// Of the calls that write.
    adding: Verdicts,
    /// Those of one value that does not fit, by list and field.
    too_wide_alone: BTreeMap<(u64, usize), u64>,
    pub finishing: Verdicts,
    pub joins: Joins,
    pub packings: Packings,
}

impl Tally {
    pub fn count<T>(&mut self, verdict: &Result<T, Refusal>) {
        self.logs.count(verdict);
    }

    /// The bars of a log, each class of them once.
    pub fn count_losses(&mut self, verdict: &Result<Account, Refusal>) {
        let Ok(account) = verdict else {
            return;
        };
        let bars = account.bars();
        let missing: BTreeSet<usize> = bars.iter().map(|bar| bar.missing).collect();
        for missing in missing {
            self.missing[missing] += 1;
        }
        let ties: BTreeSet<(usize, usize)> = bars.iter().filter_map(|bar| bar.tie).collect();
        self.tied += u64::from(!ties.is_empty());
        for tie in ties {
            *self.ties.entry(tie).or_default() += 1;
        }
        for oee in BTreeSet::from_iter(account.oee_beside_report()) {
            *self.oee.entry(oee).or_default() += 1;
        }
    }

    pub fn count_credited(&mut self, credited: &Result<Credited, Refusal>) {
        let Ok(credited) = credited else {
            return;
        };
        for (count, has) in self.credited.iter_mut().zip(credited.shapes()) {
            *count += u64::from(has);
        }
    }

    /// A lookup in a log, and what it answers.
    pub fn count_lookup(
        &mut self,
        credited: &Result<Credited, Refusal>,
        lookup: &Lookup,
        answer: &Result<InForce, Refusal>,
    ) {
        self.lookups.count(answer);
        let (Ok(credited), Ok(answer)) = (credited, answer) else {
            return;
        };
        for (count, is) in self.kinds.iter_mut().zip(credited.kinds(lookup, answer)) {
            *count += u64::from(is);
        }
    }

    pub fn count_supplemental(&mut self, answer: &Result<Supplemental, Refusal>) {
        self.supplemental.count(answer);
        let above_zero = answer.is_ok_and(|figures| !figures.contains(&0));
        self.above_zero += u64::from(above_zero);
    }

    pub fn count_adding<T>(&mut self, record: &Record, answer: &Result<T, Refusal>) {
        self.adding.count(answer);
        if let [field] = record.too_wide()[..] {
            let field = (record.list(), field);
            *self.too_wide_alone.entry(field).or_default() += 1;
        }
    }

    /// The refusals of the reader that no log met.
    pub fn never_met(&self) -> Vec<String> {
        self.logs.never_met(&OF_LOGS)
    }

    /// The same, and 18 where no buffer was too short.
    pub fn never_met_with_buffers(&self) -> Vec<String> {
        let short = (self.short_buffers == 0).then(|| String::from("18 list 0"));
        self.never_met().into_iter().chain(short).collect()
    }

    fn ties_of(&self, tie: (usize, usize)) -> u64 {
        *self.ties.get(&tie).unwrap_or(&0)
    }

    fn oee_that_is(&self, ordering: Ordering) -> u64 {
        *self.oee.get(&ordering).unwrap_or(&0)
    }

    /// What no bar met: so many missing, so many of so many equal remainders that get one, and an OEE that is not the report's.
    pub fn never_met_in_losses(&self) -> Vec<String> {
        let missing = (0..5).filter(|missing| self.missing[*missing] == 0);
        let missing = missing.map(|missing| format!("{missing} missing"));
        let ties = TIED.into_iter().flat_map(ties);
        let ties = ties.filter(|tie| self.ties_of(*tie) == 0);
        let ties = ties.map(|(tied, getting)| format!("{getting} of {tied} tied"));
        let below = (self.oee_that_is(Ordering::Less) == 0).then_some("OEE below the report's");
        let above = (self.oee_that_is(Ordering::Greater) == 0).then_some("OEE above the report's");
        let oee = below.into_iter().chain(above).map(String::from);
        missing.chain(ties).chain(oee).collect()
    }

    /// What no log has that shows by which revision a unit was judged.
    pub fn never_met_in_credited(&self) -> Vec<String> {
        missed(&SHAPES, &self.credited)
    }

    /// The same, and 18 where no buffer was too short for a listing.
    pub fn never_met_in_credited_with_buffers(&self) -> Vec<String> {
        let short = (self.short_listings == 0).then(|| String::from("18 list 0"));
        self.never_met_in_credited()
            .into_iter()
            .chain(short)
            .collect()
    }

    /// What no lookup met: each kind of them, a module that the tool does not have, and a refusal of the log.
    pub fn never_met_in_lookups(&self) -> Vec<String> {
        let stray = self.lookups.never_met(&[STRAY]);
        let of_log = self.lookups.refused.keys().all(|ground| *ground == STRAY);
        let of_log = of_log.then(|| String::from("a refusal of the log"));
        let kinds = missed(&LOOKUPS, &self.kinds);
        kinds.into_iter().chain(stray).chain(of_log).collect()
    }

    /// What no benchmarks met: the numbers of list 4, a refusal of the log, and four figures above 0.
    pub fn never_met_in_supplemental(&self) -> Vec<String> {
        let numbers = [5, 6, 12, 20, 21].map(|number| (number, BENCHMARKS));
        let of_log = (self.refused_by_log() == 0).then(|| String::from("a refusal of the log"));
        let above_zero = (self.above_zero == 0).then(|| String::from("figures above 0"));
        let missed = self.supplemental.never_met(&numbers).into_iter();
        missed.chain(of_log).chain(above_zero).collect()
    }

    /// What a run without buffers and calls that write did not meet.
    pub fn never_met_in_reading(&self) -> Vec<String> {
        let all = [
            self.never_met(),
            self.never_met_in_losses(),
            self.never_met_in_credited(),
            self.never_met_in_supplemental(),
        ];
        all.concat()
    }

    fn too_wide_by(&self, field: (u64, usize)) -> u64 {
        *self.too_wide_alone.get(&field).unwrap_or(&0)
    }

    /// What no adding call met: 22 for each field alone, 18, and acceptance.
    pub fn never_met_in_adding(&self) -> Vec<String> {
        let mut missed = Vec::new();
        for kind in KINDS {
            for field in 0..kind.widths().len() {
                let list = kind.list();
                if self.too_wide_by((list, field)) == 0 {
                    missed.push(format!("22 list {list} for field {field} alone"));
                }
            }
        }
        missed.extend(self.adding.never_met(&[(18, NO_LIST)]));
        missed.extend((self.adding.accepted == 0).then(|| String::from("accepted")));
        missed
    }

    /// What no finishing call met: the refusals of the reader, 18, and acceptance.
    pub fn never_met_in_finishing(&self) -> Vec<String> {
        let mut missed = self.finishing.never_met(&OF_LOGS);
        missed.extend(self.finishing.never_met(&[(18, NO_LIST)]));
        missed.extend((self.finishing.accepted == 0).then(|| String::from("accepted")));
        missed
    }

    /// Of the calls for supplemental figures, those that the log itself was refused for.
    fn refused_by_log(&self) -> u64 {
        let refused = self.supplemental.refused.iter();
        let by_log = refused.filter(|((_, list), _)| *list != BENCHMARKS);
        by_log.map(|(_, count)| count).sum()
    }

    /// The bars of the accepted logs.
    pub fn losses(&self) -> String {
        let mut text = format!("0 to 4 missing in a bar: {:?} logs\n", self.missing);
        text += &format!("a tie decides in a bar: {} logs\n", self.tied);
        for tied in TIED {
            let counts: Vec<u64> = ties(tied).map(|tie| self.ties_of(tie)).collect();
            text += &format!("{tied} tied, of which 1 and more get one: {counts:?} logs\n");
        }
        let (below, above) = (Ordering::Less, Ordering::Greater);
        let counts = [below, above].map(|ordering| self.oee_that_is(ordering));
        text + &format!("OEE in a bar below and above the report's: {counts:?} logs\n")
    }

    /// The credited units of accepted logs.
    pub fn credited(&self) -> String {
        let counted = SHAPES.iter().zip(self.credited);
        let lines = counted.map(|(name, count)| format!("{name}: {count} logs\n"));
        lines.collect()
    }

    /// The lookups of the standard in force.
    pub fn lookups(&self) -> String {
        let mut text = self.lookups.summary("lookups") + "\n";
        for (name, count) in LOOKUPS.iter().zip(self.kinds) {
            text += &format!("{name}: {count} lookups\n");
        }
        let stray = self.lookups.refused.get(&STRAY).unwrap_or(&0);
        text + &format!("refused 7 list 0: {stray} lookups\n")
    }

    /// The calls for supplemental figures.
    pub fn supplemental(&self) -> String {
        let mut text = self.supplemental.summary("slices of benchmarks") + "\n";
        text += &format!("refused by the log: {} slices\n", self.refused_by_log());
        for ((number, list), count) in &self.supplemental.refused {
            if *list == BENCHMARKS {
                text += &format!("refused {number} list {list}: {count} slices\n");
            }
        }
        text + &format!("all four figures above 0: {} slices\n", self.above_zero)
    }

    /// The calls that write.
    pub fn writing(&self) -> String {
        let mut text = self.adding.summary("adding calls") + "\n";
        for ((number, list), count) in &self.adding.refused {
            text += &format!("refused {number} list {list}: {count} adding calls\n");
        }
        for kind in KINDS {
            let fields = (0..kind.widths().len()).map(|field| (kind.list(), field));
            let counts: Vec<u64> = fields.map(|field| self.too_wide_by(field)).collect();
            let list = kind.list();
            text += &format!("refused 22 list {list} for each value alone: {counts:?}\n");
        }
        text += &(self.finishing.summary("finishing calls") + "\n");
        let past_buffer = self.finishing.refused.get(&(18, NO_LIST)).unwrap_or(&0);
        text + &format!("refused 18 list 0: {past_buffer} finishing calls\n")
    }
}

impl fmt::Display for Tally {
    fn fmt(&self, f: &mut fmt::Formatter) -> fmt::Result {
        writeln!(f, "{}", self.logs.summary("logs"))?;
        for ((number, list), count) in &self.logs.refused {
            writeln!(f, "refused {number:>2} list {list}: {count}")?;
        }
        Ok(())
    }
}
