//! Compares what the library answers for one log with what the oracle answers.

use crate::answer::{lent, writes, Answer, UNTOUCHED, UNTOUCHED_FLAG};
use crate::credited::{Credited, InForce, Lookup};
use crate::library::{self, FiguresAndBases, Whose};
use crate::losses::Bar;
use crate::oracle::{figures, Account, Figures, Sums};
use crate::records::Refusal;
use crate::supplemental::Supplemental;
use std::fmt::Debug;

/// Room for every report, and for every listing.
const LARGE_ROOM: usize = 4_096;
const LARGE_ROOM_OF_LISTING: usize = 8_192;

/// The longest bytes that a line of differences shows whole.
const SHOWN_BYTES: usize = 2_000;

pub fn shown(bytes: &[u8]) -> String {
    if bytes.len() > SHOWN_BYTES {
        return format!("of {} bytes", bytes.len());
    }
    bytes.iter().map(|byte| format!("{byte:02x}")).collect()
}

/// Buffer lengths to try for a text: none, up to 1 beside its own, and a large one.
fn rooms_about(text: &[u8], large: usize) -> Vec<usize> {
    let shorter = text.len().checked_sub(1);
    let others = [text.len(), text.len() + 1, large];
    let mut rooms: Vec<usize> = [0].into_iter().chain(shorter).chain(others).collect();
    rooms.dedup();
    rooms
}

/// The text that is due in a buffer with room for so many bytes, or the refusal.
fn with_room(text: &Result<Vec<u8>, Refusal>, room: usize) -> Result<&[u8], Refusal> {
    match text {
        Ok(text) if text.len() > room => Err(Refusal::of_log(18)),
        Ok(text) => Ok(text),
        Err(refusal) => Err(*refusal),
    }
}

/// The differences of one log, one line each, and how often 18 was due, for a report and for a listing.
pub struct Comparison<'a> {
    log: &'a [u8],
    verdict: &'a Result<Account, Refusal>,
    report: Result<Vec<u8>, Refusal>,
    pub differences: Vec<String>,
    pub short_buffers: u64,
    pub short_listings: u64,
}

impl<'a> Comparison<'a> {
    /// `middle` picks one more module to ask for.
    pub fn of(
        log: &'a [u8],
        verdict: &'a Result<Account, Refusal>,
        middle: usize,
    ) -> Comparison<'a> {
        let mut comparison = Comparison::without_askings(log, verdict);
        for room in comparison.rooms() {
            comparison.verdict_with_room(room);
            comparison.report_in(room);
        }
        comparison.verdict_with_room(usize::MAX);
        for whose in comparison.askings(middle) {
            comparison.sums_and_figures(whose);
        }
        for whose in comparison.all() {
            comparison.losses(whose);
        }
        comparison
    }

    /// What a log answers that has another one's verdict: the report, and state times and quantities of every module and of the tool.
    pub fn of_packed(log: &'a [u8], verdict: &'a Result<Account, Refusal>) -> Comparison<'a> {
        let mut comparison = Comparison::without_askings(log, verdict);
        comparison.report_in(LARGE_ROOM);
        for whose in comparison.all() {
            comparison.sums(whose);
        }
        comparison
    }

    fn without_askings(log: &'a [u8], verdict: &'a Result<Account, Refusal>) -> Comparison<'a> {
        Comparison {
            log,
            verdict,
            report: verdict
                .as_ref()
                .map(Account::report)
                .map_err(|refusal| *refusal),
            differences: Vec::new(),
            short_buffers: 0,
            short_listings: 0,
        }
    }

    /// The supplemental figures with the log's slice of this number, which the call has to leave as it is.
    pub fn supplemental(
        &mut self,
        number: usize,
        slice: &[u8],
        expected: Result<Supplemental, Refusal>,
    ) {
        // At every alignment, whatever the log's.
        let offset = (slice.len() + number) % 8;
        let space = lent(slice, offset);
        let lent = &space[offset..];
        let before = self.differences.len();
        let what = format!("supplemental figures, slice {number}");
        self.compare_numbers(&what, expected, library::supplemental(self.log, lent));
        if lent != slice {
            self.differs(&what, &"the slice as it was", &shown(lent));
        }
        for difference in &mut self.differences[before..] {
            *difference += &format!("; slice {}", shown(slice));
        }
    }

    /// The credited units of every standard that a log may have, and their listing.
    pub fn credited(&mut self, credited: &Result<Credited, Refusal>) {
        let log = self.log;
        let credited = credited.as_ref().map_err(|refusal| *refusal);
        let expected = credited.map(Credited::entries);
        let answer = library::credited_units(log);
        self.compare_verdict("credited units", &expected, answer.answered, answer.refusal);
        let due = expected.unwrap_or([UNTOUCHED; 512]);
        if let Some(at) = (0..due.len()).find(|&at| due[at] != answer.values[at]) {
            let what = format!("credited units of standard {at}");
            self.differs(&what, &due[at], &answer.values[at]);
        }

        let listing = credited.map(Credited::listing);
        let rooms = match &listing {
            Ok(listing) => rooms_about(listing, LARGE_ROOM_OF_LISTING),
            Err(_) => vec![0, 1, 7_168, LARGE_ROOM_OF_LISTING],
        };
        for room in rooms {
            let expected = with_room(&listing, room);
            if expected == Err(Refusal::of_log(18)) {
                self.short_listings += 1;
            }
            let what = format!("listing with room {room}");
            let answer = self.writes(&what, expected.unwrap_or_default(), room, |lent| {
                library::credited_listing(log, lent)
            });
            let length = expected.map(|listing| [listing.len() as u64]);
            self.compare_numbers(&what, length, answer);
        }
    }

    /// The standard in force.
    pub fn lookup(&mut self, lookup: &Lookup, expected: Result<InForce, Refusal>) {
        let answer = library::standard_in_force(self.log, lookup);
        let due = match expected {
            Ok(Some(standard)) => (1, standard, [0; 3]),
            Ok(None) => (2, [UNTOUCHED; 2], [0; 3]),
            Err(it) => (0, [UNTOUCHED; 2], [it.number, it.list, it.place]),
        };
        let answered = (answer.answered, answer.values, answer.refusal);
        if answered != due {
            self.differs(&format!("{lookup:?}"), &due, &answered);
        }
    }

    /// Buffer lengths to try.
    fn rooms(&self) -> Vec<usize> {
        match &self.report {
            Ok(report) => rooms_about(report, LARGE_ROOM),
            Err(_) => vec![0, 1, 183, 2_494, LARGE_ROOM],
        }
    }

    /// The modules of the log; one where it is refused.
    fn count(&self) -> usize {
        match self.verdict {
            Ok(account) => account.modules.len(),
            Err(_) => 1,
        }
    }

    /// Modules to ask for, and the tool.
    fn askings(&self, middle: usize) -> Vec<Whose> {
        let count = self.count();
        let modules = [0, middle % count, count - 1, count, count + 1, usize::MAX];
        let mut askings: Vec<Whose> = modules.map(Whose::Module).to_vec();
        askings.dedup();
        askings.push(Whose::Tool);
        askings
    }

    /// Every module, those next to them, some far above, and the tool.
    fn all(&self) -> Vec<Whose> {
        let count = self.count();
        let far = [64, 1 << 40, usize::MAX].into_iter();
        let above = far.filter(|module| *module > count + 1);
        let modules = (0..count + 2).chain(above).map(Whose::Module);
        modules.chain([Whose::Tool]).collect()
    }

    fn differs(&mut self, what: &str, expected: &dyn Debug, answered: &dyn Debug) {
        self.differences.push(format!(
            "{what}: expected {expected:?}, answered {answered:?}"
        ));
    }

    /// The flag and the refusal that a call must leave.
    fn compare_verdict<T>(
        &mut self,
        what: &str,
        expected: &Result<T, Refusal>,
        answered: u32,
        refusal: [u64; 3],
    ) {
        let due = match expected {
            Ok(_) => (1, [0, 0, 0]),
            Err(refusal) => (0, [refusal.number, refusal.list, refusal.place]),
        };
        if (answered, refusal) != due {
            self.differs(what, &due, &(answered, refusal));
        }
    }

    fn verdict_with_room(&mut self, room: usize) {
        let expected = with_room(&self.report, room).map(<[u8]>::len);
        if expected == Err(Refusal::of_log(18)) {
            self.short_buffers += 1;
        }
        let answer = library::examine(self.log, room);
        let what = format!("verdict with room {room}");
        self.compare_verdict(&what, &expected, answer.answered, answer.refusal);
    }

    fn report_in(&mut self, room: usize) {
        let report = with_room(&self.report, room).unwrap_or_default().to_vec();
        let what = format!("report with room {room}");
        let log = self.log;
        let length = self.writes(&what, &report, room, |lent| library::report(log, lent));
        if length != report.len() {
            self.differs(&format!("length of the {what}"), &report.len(), &length);
        }
    }

    /// What a call answers that has to write this text to the front of a buffer with room for so many bytes, and nothing else there or on its two sides.
    fn writes<T>(
        &mut self,
        what: &str,
        text: &[u8],
        room: usize,
        call: impl FnOnce(&mut [u8]) -> T,
    ) -> T {
        let (answer, wrong) = writes(text, room, call);
        if let Some((byte, due, found)) = wrong {
            self.differs(&format!("{what}, byte {byte}"), &due, &found);
        }
        answer
    }

    fn expected_sums(&self, whose: Whose) -> Result<Sums, Refusal> {
        match (self.verdict, whose) {
            (Err(refusal), _) => Err(*refusal),
            (Ok(account), Whose::Module(module)) => account.module(module).copied(),
            (Ok(account), Whose::Tool) => Ok(account.tool),
        }
    }

    fn sums_and_figures(&mut self, whose: Whose) {
        self.sums(whose);
        self.compare_figures(
            &format!("figures of {whose:?}"),
            self.expected_sums(whose)
                .map(|sums| figures(&sums.quantities)),
            library::figures(self.log, whose),
        );
    }

    fn sums(&mut self, whose: Whose) {
        let expected = self.expected_sums(whose);
        self.compare_numbers(
            &format!("state times of {whose:?}"),
            expected.map(|sums| sums.state_times),
            library::state_times(self.log, whose),
        );
        self.compare_numbers(
            &format!("quantities of {whose:?}"),
            expected.map(|sums| sums.quantities.array()),
            library::quantities(self.log, whose),
        );
    }

    fn losses(&mut self, whose: Whose) {
        let expected = self.expected_sums(whose);
        self.compare_numbers(
            &format!("losses of {whose:?}"),
            expected.map(|sums| Bar::of(&sums.quantities).parts),
            library::losses(self.log, whose),
        );
    }

    fn compare_numbers<const N: usize>(
        &mut self,
        what: &str,
        expected: Result<[u64; N], Refusal>,
        answer: Answer<[u64; N]>,
    ) {
        self.compare_verdict(what, &expected, answer.answered, answer.refusal);
        let due = expected.unwrap_or([UNTOUCHED; N]);
        if answer.values != due {
            self.differs(what, &due, &answer.values);
        }
    }

    fn compare_figures(
        &mut self,
        what: &str,
        expected: Result<Figures, Refusal>,
        answer: Answer<FiguresAndBases>,
    ) {
        self.compare_verdict(what, &expected, answer.answered, answer.refusal);
        let (answered, based) = answer.values;
        let Ok(figures) = expected else {
            let kept = answered.iter().all(|figure| figure.to_bits() == UNTOUCHED);
            if !kept || based != [UNTOUCHED_FLAG; 4] {
                self.differs(what, &"arrays as they were", &(answered, based));
            }
            return;
        };
        let due_based = figures
            .efficiencies
            .map(|efficiency| u8::from(efficiency.is_some()));
        if based != due_based {
            self.differs(&format!("bases in {what}"), &due_based, &based);
        }
        let [availability, operational, rate, quality] = figures.efficiencies;
        let due = [
            availability,
            operational,
            rate,
            quality,
            Some(figures.oee),
            Some(figures.product),
        ];
        for (index, (due, answered)) in due.iter().zip(answered).enumerate() {
            let same = match due {
                Some(figure) => figure.to_bits() == answered.to_bits(),
                None => answered.is_nan() && answered.to_bits() != UNTOUCHED,
            };
            if !same {
                self.differs(&format!("figure {index} in {what}"), due, &answered);
            }
        }
    }
}
