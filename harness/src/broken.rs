//! Shows that the comparison can fail: every wrong model must be caught by it.

use crate::compare::Run;
use crate::failure::Failure;
use crate::model::{Fault, Model};

const FAULTS: [(Fault, &str); 30] = [
    (Fault::DifferenceNotCounted, "the differing comparison is not counted"),
    (Fault::MemoryKeptAfterSkip, "forward memory is kept after a fingerprint skip"),
    (Fault::MemoryKeptAfterRightDifference, "forward memory is kept after a right difference"),
    (
        Fault::BackwardMemoryKeptAfterLeftDifference,
        "backward memory is kept after a left difference",
    ),
    (Fault::BackSplitFromForward, "b is built from c for Short"),
    (Fault::LongStoresSmallestPeriod, "Long stores the needle's smallest period"),
    (Fault::LongPeriodTakenAsPeriod, "Long's p is taken as a period, with memory"),
    (Fault::LongMovesByNeedle, "Long moves by m where p is due"),
    (Fault::RejectForEver, "Reject at the end for ever instead of Done"),
    (Fault::SharedMemory, "both directions share one memory"),
    (Fault::NarrowFingerprint, "the fingerprint takes a byte AND 31"),
    (Fault::KnownPeriodBeforeRound, "the known period is tested before the round"),
    (Fault::BackwardMemoryIndexIncluded, "backward compares up to memory included"),
    (Fault::RefusalsInOtherOrder, "the refusals are checked from 5 to 1"),
    (Fault::DoneFlipsFlag, "an empty needle's flag flips again after Done"),
    (Fault::OneFlag, "both directions of an empty needle share one flag"),
    (Fault::RejectPastEnd, "an empty needle's walk ends with Reject(n, n+1)"),
    (Fault::EmptyFitsOneByte, "an empty needle's state fits a needle of one byte"),
    (Fault::EmptyRefused, "a call with an empty needle is refused by 3"),
    (Fault::ScanCountedInRounds, "a scan's comparisons are counted in rounds of eight"),
    (Fault::MatchMovesByOne, "an overlapping match moves by 1"),
    (Fault::MatchMovesByNeedle, "an overlapping match moves by m"),
    (Fault::MatchForgets, "an overlapping match sets forward memory 0"),
    (Fault::BackwardMatchForgets, "an overlapping match sets backward memory m"),
    (Fault::BackwardMatchKeepsRest, "an overlapping match sets backward memory m-p"),
    (Fault::LongMatchMovesBySmallestPeriod, "Long's match moves by the smallest period"),
    (Fault::StepNotRefused, "a step in overlapping mode is not refused"),
    (Fault::StepRefusedBeforeFit, "refusal 5 is checked before 4"),
    (Fault::CallFlipsMode, "a call changes the mode"),
    (Fault::IndexZeroLeftOut, "the local period leaves index 0 out"),
];

fn small(fault: Fault) -> Result<u64, Failure> {
    let model = Model { fault };
    let mut run = Run::new(&model);
    run.small().map(|()| run.cases)
}

/// Prints for each wrong model the first case that catches it; says whether all were caught
/// and the right model was not.
pub fn all_caught() -> bool {
    let right = small(Fault::None);
    match &right {
        Ok(cases) => println!("no fault: {cases} cases agree"),
        Err(failure) => println!("NO FAULT, but caught: {}", failure.shown()),
    }
    let mut caught = 0;
    for (fault, words) in FAULTS {
        match small(fault) {
            Ok(_) => println!("NOT CAUGHT: {words}"),
            Err(failure) => {
                caught += 1;
                println!("caught: {words}\n    {}", failure.shown());
            }
        }
    }
    println!("break: {caught} of {} wrong models are caught", FAULTS.len());
    right.is_ok() && caught == FAULTS.len()
}
