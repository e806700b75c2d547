// The original Rust behind the same questions as the model, but for the walks of an empty needle,
// which retold.rs answers.
//
// original.rs includes this text twice: over the unchanged crate and over the copy that counts.
// The module around it brings `probe`, `TwoWaySearcher`, `find_bytes`, `rfind_bytes` and
// `counts`, the counts since it was last called.

fn fields(state: &State) -> probe::Fields {
    let Kind::TwoWay(two_way) = state.kind else { panic!("not a TwoWaySearcher: {state:?}") };
    probe::Fields {
        crit_pos: two_way.c,
        crit_pos_back: two_way.b,
        period: two_way.p,
        byteset: two_way.set,
        position: state.position,
        end: state.end,
        memory: match two_way.memory {
            Memory::Long => None,
            Memory::Short { forward, backward } => Some((forward, backward)),
        },
    }
}

fn state(m: usize, n: usize, mode: Mode, fields: &probe::Fields) -> State {
    let kind = Kind::TwoWay(TwoWay {
        c: fields.crit_pos,
        b: fields.crit_pos_back,
        p: fields.period,
        set: fields.byteset,
        memory: match fields.memory {
            None => Memory::Long,
            Some((forward, backward)) => Memory::Short { forward, backward },
        },
    });
    State { m, n, position: fields.position, end: fields.end, mode, kind }
}

fn stepped(step: probe::Step) -> Answer {
    match step {
        probe::Step::Match(a, b) => Answer::Match(a, b),
        probe::Step::Reject(a, b) => Answer::Reject(a, b),
        probe::Step::Done => Answer::Done,
    }
}

fn matched(found: Option<(usize, usize)>) -> Answer {
    found.map_or(Answer::None, |(a, b)| Answer::Match(a, b))
}

/// The Rust has no modes. In overlapping mode it is put behind a match as its notes say, and a step
/// is refused before it is asked.
fn called(
    call: Call,
    mode: Mode,
    fields: &mut probe::Fields,
    needle: &[u8],
    haystack: &[u8],
) -> Answer {
    if mode.refuses(call) {
        return Answer::Refused(STEP_OVERLAPPING);
    }
    let answer = match call {
        Call::Step => stepped(fields.step(needle, haystack)),
        Call::StepBack => stepped(fields.step_back(needle, haystack)),
        Call::Next => matched(fields.next_match(needle, haystack)),
        Call::NextBack => matched(fields.next_match_back(needle, haystack)),
    };
    match (mode, answer) {
        (Mode::Overlapping, Answer::Match(_, end)) if call.is_backward() => {
            fields.overlap_back(end)
        }
        (Mode::Overlapping, Answer::Match(start, _)) => fields.overlap(start, needle),
        _ => {}
    }
    answer
}

fn walked(needle: &[u8], haystack: &[u8], mode: Mode, script: &[Call]) -> Reply {
    let mut fields = probe::Fields::prepare(needle, haystack.len());
    let preparing = counts().preparing;
    let one = |&call: &Call| (called(call, mode, &mut fields, needle, haystack), counts());
    let calls = script.iter().map(one).collect();
    Reply::Walked { preparing, calls, state: state(needle.len(), haystack.len(), mode, &fields) }
}

/// Only for cases that 01 does not refuse: the Rust has no refusals.
pub fn reply(case: &Case) -> Reply {
    match case {
        Case::Suffix { word, greater } => {
            let (start, period) = TwoWaySearcher::maximal_suffix(word, *greater);
            Reply::Suffix { start, period, rounds: counts().preparing }
        }
        Case::ReverseSuffix { word, known, greater } => {
            let start = TwoWaySearcher::reverse_maximal_suffix(word, *known, *greater);
            Reply::ReverseSuffix { start, rounds: counts().preparing }
        }
        Case::Prepare { needle, n, mode } => {
            let state = state(needle.len(), *n, *mode, &probe::Fields::prepare(needle, *n));
            Reply::Prepared { state, preparing: counts().preparing }
        }
        Case::Search { needle, haystack, backward } => {
            let search = if *backward { rfind_bytes } else { find_bytes };
            let position = search(haystack, needle);
            Reply::Found { position, counts: counts() }
        }
        Case::Call { call, needle, haystack, state: before } => {
            let mut fields = fields(before);
            let answer = called(*call, before.mode, &mut fields, needle, haystack);
            let state = state(needle.len(), haystack.len(), before.mode, &fields);
            Reply::Called(Called { answer, state, counts: counts() })
        }
        Case::Walk { needle, haystack, mode, script } => walked(needle, haystack, *mode, script),
    }
}
